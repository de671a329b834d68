#!/usr/bin/env bash
# Installs the Debian package (packaging/deb.sh) in a clean Debian of its own, runs a member there as the package's user, removes
# the package and installs it again. Run by hand, as root, with debootstrap and a mirror of Debian; a minute or two. The clean
# Debian is made in a new folder, which is removed in the end. Its last line is `N passed, M failed`; status 1 if M isn't 0.
#
#   packaging/try-deb.sh [PROGRAM]   by default crates/bracha/out/bracha
set -euo pipefail
program=$(realpath "${1:-"$(dirname "$0")/../crates/bracha/out/bracha"}")
cd "$(dirname "$0")/.."
room=$(mktemp -d)
clean=$room/debian
passed=0
failed=0
trap 'umount "$clean/proc" 2>/dev/null || true; rm -rf "$room"' EXIT

# Whether the command ends with status 0 in the clean Debian, in a network of its own: does WHAT COMMAND
does() {
    if said=$(unshare -n chroot "$clean" bash -c "ip link set lo up 2>/dev/null || true; $2" 2>&1 </dev/null); then
        passed=$((passed + 1))
    else
        echo "$1: $said"
        failed=$((failed + 1))
    fi
}

package=$(packaging/deb.sh "$program" "$room")
debootstrap --variant=minbase --include=iproute2,man-db bookworm "$clean" >"$room/made" 2>&1 || { tail -n 5 "$room/made"; exit 1; }
mount -t proc proc "$clean/proc"
cp "$package" "$clean/bracha.deb"
does 'dpkg installs it' 'dpkg -i /bracha.deb'
does 'it is of one version' '[ "bracha $(dpkg-query -W -f "\${Version}" bracha)" = "$(bracha --version | head -n 1)" ]'
does 'what is installed is what was packed' 'dpkg -V bracha && [ -z "$(dpkg -V bracha)" ]'
does 'no file of /etc is its own' '[ -z "$(dpkg-query -W -f "\${Conffiles}" bracha)" ]'
does 'the user' '[ "$(getent passwd bracha | cut -d : -f 6,7)" = /var/lib/bracha:/usr/sbin/nologin ]'
does 'the folders' '[ "$(stat -c "%U:%G %a %n" /etc/bracha /var/lib/bracha | paste -sd " ")" = "root:bracha 750 /etc/bracha bracha:bracha 700 /var/lib/bracha" ]'
does 'the man page' 'man -w bracha | grep -q bracha.1.gz'
does 'the unit runs what is installed' 'grep -q "XFSZ /usr/bin/bracha run --stay --log /etc/bracha/%i.toml" /usr/lib/systemd/system/bracha@.service'
does 'completions' 'ls /usr/share/bash-completion/completions/bracha /usr/share/zsh/vendor-completions/_bracha /usr/share/fish/vendor_completions.d/bracha.fish'
does 'settings and a journal' 'cd /tmp && bracha new-cluster --n 1 --t 0 --questions 4 --cluster 7 . &&
    install -m 640 -g bracha member-0.toml /etc/bracha/0.toml && cd /var/lib/bracha && setpriv --reuid bracha --regid bracha --init-groups bracha init /etc/bracha/0.toml'
does 'a member runs, decides and ends' 'cd /var/lib/bracha
    setpriv --reuid bracha --regid bracha --init-groups env --block-signal=TERM,INT bracha run --stay --log /etc/bracha/0.toml >/tmp/out 2>/tmp/log & member=$!
    for _ in {1..100}; do grep -qs ready /tmp/out && break; sleep 0.1; done
    bracha propose 127.0.0.1:7110 2 1 && bracha ask --wait --timeout 30 127.0.0.1:7110 2 | grep -x "DECIDED 1" && kill "$member" && wait "$member" && grep " end$" /tmp/log'
does 'the unit of the gateway runs what is installed' 'grep -q "INT /usr/bin/bracha gateway --listen 127.0.0.1:7180 --token" /usr/lib/systemd/system/bracha-gateway.service'
does 'removed' 'dpkg -r bracha && ! command -v bracha && [ ! -e /usr/lib/systemd/system/bracha@.service ] && [ ! -e /usr/share/man/man1/bracha.1.gz ]'
does 'settings, journal and user stay' 'ls /etc/bracha/0.toml /var/lib/bracha/member-0.journal && getent passwd bracha'
does 'purged, and they stay' 'dpkg -P bracha && ls /etc/bracha/0.toml /var/lib/bracha/member-0.journal && getent passwd bracha'
does 'installed again, the journal is good' 'dpkg -i /bracha.deb && cd /var/lib/bracha && setpriv --reuid bracha --regid bracha --init-groups bracha dump member-0.journal | grep -x "decided 2 1 1\|decided 2 .*"'
echo "$passed passed, $failed failed"
[ "$failed" = 0 ]
