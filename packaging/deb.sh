#!/usr/bin/env bash
# Makes a Debian package of the program: bracha_VERSION_ARCH.deb, and prints its path. Wants dpkg-deb, gzip and the program.
#
#   packaging/deb.sh [PROGRAM [FOLDER]]
#   packaging/deb.sh --library [LIBRARY [FOLDER]]
#
# The second makes a package of the C library in its place, libbracha-dev_VERSION_ARCH.deb: header, static and shared library, and
# bracha.pc. LIBRARY is the folder that packaging/library.sh made, by default out/library. PROGRAM is crates/bracha/out/bracha, which `rt run` makes in crates/bracha; FOLDER, where the package goes, is this one.
#
# The package has the program, its man page, completions of three shells and the units bracha@.service and bracha-gateway.service,
# which it doesn't start: `systemctl enable --now bracha@3` starts the member of /etc/bracha/3.toml. At its installation it makes the system's user
# bracha, /etc/bracha for settings (which only root and that user can read) and /var/lib/bracha for journals (that user's own).
# Its removal, also with --purge, leaves settings, journals and the user: a member whose journal is lost may never run again.
set -euo pipefail

# The package of the library: library_package LIBRARY FOLDER VERSION.
library_package() {
    local machine made
    machine=$(dpkg --print-architecture)
    made=$2/libbracha-dev_${3}_$machine.deb
    for file in include/bracha.h lib/libbracha.a lib/libbracha.so.0 lib/pkgconfig/bracha.pc; do
        install -D -m 644 "$1/$file" "$room/tree/usr/$file"
    done
    ln -s libbracha.so.0 "$room/tree/usr/lib/libbracha.so"
    install -D -m 644 LICENSE "$room/tree/usr/share/doc/libbracha-dev/copyright"
    mkdir -p "$room/tree/DEBIAN"
    echo 'activate-noawait ldconfig' >"$room/tree/DEBIAN/triggers"
    cat >"$room/tree/DEBIAN/control" <<CONTROL
Package: libbracha-dev
Version: $3
Section: libdevel
Priority: optional
Architecture: $machine
Depends: libc6
Installed-Size: $(du -sk "$room/tree" | cut -f 1)
Maintainer: The Weltsakum maintainers <bracha@localhost>
Description: core of a member of asynchronous Byzantine agreement, as a C library
 For programs that have a network and a disk of their own and embed a member of
 a bracha cluster: one function hears a statement, and answers with the records
 to be saved and sent. Header, static and shared library.
CONTROL
    (cd "$room/tree" && find usr -type f -exec md5sum {} + | sort -k 2 >DEBIAN/md5sums)
    dpkg-deb --build --root-owner-group "$room/tree" "$made" >/dev/null
    echo "$made"
}
if [ "${1-}" = --library ]; then
    folder=$(realpath "${3:-.}")
    library=$(realpath -m "${2:-"$(dirname "$0")/../out/library"}")
    cd "$(dirname "$0")/.."
    [ -f "$library/lib/libbracha.a" ] || { echo "there is no library in $library: make it by packaging/library.sh" >&2; exit 1; }
    version=$(sed -n 's/^Version: //p' "$library/lib/pkgconfig/bracha.pc")
    room=$(mktemp -d)
    trap 'rm -rf "$room"' EXIT
    umask 022
    library_package "$library" "$folder" "$version"
    exit
fi

folder=$(realpath "${2:-.}")
program=$(realpath "${1:-"$(dirname "$0")/../crates/bracha/out/bracha"}")
cd "$(dirname "$0")/.."
[ -x "$program" ] || { echo "there is no program $program: make it by (cd crates/bracha && rt run -- --version)" >&2; exit 1; }
version=$("$program" --version | sed -n '1s/^bracha //p')
machine=$(dpkg --print-architecture)
room=$(mktemp -d)
trap 'rm -rf "$room"' EXIT
umask 022

# put MODE FILE PLACE: the file, at that place of the package
put() {
    install -D -m "$1" "$2" "$room/tree/$3"
}
# zipped FILE PLACE: the same with gzip, which gives the same bytes for the same file
zipped() {
    mkdir -p "$room/tree/$(dirname "$2")"
    gzip -9nc "$1" >"$room/tree/$2"
}
put 755 "$program" usr/bin/bracha
zipped packaging/bracha.1 usr/share/man/man1/bracha.1.gz
put 644 packaging/completions/bracha.bash usr/share/bash-completion/completions/bracha
put 644 packaging/completions/_bracha usr/share/zsh/vendor-completions/_bracha
put 644 packaging/completions/bracha.fish usr/share/fish/vendor_completions.d/bracha.fish
sed -e 's#/usr/local/bin/bracha#/usr/bin/bracha#' -e '/^#   useradd/d' -e '/^#   install -d/d' packaging/bracha@.service >"$room/unit"
put 644 "$room/unit" usr/lib/systemd/system/bracha@.service
sed -e 's#/usr/local/bin/bracha#/usr/bin/bracha#' -e '/^#   useradd/d' packaging/bracha-gateway.service >"$room/unit"
put 644 "$room/unit" usr/lib/systemd/system/bracha-gateway.service
put 644 packaging/grafana.json usr/share/doc/bracha/grafana.json
put 644 LICENSE usr/share/doc/bracha/copyright
zipped CHANGELOG.md usr/share/doc/bracha/changelog.gz
mkdir -p "$room/tree/etc/bracha" "$room/tree/var/lib/bracha" "$room/tree/DEBIAN"

libc=$(grep -ao 'GLIBC_[0-9]\.[0-9]*' "$program" | sed 's/GLIBC_//' | sort -Vu | tail -n 1)
cat >"$room/tree/DEBIAN/control" <<CONTROL
Package: bracha
Version: $version
Section: net
Priority: optional
Architecture: $machine
Depends: libc6${libc:+ (>= $libc)}, passwd
Installed-Size: $(du -sk "$room/tree" | cut -f 1)
Maintainer: The Weltsakum maintainers <bracha@localhost>
Description: cluster that settles yes-or-no questions while some of its members lie
 Asynchronous Byzantine agreement after Gabriel Bracha: n members decide many
 yes-or-no questions while up to t of them lie, for n > 3t. Each member keeps a
 journal on its disk, and may be killed at any moment and started again.
CONTROL
cat >"$room/tree/DEBIAN/postinst" <<'SCRIPT'
#!/bin/sh
set -e
if [ "$1" = configure ]; then
    getent passwd bracha >/dev/null ||
        useradd --system --user-group --home-dir /var/lib/bracha --no-create-home --shell /usr/sbin/nologin bracha
    chown root:bracha /etc/bracha
    chmod 750 /etc/bracha
    chown bracha:bracha /var/lib/bracha
    chmod 700 /var/lib/bracha
    if [ -d /run/systemd/system ]; then systemctl daemon-reload || true; fi
fi
SCRIPT
cat >"$room/tree/DEBIAN/prerm" <<'SCRIPT'
#!/bin/sh
set -e
if [ "$1" = remove ] && [ -d /run/systemd/system ]; then systemctl stop 'bracha@*.service' bracha-gateway.service || true; fi
SCRIPT
cat >"$room/tree/DEBIAN/postrm" <<'SCRIPT'
#!/bin/sh
set -e
if [ -d /run/systemd/system ]; then systemctl daemon-reload || true; fi
SCRIPT
chmod 755 "$room/tree/DEBIAN/"p*
(cd "$room/tree" && find etc usr var -type f -exec md5sum {} + | sort -k 2 >DEBIAN/md5sums)
package=$folder/bracha_${version}_$machine.deb
dpkg-deb --build --root-owner-group "$room/tree" "$package" >/dev/null
echo "$package"
