#!/usr/bin/env bash
# examples/tls.sh [BRACHA]: four members, each on a host of its own, whose links go through TLS. A stunnel on each host holds the
# member's key, and takes from each other member only the one certificate that it was given (pinned): so whoever lacks a
# member's key can't speak for it. The hosts are network namespaces of this machine, so it wants root, `ip`, `stunnel` and
# `openssl`. It proposes to each member and asks each until it has decided; then member 3 tries to speak for member 0, with its
# own key. What docs/OPERATING.md says of TLS was tried with it. BRACHA is the program, `bracha` of the path if it isn't said.
#
# On the host of member m, with p another member:
#
#   bracha m --> 127.0.0.(p+2):7100 = stunnel of m, to-p ==TLS==> host of p, port 7440+m = stunnel of p, from-m
#                                                                            --> 127.0.0.1:7100 = bracha p
#
# The last hop comes from 127.0.0.(m+2), which is m's address in the `peers` of p: each stunnel writes it there (`local`).
set -euo pipefail
bracha=$(realpath "$(command -v "${1:-bracha}")")
stunnel=$(command -v stunnel || command -v stunnel4)
room=$(mktemp -d)
members="0 1 2 3"

clean() {
    for m in $members; do
        ip netns pids "bracha-$m" 2>/dev/null | xargs -r kill 2>/dev/null || true
        ip netns del "bracha-$m" 2>/dev/null || true
        ip link del "bracha-v$m" 2>/dev/null || true
    done
    ip link del bracha-hub 2>/dev/null || true
    rm -rf "$room"
}
trap clean EXIT
cd "$room"
umask 077

at() { # at MEMBER COMMAND..: the command on that member's host
    local m=$1
    shift
    ip netns exec "bracha-$m" "$@"
}

# Hosts, joined by an ordinary network that nobody has to trust: 10.9.0.1 to 10.9.0.4. Each member makes a key and a certificate
# of its own, and gives the others the certificate.
ip link add bracha-hub type bridge
ip link set bracha-hub up
for m in $members; do
    ip netns add "bracha-$m"
    ip link add "bracha-v$m" type veth peer name under netns "bracha-$m"
    ip link set "bracha-v$m" master bracha-hub up
    at "$m" ip link set lo up
    at "$m" ip address add "10.9.0.$((m + 1))/24" dev under
    at "$m" ip link set under up
    openssl req -x509 -newkey ec -pkeyopt ec_paramgen_curve:prime256v1 -nodes -days 365 \
        -subj "/CN=member-$m" -keyout "key-$m.pem" -out "certificate-$m.pem" 2>/dev/null
done

configuration() { # configuration MEMBER: that of the stunnel on its host
    local m=$1 p
    cat <<HEAD
foreground = yes
debug = notice
pid =
cert = $room/certificate-$m.pem
key = $room/key-$m.pem
sslVersionMin = TLSv1.3
HEAD
    for p in $members; do
        [ "$p" != "$m" ] || continue
        cat <<PEER

[from-$p]
accept = 10.9.0.$((m + 1)):$((7440 + p))
CAfile = $room/certificate-$p.pem
verifyPeer = yes
connect = 127.0.0.1:7100
local = 127.0.0.$((p + 2))

[to-$p]
client = yes
accept = 127.0.0.$((p + 2)):7100
connect = 10.9.0.$((p + 1)):$((7440 + m))
CAfile = $room/certificate-$p.pem
verifyPeer = yes
PEER
    done
}

peers_at() { # peers_at MEMBER: its own address, and those at which its stunnel takes links to the others
    local m=$1 p peers=
    for p in $members; do
        if [ "$p" = "$m" ]; then peers+='"127.0.0.1:7100"'; else peers+="\"127.0.0.$((p + 2)):7100\""; fi
        [ "$p" = 3 ] || peers+=', '
    done
    echo "[$peers]"
}

for m in $members; do
    configuration "$m" > "stunnel-$m.conf"
    at "$m" "$stunnel" "stunnel-$m.conf" > "stunnel-$m" 2>&1 &
    cat > "member-$m.toml" <<SETTINGS
cluster = 7
n = 4
t = 1
questions = 2
me = $m
journal = "member-$m.journal"
peers = $(peers_at "$m")
desk = "127.0.0.1:7110"
seed = "$(od -An -v -tx1 -N32 /dev/urandom | tr -d ' \n')"
SETTINGS
    "$bracha" init "member-$m.toml"
    at "$m" "$bracha" run --stay --log "member-$m.toml" > "said-$m" 2> "log-$m" &
done

decides() { # decides QUESTION BIT MEMBER..: proposes the bit to each of these members, and asks each until it has decided
    local question=$1 bit=$2 m
    shift 2
    for m in "$@"; do
        until at "$m" "$bracha" propose 127.0.0.1:7110 "$question" "$bit" > reply 2>/dev/null; do sleep 0.1; done
    done
    for m in "$@"; do
        at "$m" "$bracha" ask --wait --timeout 30 127.0.0.1:7110 "$question" > reply 2>&1 || true
        echo "member $m on question $question: $(cat reply)"
    done
}
decides 0 0 $members

# Member 3 lies: it goes to the port at which the host of member 1 takes member 0, with its own key, and with no key.
knocks() { # knocks WORD..: what comes of a connection of TLS to that port, with these options
    # A server of TLS 1.3 looks at the certificate when the client's own part is done: read on for two seconds.
    sleep 2 | at 3 timeout 5 openssl s_client -connect 10.9.0.2:7440 "$@" > knocked 2>&1 || true
    grep -om 1 -E 'alert [a-z ]+' knocked | head -n 1 || echo 'let in'
}
echo "as member 0 with the key of member 3: $(knocks -cert certificate-3.pem -key key-3.pem)"
echo "as member 0 with no key: $(knocks)"
echo "as member 0 with the key of member 0: $(knocks -cert certificate-0.pem -key key-0.pem)"
decides 1 1 0 1 2
