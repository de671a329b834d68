#!/usr/bin/env bash
# examples/wireguard.sh [BRACHA]: four members, each on a host of its own, over WireGuard, which gives each of them an
# address that nobody else can use. The hosts are network namespaces of this machine, so it wants root, `ip`, `wg`, `python3`
# and the kernel's WireGuard or wireguard-go. It proposes to each member and asks each until it has decided; then it takes
# member 3's place and tries to speak for member 0, from a false address and from its own. What docs/OPERATING.md says of
# networks was tried with it. BRACHA is the program, `bracha` of the path if it isn't said.
set -euo pipefail
bracha=$(realpath "$(command -v "${1:-bracha}")")
room=$(mktemp -d)
members="0 1 2 3"

clean() {
    for m in $members; do
        ip netns pids "bracha-$m" 2>/dev/null | xargs -r kill 2>/dev/null || true
        ip netns del "bracha-$m" 2>/dev/null || true
        ip link del "bracha-v$m" 2>/dev/null || true
    done
    ip link del bracha-hub 2>/dev/null || true
    rm -rf "$room"
}
trap clean EXIT
cd "$room"
umask 077

at() { # at MEMBER COMMAND..: the command on that member's host
    local m=$1
    shift
    ip netns exec "bracha-$m" "$@"
}

# Hosts, joined by an ordinary network that nobody has to trust: 10.9.0.1 to 10.9.0.4.
ip link add bracha-hub type bridge
ip link set bracha-hub up
for m in $members; do
    ip netns add "bracha-$m"
    ip link add "bracha-v$m" type veth peer name under netns "bracha-$m"
    ip link set "bracha-v$m" master bracha-hub up
    at "$m" ip link set lo up
    at "$m" ip address add "10.9.0.$((m + 1))/24" dev under
    at "$m" ip link set under up
    wg genkey > "key-$m"
    wg pubkey < "key-$m" > "public-$m"
done

# Tunnels: member m has 10.77.0.(m+1). A packet from another address doesn't come through the tunnel of a key: `allowed-ips`.
for m in $members; do
    at "$m" ip link add "wg$m" type wireguard 2>/dev/null || at "$m" wireguard-go "wg$m" > /dev/null 2>&1
    at "$m" ip address add "10.77.0.$((m + 1))/24" dev "wg$m"
    at "$m" wg set "wg$m" private-key "key-$m" listen-port 51820
    for peer in $members; do
        [ "$peer" = "$m" ] || at "$m" wg set "wg$m" peer "$(cat "public-$peer")" \
            allowed-ips "10.77.0.$((peer + 1))/32" endpoint "10.9.0.$((peer + 1)):51820"
    done
    at "$m" ip link set "wg$m" up
done

for m in $members; do
    cat > "member-$m.toml" <<SETTINGS
cluster = 7
n = 4
t = 1
questions = 2
me = $m
journal = "member-$m.journal"
peers = ["10.77.0.1:7100", "10.77.0.2:7100", "10.77.0.3:7100", "10.77.0.4:7100"]
desk = "127.0.0.1:7110"
seed = "$(od -An -v -tx1 -N32 /dev/urandom | tr -d ' \n')"
SETTINGS
    "$bracha" init "member-$m.toml"
    at "$m" "$bracha" run --stay --log "member-$m.toml" > "said-$m" 2> "log-$m" &
done

decides() { # decides QUESTION BIT MEMBER..: proposes the bit to each of these members, and asks each until it has decided
    local question=$1 bit=$2 m
    shift 2
    for m in "$@"; do
        until at "$m" "$bracha" propose 127.0.0.1:7110 "$question" "$bit" > reply 2>/dev/null; do sleep 0.1; done
    done
    for m in "$@"; do
        for _ in $(seq 150); do
            at "$m" "$bracha" ask 127.0.0.1:7110 "$question" > reply 2>&1 || true
            grep -q DECIDED reply && ! grep -q UNDECIDED reply && break
            sleep 0.2
        done
        echo "member $m on question $question: $(cat reply)"
    done
}
decides 0 0 $members

# Member 3 lies: it greets member 1 as member 0, once from member 0's address, and once from its own.
ip netns pids bracha-3 | xargs -r ps -o pid=,comm= -p | awk '$2 == "bracha" { print $1 }' | xargs -r kill
at 3 ip address add 10.77.0.1/32 dev wg3
greets() { # greets FROM: whether a Hello of member 0 to member 1 is welcomed from that address
    at 3 python3 - "$1" <<'DIAL'
import socket, sys
hello = bytes.fromhex("00100101" "0000000000000007" "04010002" "0001")
try:
    link = socket.create_connection(("10.77.0.2", 7100), timeout=4, source_address=(sys.argv[1], 0))
    link.settimeout(4)
    link.sendall(hello)
    print("welcomed" if len(link.recv(11)) == 11 else "closed, nothing was said")
except OSError as why:
    print("no connection:", why)
DIAL
}
echo "as member 0 from 10.77.0.1: $(greets 10.77.0.1)"
echo "as member 0 from 10.77.0.4: $(greets 10.77.0.4)"
sleep 1
grep -m 1 'refused from' log-1 || cat log-1
decides 1 1 0 1 2
