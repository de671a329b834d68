#!/usr/bin/env bash
# Four members on hosts of their own, one of which lies: from its host it proposes 0 at the others' desks, whose owners then
# propose 1. The desks of `new-cluster` are out of its reach, so each owner's proposal counts, and 1 is decided. Run by hand, as
# root: it makes network namespaces of its own. Its last line is `N passed, M failed`.
#
#   tests/liar-at-a-desk.sh [PROGRAM]   by default crates/bracha/out/bracha, which `rt run` makes in crates/bracha
set -euo pipefail
cd "$(dirname "$0")/.."
program=$(realpath "${1:-crates/bracha/out/bracha}")
if [ "${IN_NAMESPACE-}" != yes ]; then
    IN_NAMESPACE=yes exec unshare --net --mount bash "$0" "$program"
fi
mkdir -p /run/netns
mount -t tmpfs none /run/netns
room=$(mktemp -d)
started=()
trap 'kill "${started[@]}" 2>/dev/null || true; wait; rm -rf "$room"' EXIT
cd "$room"
passed=0
failed=0

# Whether the command ends with this status and prints this: says WHAT STATUS TEXT COMMAND..
says() {
    local status=0 said
    said=$("${@:4}" 2>/dev/null </dev/null) || status=$?
    if [ "$status" = "$2" ] && [ "$said" = "$3" ]; then
        passed=$((passed + 1))
    else
        echo "$1: status $status: $said"
        failed=$((failed + 1))
    fi
}

ip link add hub type bridge
ip link set hub up
for member in 0 1 2 3; do
    ip netns add "host-$member"
    ip link add "cable-$member" type veth peer name own netns "host-$member"
    ip link set "cable-$member" master hub up
    ip -n "host-$member" link set lo up
    ip -n "host-$member" address add "10.0.0.$((member + 1))/24" dev own
    ip -n "host-$member" link set own up
done
at() { ip netns exec "host-$1" "${@:2}"; }

"$program" new-cluster --n 4 --t 1 --questions 64 --cluster 7 . 10.0.0.1,10.0.0.2,10.0.0.3,10.0.0.4 >/dev/null
for member in 0 1 2; do
    "$program" init "member-$member.toml"
    at "$member" env --block-signal=TERM,INT "$program" run --stay "member-$member.toml" >"out-$member" 2>&1 &
    started+=($!)
done
for member in 0 1 2; do
    until at "$member" "$program" status --ready "127.0.0.1:711$member" >/dev/null 2>&1; do sleep 0.1; done
    says "the liar at desk $member" 1 '' at 3 "$program" propose --timeout 5 "10.0.0.$((member + 1)):711$member" 5 0
done
for member in 0 1 2; do
    says "the owner of member $member" 0 OK at "$member" "$program" propose --timeout 5 "127.0.0.1:711$member" 5 1
done
for member in 0 1 2; do
    says "member $member decides" 0 'DECIDED 1' at "$member" "$program" ask --wait --timeout 30 "127.0.0.1:711$member" 5
done
echo "$passed passed, $failed failed"
[ "$failed" = 0 ]
