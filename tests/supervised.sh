#!/usr/bin/env bash
# Does what packaging/bracha@.service says for a member whose disk is full for a minute, and looks whether the member comes back by
# itself: it is started again after a pause on each status but 0 and 2, first after 2 s, and after a minute at most. It takes some
# three minutes, wants root, and runs in namespaces of its own. By hand, before a release. Its last line is `N passed, M failed`.
#
#   tests/supervised.sh [PROGRAM]   by default crates/bracha/out/bracha, which `rt run` makes in crates/bracha
set -euo pipefail
cd "$(dirname "$0")/.."
program=$(realpath "${1:-crates/bracha/out/bracha}")
if [ -z "${BRACHA_APART-}" ]; then
    BRACHA_APART=yes exec unshare --mount --net --pid --fork --kill-child --mount-proc "tests/$(basename "$0")" "$program"
fi
unit=packaging/bracha@.service
pause=$(sed -n 's/^RestartSec=//p' "$unit")
most=$(sed -n 's/^RestartMaxDelaySec=//p' "$unit")
steps=$(sed -n 's/^RestartSteps=//p' "$unit")
passed=0
failed=0
room=$(mktemp -d)
trap 'umount --lazy "$room/disk" 2>/dev/null || true; rm -rf "$room"' EXIT
ip link set lo up
cd "$room"

# holds WHAT COMMAND..: whether the command ends with status 0
holds() {
    if "${@:2}"; then
        passed=$((passed + 1))
    else
        echo "no: $1"
        failed=$((failed + 1))
    fi
}

# supervise MEMBER: runs it as systemd does by the unit. Each end is a line `SECONDS STATUS` of ends-MEMBER.
supervise() {
    local member=$1 starts=0 status
    while true; do
        status=0
        env --block-signal=TERM,INT --ignore-signal=XFSZ "$program" run --stay --log "member-$member.toml" \
            >>"out-$member" 2>>"log-$member" </dev/null || status=$?
        echo "$SECONDS $status" >>"ends-$member"
        if [ "$status" = 0 ] || [ "$status" = 2 ]; then return; fi
        sleep "$(awk -v s="$pause" -v m="$most" -v n="$steps" -v k="$starts" 'BEGIN { if (k > n) k = n; print s * (m / s) ^ (k / n) }')"
        starts=$((starts + 1))
    done
}

# until_true SECONDS COMMAND..: whether the command ends with status 0 within these seconds
until_true() {
    local end=$((SECONDS + $1))
    until "${@:2}"; do
        [ "$SECONDS" -lt "$end" ] || return 1
        sleep 0.2
    done
}

# decide QUESTION: proposes 1 on it to members 0 to 2, which decide it without member 3
decide() {
    for member in 0 1 2; do "$program" propose "127.0.0.1:711$member" "$1" 1 >/dev/null; done
    [ "$("$program" ask --wait --timeout 30 127.0.0.1:7110 "$1")" = "DECIDED 1" ]
}

# knows QUESTION: whether member 3 has decided it
knows() {
    [ "$("$program" --quiet ask --timeout 2 127.0.0.1:7113 "$1" 2>/dev/null)" = "DECIDED 1" ]
}

# How often member 3 ended until now.
ends() {
    cat ends-3 2>/dev/null | wc -l
}

"$program" new-cluster --n 4 --t 1 --questions 64 --cluster 7 . >/dev/null
mkdir disk
mount -t tmpfs -o size=256k tmpfs disk
sed -i 's#^journal = .*#journal = "disk/member-3.journal"#' member-3.toml
for member in 0 1 2 3; do
    "$program" init "member-$member.toml"
    supervise "$member" &
done
for member in 0 1 2 3; do
    holds "member $member is up" until_true 30 grep -qs ready "out-$member"
done
holds 'a question is decided' decide 0
holds 'member 3 decides it' until_true 20 knows 0

# The disk is full for a minute.
head -c 1M /dev/zero >disk/filler 2>/dev/null || true
full=$SECONDS
question=1
while [ $((SECONDS - full)) -lt 60 ]; do
    if [ "$question" -lt 40 ]; then
        decide "$question" || { echo "question $question isn't decided"; failed=$((failed + 1)); }
        question=$((question + 1))
    fi
    sleep 1
done
holds 'the others went on' [ "$question" -gt 20 ]
holds 'it ended with status 1, which says why' bash -c '[ "$(cut -d " " -f 2 ends-3 | sort -u)" = 1 ] && grep -q "Z stopped device: No space left on device" log-3'
during=$(ends)
holds "it was started again, and not all the time: $during ends in the minute" [ "$during" -ge 2 -a "$during" -le 9 ]

# There is room again: it comes back by itself, and learns what it missed.
rm disk/filler
holds 'it is back within the longest pause' until_true $((most + 20)) knows $((question - 1))
holds 'a new question is decided there too' decide 50
holds 'member 3 decides the new one' until_true 20 knows 50
echo "ends of member 3, in seconds, and their statuses: $(paste -sd , ends-3)"
echo "$passed passed, $failed failed"
[ "$failed" = 0 ]
