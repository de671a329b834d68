#!/usr/bin/env bash
# Runs a cluster of four members on this machine and kills one of them, by SIGKILL, in the middle of the proposals on each
# of twelve questions. On one all propose 0, on the next all propose 1, on the third two propose 0 and two propose 1, and so
# on. All members have to decide each question alike, and for the bit that was proposed where there is one; each journal has
# to have each decision once. At the end SIGTERM ends each member cleanly, since it is started with that signal blocked, for which
# `env` is wanted as coreutils have it from 8.31 on.
#
#   examples/kill-members.sh [PROGRAM]     PROGRAM is bracha; left out, it is crates/bracha/out/bracha of this repository
set -euo pipefail

here=$(cd "$(dirname "$0")" && pwd)
program=$(realpath "${1:-$here/../crates/bracha/out/bracha}")
folder=$(mktemp -d "${TMPDIR:-/tmp}/bracha-kill.XXXXXX")
cp "$here"/cluster/member-?.toml "$folder"
cd "$folder"
declare -A process
trap 'kill "${process[@]}" 2>/dev/null || true; rm -r "$folder"' EXIT

fail() {
    echo "$1" >&2
    exit 1
}

start() {
    rm -f "output-$1" # that of its last life says ready too
    env --block-signal=TERM,INT --ignore-signal=XFSZ "$program" run --stay --log "member-$1.toml" >"output-$1" 2>"log-$1" &
    process[$1]=$!
    for _ in {1..200}; do
        if grep -qs ready "output-$1"; then return; fi
        sleep 0.02
    done
    fail "member $1 isn't ready: $(cat "log-$1")"
}

# Asks a member until it has decided, and gives what it says.
decision() {
    local reply=UNDECIDED
    for _ in {1..300}; do
        reply=$("$program" ask "127.0.0.1:711$1" "$2") || true
        if [ "$reply" != UNDECIDED ]; then break; fi
        sleep 0.05
    done
    echo "$reply"
}

for member in 0 1 2 3; do "$program" init "member-$member.toml"; done
for member in 0 1 2 3; do start "$member"; done
# The bit that a member proposes on a question.
bit_of() {
    if [ $(($1 % 3)) = 2 ]; then echo $(($2 % 2)); else echo $(($1 % 3)); fi
}

for question in {0..11}; do
    victim=$((question % 4))
    for member in 0 1 2 3; do
        "$program" propose "127.0.0.1:711$member" "$question" "$(bit_of "$question" "$member")" >/dev/null
        if [ "$member" = 1 ]; then
            kill -9 "${process[$victim]}"
            wait "${process[$victim]}" 2>/dev/null || true
            start "$victim"
        fi
    done
    wanted="DECIDED $((question % 3))"
    if [ $((question % 3)) = 2 ]; then
        wanted=$(decision 0 "$question")
        if [ "$wanted" != "DECIDED 0" ] && [ "$wanted" != "DECIDED 1" ]; then fail "question $question: $wanted"; fi
    fi
    for member in 0 1 2 3; do
        reply=$(decision "$member" "$question")
        if [ "$reply" != "$wanted" ]; then fail "member $member on question $question: $reply"; fi
    done
done
for member in 0 1 2 3; do
    # SIGTERM, which is blocked, ends it as the end of its input would
    kill "${process[$member]}"
    wait "${process[$member]}" || fail "member $member ended with status $?"
    [[ "$(tail -n 1 "log-$member")" == *" end" ]] || fail "member $member was cut off"
    count=$("$program" dump "member-$member.journal" | grep -c '^decided')
    if [ "$count" != 12 ]; then fail "member $member has $count decisions"; fi
done
process=()
echo "twelve times a member was killed, and twelve questions decided by all"
