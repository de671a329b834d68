#!/usr/bin/env bash
# tests/refused-memory.sh [PROGRAM]: each call that takes memory, with each of its requests refused in turn.
#
# For each row of the program `test_memory` (one call, on a value that is made for it) the first request for memory is
# refused, then the second, and so on until a run meets none. Each run has to end with the answer of ample memory, or with
# that for want of it and all as it should be then; within a disk or a stream in memory a refusal is a failed call of
# that. It wants a C compiler, for the library that refuses (tests/refuse.c; it is no part of the product).
# PROGRAM is `test_memory` as it was built; where there is none it is proved and built first, which takes many minutes. The last
# line is `N passed, M failed`: rows.
set -euo pipefail
top=$(cd "$(dirname "$0")/.." && pwd)
room=$(mktemp -d)
trap 'rm -rf "$room"' EXIT
program=${1:-}
if [ ! -x "$program" ]; then
    (cd "$top/crates/test_memory" && rt run) > "$room/built" 2>&1 || { tail -5 "$room/built"; exit 1; }
    program=$top/crates/test_memory/out/test_memory
fi
program=$(realpath "$program")
"${CC:-cc}" -O2 -shared -fPIC -o "$room/refuse.so" "$top/tests/refuse.c"
cd "$room"

# run ROW N: does the row's call with the Nth request refused (0: none). Its status says how the call ended.
run() {
    rm -f refused
    REFUSE=$2 REFUSED=$room/refused LD_PRELOAD=$room/refuse.so "$program" "$1" > said 2>&1
}

passed=0 failed=0
while IFS=: read -r row _; do
    status=0
    run "$row" 0 || status=$?
    trouble=
    [ "$status" = 0 ] || trouble="with ample memory: $(cat said)"
    n=0 ample=0 memory=0 device=0 before=0
    while [ -z "$trouble" ]; do
        n=$((n + 1)) status=0
        run "$row" "$n" || status=$?
        [ -e refused ] || break
        case $status in
            0) ample=$((ample + 1)) ;;
            3) memory=$((memory + 1)) ;;
            4) device=$((device + 1)) ;;
            5) before=$((before + 1)) ;;
            *) trouble="request $n: status $status: $(cat said)" ;;
        esac
    done
    [ -n "$trouble" ] || [ "$memory" -gt 0 ] || trouble="the call was never refused memory"
    if [ -z "$trouble" ]; then
        passed=$((passed + 1))
        echo "$row: $((n - 1)) requests refused in turn: $before before the call, $memory answered so, $device failed below, $ample ample all the same"
    else
        failed=$((failed + 1))
        echo "$row: $trouble"
    fi
done < "$top/crates/test_memory/stdout"
echo "$passed passed, $failed failed"
[ "$failed" = 0 ]
