#!/usr/bin/env bash
# Shows a two-phase commit over four members: commit.py says how it works. Three accounts of 100; a transaction that commits, one
# that can't, one whose coordinator dies, one whose coordinator dies after it proposed to one member, with an account that is killed
# after its promise, and a member that is killed; a question that doesn't exist; an account that is killed while it writes, and one
# whose disk is full. It takes some seconds, and ports below 32768 that are free.
#
#   examples/commit/run.sh [PROGRAM]     PROGRAM is bracha; left out, it is crates/bracha/out/bracha of this repository
set -euo pipefail
here=$(cd "$(dirname "$0")" && pwd)
top=$(realpath "$here/../..")
program=$(realpath -m "${1:-$top/crates/bracha/out/bracha}")
# shellcheck source=examples/commit/members.sh
. "$here/members.sh"

commit() { python3 "$here/commit.py" "$@"; }

# party NAME: starts an account of 100.
party() { begins "$1" python3 "$here/commit.py" party "$1" 100; }

# dies COMMAND..: the coordinator has to end with the status of one that died.
dies() {
    local status=0
    "$@" || status=$?
    if [ "$status" != 9 ]; then exit 1; fi
}

members 64
for name in alice bob carol; do party "$name"; done

echo '* alice would pay 80 by a question that the cluster does not have. That leaves nothing behind:'
if commit coordinate 64 alice=-80 bob=80 2>coordinate.err; then exit 1; fi
tail -n 1 coordinate.err
echo '* alice pays 30 to bob:'
commit coordinate 0 alice=-30 bob=30
echo '* carol would pay 500, and refuses:'
commit coordinate 1 carol=-500 bob=500
echo '* a coordinator dies after all promised; another, with the same words, finishes:'
dies commit coordinate 2 bob=-50 carol=50 --die prepared
commit coordinate 2 bob=-50 carol=50
echo '* member 3 is killed, and a coordinator dies after it proposed to one member; carol is killed after her promise.'
echo '  Another coordinator, which has no answer of hers, proposes abort; whichever is decided, all have the same:'
ends member-3
dies commit coordinate 3 carol=-20 alice=10 bob=10 --die half
ends carol
commit coordinate 3 carol=-20 alice=10 bob=10
echo '* carol is started again; the kill left half a line of her log:'
printf '{"question": 5, "cha' >>carol.log
party carol
echo '* the disk of alice takes ten bytes more: she ends without a promise, and is started again'
python3 - "${process[alice]}" "$(wc -c <alice.log)" <<'END'
import resource, sys
process, size = map(int, sys.argv[1:])
resource.prlimit(process, resource.RLIMIT_FSIZE, (size + 10, resource.getrlimit(resource.RLIMIT_FSIZE)[1]))
END
commit coordinate 4 alice=-5 bob=5
for _ in {1..100}; do
    if ! kill -0 "${process[alice]}" 2>/dev/null; then break; fi
    sleep 0.05
done
if kill -0 "${process[alice]}" 2>/dev/null; then echo 'alice goes on without her disk' >&2; exit 1; fi
tail -n 1 alice.out
party alice

# Each account saves what became of its promises: within a moment, since it is told and doesn't ask.
for _ in {1..100}; do
    said=$(commit show alice bob carol)
    if [ "$(grep -c '3:' <<<"$said")" = 3 ]; then break; fi
    sleep 0.05
done
echo "$said"
[ "$(grep -o '3:[a-z]*' <<<"$said" | sort -u | wc -l)" = 1 ] || { echo 'the accounts differ' >&2; exit 1; }
case $said in
*3:commit*) right='alice 80 bob 90 carol 130' ;;
*) right='alice 70 bob 80 carol 150' ;;
esac
[ "$(awk '{ printf "%s%s %s", (NR > 1 ? " " : ""), $1, $2 }' <<<"$said")" = "$right" ] || { echo "wrong balances, not $right" >&2; exit 1; }
echo 'all accounts agree, and nothing was paid twice or lost'
