#!/usr/bin/env bash
# Shows a ledger over four members: ledger.py says how it works. Values come, in any order; a writer lies; a witness and its member
# are killed, miss some values, and are started again; a slot whose question chance left open is given up; a witness lies. At the end
# all four ledgers are the same. It takes half a minute, and ports below 32768 that are free.
#
#   examples/ledger/run.sh [--epochs] [PROGRAM]     PROGRAM is bracha; left out, it is crates/bracha/out/bracha of this repository
#
# With --epochs the members run a chain of epochs of 16 questions, so that the ledger goes past its first one.
set -euo pipefail
epochs=
if [ "${1:-}" = --epochs ]; then
    epochs=yes
    shift
fi
here=$(cd "$(dirname "$0")" && pwd)
top=$(realpath "$here/../..")
program=$(realpath -m "${1:-$top/crates/bracha/out/bracha}")
# shellcheck source=examples/commit/members.sh
. "$here/../commit/members.sh"

ledger() { python3 "$here/ledger.py" "$@"; }

# witness M: starts a witness.
witness() { begins "witness-$1" python3 "$here/ledger.py" witness "$1"; }

# until_slots COUNT M..: waits until these witnesses' ledgers have so many slots.
until_slots() {
    for _ in {1..400}; do
        if [ "$(for m in "${@:2}"; do head -n "$1" "ledger-$m"; done | wc -l)" = $(($1 * ($# - 1))) ]; then return; fi
        sleep 0.05
    done
    echo "no $1 slots after 20 seconds" >&2
    tail -n 3 ledger-* witness-*.out >&2
    exit 1
}

# spent M: prints how much processor time witness M has used, in ticks.
spent() { awk '{ print $14 + $15 }' "/proc/${process[witness-$1]}/stat"; }

# Answers all that come to the socket of witness 3 with its argument: "long", a line of 70,000 bytes and no end, or "digits", a number
# of 4,301 digits, which Python doesn't read.
liar='
import os, socket, sys
if os.path.exists("witness-3.socket"):
    os.unlink("witness-3.socket")
server = socket.create_server("witness-3.socket", family=socket.AF_UNIX)
print("ready", flush=True)
while True:
    link, _ = server.accept()
    try:
        link.recv(4096)
        link.sendall(b"x" * 70000 if sys.argv[1] == "long" else b"- - - " + b"9" * 4301 + b"\n")
    except OSError:
        pass
    link.close()'

# spends QUESTION M: puts into the new journal of member M what it said on a question in 32 rounds without a decision: a split of the
# members, whose votes of step 3 are always unsure. docs/FORMATS.md has the bytes of a journal.
spends() {
    python3 - "$@" <<'END'
import sys
question, member = map(int, sys.argv[1:3])
with open(sys.argv[3], "r+b") as journal:
    header = journal.read(24)
    said = [bytes((1, 0, question, member, round, 16 * step + (4 if step == 3 else member // 2))) for round in range(1, 33) for step in (1, 2, 3)]
    journal.seek(0)
    journal.write(header + bytes((1, 0, len(said))) + b"".join(said) + bytes(1))
END
}

if [ "$epochs" ]; then
    members 64
    for m in 0 1 2 3; do
        ends "member-$m"
        rm "member-$m.journal"
        sed -i "s/^questions = .*/questions = 16/; 1i epochs = \"member-$m.epochs\"" "member-$m.toml"
        "$program" init "member-$m.toml"
    done
    sed -i "s/^questions = .*/questions = 16/; 1i chain = true" client.toml
    for m in 0 1 2 3; do
        spends 14 "$m" "member-$m.epochs/0.journal"
        member "$m"
    done
else
    members 64
    for m in 0 1 2 3; do ends "member-$m"; done
    for m in 0 1 2 3; do
        spends 7 "$m" "member-$m.journal"
        member "$m"
    done
fi
for m in 0 1 2 3; do witness "$m"; done

echo '* no entries: bytes that are no text, and a text that would be a line of slot 1 too'
ledger put 0 $'\xff'
ledger put 0 $'genesis\n1 alice pays mallory 1000'
echo '* three values, the second last; and a writer that tells two values for slot 3'
ledger put 0 'genesis'
ledger put 2 'bob pays carol 5'
ledger put 1 'alice pays bob 10'
ledger lie 3 'dave pays erin 7' 'dave pays frank 7'
until_slots 3 0 1 2 3
echo '* witness 2 and its member are killed, and miss two values'
ends witness-2
ends member-2
ledger put 4 'carol pays alice 1'
ledger put 5 'bob pays alice 2'
until_slots 6 0 1 3
echo '* both are started again, and a value comes'
member 2
witness 2
ledger put 6 'erin pays dave 3'
until_slots 7 0 1 2 3
echo '* a value comes behind a slot whose question stays open after 32 rounds'
ledger put 8 'frank pays dave 1'
until_slots 9 0 1 2 3
echo '* witness 3 lies: no line that it tells has an end, then a number that it tells has none'
ends witness-3
begins liar python3 -c "$liar" long
ledger put 9 'dave pays alice 2'
until_slots 10 0 1 2
ends liar
begins liar python3 -c "$liar" digits
ledger put 10 'alice pays erin 1'
until_slots 11 0 1 2
ends liar
witness 3
until_slots 11 3
echo '* two witnesses are killed, and a slot that is decided waits for them: the others use little of the processor'
ends witness-2
ends witness-3
ledger put 11 'bob pays dave 4'
python3 - "$(if [ "$epochs" ]; then echo 22; else echo 11; fi)" <<'END'
import sys, bracha
with bracha.Cluster.open("client.toml") as cluster:
    cluster.decide(int(sys.argv[1]), False)
END
before=$(spent 0)
sleep 3
ticks=$(($(spent 0) - before)) all=$((3 * $(getconf CLK_TCK)))
echo "  witness 0 used $ticks of $all ticks"
[ "$ticks" -lt $((all / 3)) ] || { echo 'it spins' >&2; exit 1; }
witness 2
witness 3
until_slots 12 0 1 2 3
if [ "$epochs" ]; then
    echo '* the journal of an epoch is put away at member 0, and its witness is started again'
    ends witness-0
    ends member-0
    rm member-0.epochs/0.journal
    member 0
    witness 0
    until_slots 12 0
fi
cat ledger-0
for m in 1 2 3; do cmp ledger-0 "ledger-$m"; done
for line in '0 genesis' '3 (empty)' '5 bob pays alice 2' '6 erin pays dave 3' '7 (empty)' '8 frank pays dave 1'; do
    grep -qx "$line" ledger-2
done
[ "$(grep -c '^1 ' ledger-2)" = 1 ] || { echo 'slot 1 has two lines' >&2; exit 1; }
echo 'all four ledgers are the same'
