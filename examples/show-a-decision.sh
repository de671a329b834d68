#!/bin/sh
# Shows a decision to somebody who took no part in it: four members on this machine decide a question, what one of them heard
# is saved, and an audit of the file says yes. With one bit changed it says no.
#
#   examples/show-a-decision.sh [PROGRAM]     PROGRAM is bracha; left out, it is crates/bracha/out/bracha of this
#                                             repository, which `rt run` makes
#
# The settings are those of examples/cluster/; journals, logs and the transcript go to a new folder, which is kept.
set -eu

here=$(cd "$(dirname "$0")" && pwd)
program=${1:-$here/../crates/bracha/out/bracha}
case $program in /*) ;; *) program=$PWD/$program ;; esac
if [ ! -x "$program" ]; then
    echo "there is no program $program: make it by (cd crates/bracha && rt run -- --version)" >&2
    exit 1
fi
folder=$(mktemp -d "${TMPDIR:-/tmp}/bracha-decision.XXXXXX")
cp "$here"/cluster/member-?.toml "$folder"
cd "$folder"

started=
cleanup() {
    for id in $started; do kill "$id" 2>/dev/null || true; done
    wait
}
trap cleanup EXIT

for member in 0 1 2 3; do
    "$program" init "member-$member.toml"
    env --block-signal=TERM,INT "$program" run --stay --log "member-$member.toml" >"output-$member" 2>"log-$member" &
    started="$started $!"
done
for member in 0 1 2 3; do
    tries=0
    until grep -qs ready "output-$member"; do
        tries=$((tries + 1))
        [ "$tries" -le 100 ] || { cat "log-$member" >&2; exit 1; }
        sleep 0.1
    done
done

for member in 0 1 2 3; do
    "$program" propose "127.0.0.1:711$member" 0 1 >/dev/null
done
tries=0
until "$program" transcript 127.0.0.1:7110 0 >decision.txt; do
    tries=$((tries + 1))
    [ "$tries" -le 100 ] || { cat decision.txt >&2; exit 1; }
    sleep 0.1
done

# What an audit says has to be this, with this status.
expect() {
    status=0
    said=$("$program" audit "$1" --n 4 --t 1 --questions 16) || status=$?
    echo "bracha audit $1 --n 4 --t 1 --questions 16: $said"
    [ "$said" = "$2" ] && [ "$status" = "$3" ] || { echo "not as it has to be: $2, status $3" >&2; exit 1; }
}

head -n 1 decision.txt
sed -n 2,4p decision.txt
echo ..
expect decision.txt yes 0
sed '1s/bit 1/bit 0/' decision.txt >other.txt
expect other.txt no 1
echo "the transcript is $folder/decision.txt"
