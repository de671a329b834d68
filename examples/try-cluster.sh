#!/bin/sh
# Runs a cluster of four members on this machine, proposes a bit to each on three questions, and prints what they decided:
# on question 0 all propose 0, on question 1 all propose 1, and on question 2 two propose 0 and two propose 1.
#
#   examples/try-cluster.sh [PROGRAM]     PROGRAM is bracha; left out, it is crates/bracha/out/bracha of this repository,
#                                         which `rt run` makes
#
# The settings are those of examples/cluster/; journals and logs go to a new folder, which is kept. It takes some seconds.
set -eu

here=$(cd "$(dirname "$0")" && pwd)
program=${1:-$here/../crates/bracha/out/bracha}
case $program in /*) ;; *) program=$PWD/$program ;; esac
if [ ! -x "$program" ]; then
    echo "there is no program $program: make it by (cd crates/bracha && rt run -- --version)" >&2
    exit 1
fi
folder=$(mktemp -d "${TMPDIR:-/tmp}/bracha-cluster.XXXXXX")
cp "$here"/cluster/client.toml "$here"/cluster/member-?.toml "$folder"
cd "$folder"

# A member runs until its standard input ends: each gets a FIFO, which this script holds open.
started=
cleanup() {
    exec 3>&- 4>&- 5>&- 6>&- # the members' inputs end
    for id in $started; do wait "$id" || echo "a member ended with status $?" >&2; done
}
trap cleanup EXIT

for member in 0 1 2 3; do
    "$program" init "member-$member.toml"
    mkfifo "input-$member"
done
for member in 0 1 2 3; do
    "$program" run "member-$member.toml" <"input-$member" >"output-$member" 2>"log-$member" 3>&- 4>&- 5>&- 6>&- &
    started="$started $!"
    # opening a FIFO waits for its other end, so the members are started one by one
    case $member in
    0) exec 3>input-0 ;;
    1) exec 4>input-1 ;;
    2) exec 5>input-2 ;;
    3) exec 6>input-3 ;;
    esac
done
for member in 0 1 2 3; do
    tries=0
    until grep -qs ready "output-$member"; do
        tries=$((tries + 1))
        if [ "$tries" -gt 100 ]; then
            cat "log-$member" >&2
            exit 1
        fi
        sleep 0.1
    done
    cat "output-$member"
done

for question in 0 1 2; do
    if [ "$question" -lt 2 ]; then
        echo "propose $question to all members on question $question:"
        "$program" propose --all client.toml "$question" "$question"
    else
        for member in 0 1 2 3; do
            bit=$((member % 2))
            printf 'propose %s to member %s on question %s: ' "$bit" "$member" "$question"
            "$program" propose "127.0.0.1:711$member" "$question" "$bit"
        done
    fi
    decided=
    for member in 0 1 2 3; do
        reply=UNDECIDED
        tries=0
        while [ "$reply" = UNDECIDED ] && [ "$tries" -lt 600 ]; do
            reply=$("$program" ask "127.0.0.1:711$member" "$question")
            [ "$reply" = UNDECIDED ] && sleep 0.05
            tries=$((tries + 1))
        done
        echo "member $member on question $question: $reply"
        # where all propose one bit it is decided, and in any case all decide the same
        case $question in
        2) wanted=${decided:-$reply} ;;
        *) wanted="DECIDED $question" ;;
        esac
        decided=$reply
        if [ "$reply" != "$wanted" ] || [ "$reply" = UNDECIDED ]; then
            echo "not as it has to be: $wanted" >&2
            exit 1
        fi
    done
done
echo "journals and logs are in $folder; try: $program dump $folder/member-0.journal"
