#!/usr/bin/env bash
# Tries the stops that have to last: a sync that failed, a journal that was lost and made anew, and one that is deleted or
# replaced under its member; a new file that can't be removed, and threads that the system refuses. Each is tried with the built
# program, and with a supervisor that starts it again. It takes the ports 7100 to 7113, a C compiler and some seventy seconds.
# Its last line is `N passed, M failed`; its status is 1 where M isn't 0.
#
#   tests/stops.sh [PROGRAM]   by default crates/bracha/out/bracha, which `rt run` makes in crates/bracha
set -euo pipefail
cd "$(dirname "$0")/.."
program=$(realpath "${1:-crates/bracha/out/bracha}")
passed=0
failed=0
room=$(mktemp -d)
started=()
trap 'kill -9 "${started[@]}" 2>/dev/null || true; rm -rf "$room"' EXIT
"${CC:-cc}" -O2 -shared -fPIC -o "$room/fail_calls.so" tests/fail_calls.c -ldl
cd "$room"

# Whether the command ends with this status and says this, on both streams: says WHAT STATUS TEXT COMMAND..
says() {
    local status=0 said
    said=$("${@:4}" 2>&1 </dev/null) || status=$?
    if [ "$status" = "$2" ] && [ "$said" = "$3" ]; then
        passed=$((passed + 1))
    else
        echo "$1: status $status: $said"
        failed=$((failed + 1))
    fi
}

# Starts a member, with these words of env, if there are any, and waits until it is ready: run NAME [WORD..]. What it prints is
# in out-NAME and log-NAME, its process in `last`.
run() {
    rm -f "out-$1" "log-$1"
    env "${@:2}" "$program" run --stay --log "$1.toml" >"out-$1" 2>"log-$1" </dev/null &
    last=$!
    started+=("$last")
    for _ in {1..400}; do
        if grep -qs ready "out-$1"; then return; fi
        if ! kill -0 "$last" 2>/dev/null; then return; fi
        sleep 0.05
    done
    echo "$1 isn't ready: $(cat "log-$1")"
}

# Waits until the member has ended by itself: its status is in `ended`; `runs on` where it doesn't end.
await() {
    ended='runs on'
    for _ in {1..200}; do
        if ! kill -0 "$last" 2>/dev/null; then
            ended=0
            wait "$last" || ended=$?
            return
        fi
        sleep 0.1
    done
}

# Looks for five seconds whether clients are answered, or the member ends: `seen` is `served`, `ended STATUS` with the last two
# lines of its log, or `deaf`.
outcome() {
    seen=deaf
    for _ in {1..50}; do
        if ! kill -0 "$last" 2>/dev/null; then
            ended=0
            wait "$last" || ended=$?
            seen="ended $ended $(tail -n 2 "log-$1")"
            return
        fi
        if "$program" status --timeout 1 127.0.0.1:7110 >/dev/null 2>&1; then
            seen=served
            return
        fi
        sleep 0.1
    done
}

# Ends the member.
finish() {
    kill "$last" 2>/dev/null || true
    wait "$last" 2>/dev/null || true
}

"$program" new-cluster --n 4 --t 1 --questions 64 --cluster 7 . >/dev/null
sed -e 's/^n = 4/n = 1/' -e 's/^t = 1/t = 0/' -e '/:710[123]"/d' -e 's/member-0/alone/' member-0.toml >alone.toml

# A sync that failed stops the member, and no other start of this boot takes its journal.
"$program" init alone.toml
run alone LD_PRELOAD="$room/fail_calls.so" FAIL_SYNC_OF=/alone.journal FAIL_SYNC_AT=2
"$program" propose 127.0.0.1:7110 1 1 >/dev/null 2>&1 || true
await
says 'a sync that failed' 0 $'1\nbracha: stopped\nalone.journal: Input/output error (os error 5)' \
    bash -c 'echo "$0"; tail -n 2 log-alone' "$ended"
cause='a sync of this journal failed since the machine started: restart the machine, or copy the file past the cache to another disk (see OPERATING)'
marked="bracha: journal Device
alone.journal.unsynced: $cause"
boot=$(cat /proc/sys/kernel/random/boot_id)
says 'its mark' 0 "$boot" readlink alone.journal.unsynced
says 'a start in the same boot' 1 "$marked" timeout 20 "$program" run --stay alone.toml
says 'a check in the same boot' 1 "$marked" bash -c '"$0" check alone.toml >/dev/null' "$program"
says 'init in the same boot' 1 "$marked" "$program" init alone.toml
says 'migrate in the same boot' 1 "$marked" "$program" migrate alone.journal other.journal
says 'migrate onto it' 1 "$marked" "$program" migrate other.journal alone.journal
says 'a dump in the same boot' 0 0 "$program" dump --count alone.journal
ln -sfn 00000000-0000-0000-0000-000000000000 alone.journal.unsynced
says 'a mark that cannot be read' 1 $'bracha: journal Device\nalone.journal.unsynced: open: Input/output error (os error 5)' \
    env LD_PRELOAD="$room/fail_calls.so" FAIL_LINK_OF=alone.journal.unsynced timeout 20 "$program" run --stay alone.toml
says 'a boot whose id cannot be read' 1 $'bracha: journal Device\n/proc/sys/kernel/random/boot_id: open: Input/output error (os error 5)' \
    env LD_PRELOAD="$room/fail_calls.so" FAIL_OPEN_OF=/boot_id timeout 20 "$program" run --stay alone.toml
says 'a check in the next boot' 0 'records 0' bash -c '"$0" check alone.toml | tail -n 1' "$program"
run alone
says 'a start in the next boot' 0 'gone' bash -c 'if [ -L alone.journal.unsynced ]; then echo there; else echo gone; fi'
says 'a proposal in the next boot' 0 OK "$program" propose 127.0.0.1:7110 1 1
finish

# The same in the opening, over the mark of an older boot.
ln -sfn 00000000-0000-0000-0000-000000000000 alone.journal.unsynced
says 'a sync of the opening that failed' 1 $'bracha: journal Device\nalone.journal: Input/output error (os error 5)' \
    env LD_PRELOAD="$room/fail_calls.so" FAIL_SYNC_OF=/alone.journal FAIL_SYNC_AT=1 timeout 20 "$program" run --stay alone.toml
says 'its mark again' 0 "$boot" readlink alone.journal.unsynced
rm alone.journal.unsynced

# The same as a journal is made.
sed s/alone.journal/fresh.journal/ alone.toml >fresh.toml
ln -s 00000000-0000-0000-0000-000000000000 fresh.journal.unsynced
says 'a sync of a new journal that failed' 1 $'bracha: journal Device\nfresh.journal: Input/output error (os error 5)' \
    env LD_PRELOAD="$room/fail_calls.so" FAIL_SYNC_OF=/fresh.journal FAIL_SYNC_AT=1 "$program" init fresh.toml
says 'the mark of a new journal' 0 "$boot" readlink fresh.journal.unsynced

# The same of its folder, whose sync keeps the journal's name.
sed s/alone.journal/named.journal/ alone.toml >named.toml
says 'a sync of the folder that failed' 1 $'bracha: journal Device\nnamed.journal: Input/output error (os error 5)' \
    env LD_PRELOAD="$room/fail_calls.so" FAIL_SYNC_OF="$room" FAIL_SYNC_AT=1 "$program" init named.toml
says 'the mark of its journal' 0 "$boot" readlink named.journal.unsynced

# A chain says nothing before the number of its newest epoch, and that file's name, are on the disk.
sed '/^journal/a epochs = "chain"' alone.toml >chain.toml
"$program" init chain.toml
unnoted=$'bracha: file\nchain/newest: write: Input/output error (os error 5)'
says 'a sync of the newest number that failed' 1 "$unnoted" \
    env LD_PRELOAD="$room/fail_calls.so" FAIL_SYNC_OF=/newest.new FAIL_SYNC_AT=1 timeout 20 "$program" run --stay chain.toml
for at in 1 2; do
    says "sync $at of its folder that failed" 1 "$unnoted" \
        env LD_PRELOAD="$room/fail_calls.so" FAIL_SYNC_OF=/chain FAIL_SYNC_AT=$at timeout 20 "$program" run --stay chain.toml
    rm -f chain/newest
done

# Where the system doesn't say whether a file is there, none is taken to be, and none to be missing: the next start goes on.
sed '/^journal/a epochs = "later"' alone.toml >later.toml
"$program" init later.toml
unknown='Input/output error (os error 5)'
says 'a next journal of which nothing is known' 1 $'bracha: file\nlater/1.journal: open: '"$unknown" \
    bash -c 'env LD_PRELOAD="$1" FAIL_STAT_OF=later/1.journal timeout 20 "$0" run --stay later.toml 2>&1 >/dev/null | tail -n 2; exit "${PIPESTATUS[0]}"' \
    "$program" "$room/fail_calls.so"
run later
says 'a start behind it' 0 'UP 0 0' "$program" status 127.0.0.1:7110
finish
mv later/0.journal 0.away
says 'a folder that cannot be listed' 1 $'bracha: file\nlater: open: '"$unknown" \
    env LD_PRELOAD="$room/fail_calls.so" FAIL_LIST_OF=/later "$program" init later.toml
says 'its first journal' 1 '' bash -c '[ -e later/0.journal ]'

# A journal that was put aside is looked for once.
echo >later/1.journal.forgotten
says 'a folder that cannot be listed once' 1 $'bracha: file\nlater: open: '"$unknown" \
    env LD_PRELOAD="$room/fail_calls.so" FAIL_LIST_OF=/later FAIL_LIST_AT=1 timeout 20 "$program" run --stay later.toml

# A member that the system refuses one thread ends and says so, or clients are answered all the same.
unstarted=$'ended 1 bracha: memory\nthreads: the system refused one: see `ulimit -u`'
for name in alone chain; do
    for at in {1..24}; do
        run $name LD_PRELOAD="$room/fail_calls.so" FAIL_THREAD_AT=$at
        outcome $name
        if [ "$seen" = "$unstarted" ]; then seen=served; fi
        says "$name without its thread $at" 0 served echo "$seen"
        finish
    done
done

# A file that a migration has made in vain, and that can't be removed, is told of.
printf 'BRACHAJ1%b' '\0\0\0\0\0\0\0\x07\x04\x01\0\x40\0\0\0\0\1\0\2\2\0\0' >old.journal
says 'a new file that cannot be removed' 1 $'bracha: migrate CutShort\nnew.journal: is no journal: remove it' \
    env LD_PRELOAD="$room/fail_calls.so" FAIL_UNLINK_OF=new.journal "$program" migrate old.journal new.journal
rm new.journal
echo mine >kept
says 'a new file of which nothing is known' 1 $'bracha: file\nkept: open: '"$unknown" \
    env LD_PRELOAD="$room/fail_calls.so" FAIL_STAT_OF=kept "$program" migrate old.journal kept
says 'what it has' 0 mine cat kept

# A write that failed leaves no mark.
says 'a write that failed' 1 $'member 0 ready\nstopped device: File too large (os error 27)\nbracha: stopped\nalone.journal: File too large (os error 27)' \
    bash -c 'ulimit -f 0; (sleep 1; "$0" propose 127.0.0.1:7110 2 1 >/dev/null 2>&1) & exec timeout 60 env --ignore-signal=XFSZ "$0" run --stay alone.toml' "$program"
says 'and no mark' 1 '' readlink alone.journal.unsynced

# A journal that is removed or replaced under its member ends it, whether it looks at its input or not.
gone=$'bracha: stopped\nalone.journal: the file was removed or replaced while the member ran'
run alone
says 'a proposal before' 0 OK "$program" propose 127.0.0.1:7110 3 1
mv alone.journal away.journal
await
says 'a journal that was removed' 0 "1
$gone" bash -c 'echo "$0"; tail -n 2 log-alone' "$ended"
cp away.journal alone.journal
says 'a journal that was replaced' 1 "member 0 ready
$gone" bash -c '(sleep 1; mv away.journal alone.journal) & sleep 10 | timeout 20 "$0" run alone.toml' "$program"
says 'the end of the input' 0 'member 0 ready' bash -c 'sleep 1 | timeout 20 "$0" run alone.toml' "$program"

# A member whose journal was lost and made anew is forgotten, and stays so, however often it is started.
for member in 0 1 2 3; do
    "$program" init "member-$member.toml"
    run "member-$member"
done
for question in {0..9}; do "$program" propose --all client.toml "$question" 1 >/dev/null; done
says 'a decision' 0 'DECIDED 1' "$program" ask --wait --timeout 60 127.0.0.1:7113 9
finish
rm member-3.journal
"$program" init member-3.toml
# The others go on deciding meanwhile.
for question in {10..29}; do
    for desk in 0 1 2; do "$program" propose "127.0.0.1:711$desk" "$question" 1; done
done >/dev/null &
others=$!
run member-3
await
wait "$others"
forgotten='bracha: forgotten
member-3.journal.forgotten: member 3 has said more than this journal holds, which was put aside: it may never run again; leave it down, and take the file away only to give its place to a member of another cluster'
says 'a journal that was lost' 0 "1
$forgotten" bash -c 'echo "$0"; tail -n 2 log-member-3' "$ended"
# It was told so before it spoke: its second life has said nothing.
records=$("$program" dump --count member-3.journal.forgotten)
says 'the records of a second life' 0 0 echo "$records"
for life in {1..10}; do
    says "start $life of a forgotten member" 1 "$forgotten" timeout 20 "$program" run --stay member-3.toml
done
says 'init of a forgotten member' 1 "$forgotten" "$program" init member-3.toml
says 'a forgotten member of which nothing is known' 1 $'bracha: file\nmember-3.journal.forgotten: open: '"$unknown" \
    env LD_PRELOAD="$room/fail_calls.so" FAIL_STAT_OF=member-3.journal.forgotten "$program" init member-3.toml
says 'a check of a forgotten member' 1 "$forgotten" bash -c '"$0" check member-3.toml >/dev/null' "$program"
says 'what it said meanwhile' 0 "$records" "$program" dump --count member-3.journal.forgotten
says 'what the others decided meanwhile' 0 'DECIDED 1' "$program" ask --wait --timeout 60 127.0.0.1:7110 29
says 'and no other journal' 0 'member-3.journal.forgotten' bash -c 'ls | grep member-3.journal'
echo "$passed passed, $failed failed"
[ "$failed" = 0 ]
