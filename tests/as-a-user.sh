#!/usr/bin/env bash
# Does with the built program what a new user and an operator do, and looks at what they are told: installs it, makes a
# cluster of four, proposes and asks, ends it; fills a disk and makes room; starts a member with few files, and with no thread;
# reads a page by `head`, files without an end, files that are no journal, one that is too long to go through, and scripts and
# transcripts with mistakes; kills a member and starts it again; plays a liar that is ahead of all. It takes the ports 7100 to 7113, 7140 to 7153, 7190, and a minute. Its last line is
# `N passed, M failed`; its status is 1 where M isn't 0.
#
#   tests/as-a-user.sh [PROGRAM]   by default crates/bracha/out/bracha, which `rt run` makes in crates/bracha
set -euo pipefail
cd "$(dirname "$0")/.."
program=$(realpath "${1:-crates/bracha/out/bracha}")
script=$PWD/crates/bracha/examples/one-liar.script
passed=0
failed=0
room=$(mktemp -d)
started=()
trap 'kill -9 "${started[@]}" 2>/dev/null || true; rm -rf "$room"' EXIT

# Whether the command ends with this status and says this, on both streams: says WHAT STATUS TEXT COMMAND..
says() {
    local status=0 said
    said=$("${@:4}" 2>&1 </dev/null) || status=$?
    if [ "$status" = "$2" ] && [ "$said" = "$3" ]; then
        passed=$((passed + 1))
    else
        echo "$1: status $status: $said"
        failed=$((failed + 1))
    fi
}

# Runs a member until a signal, with this limit of the shell, if one is given, and this form of its log: run NAME ['-f 1'
# [--log-json]]. Its log is in log-NAME. What this script inherited doesn't count among the member's files.
run() {
    rm -f "out-$1" "log-$1"
    (
        for file in /proc/self/fd/*; do
            if [ "${file##*/}" -gt 2 ]; then eval "exec ${file##*/}>&-"; fi
        done
        ${2:+ulimit $2}
        exec env --block-signal=TERM,INT --ignore-signal=XFSZ "$program" run --stay "${3---log}" "$1.toml" >"out-$1" 2>"log-$1" </dev/null
    ) &
    started+=($!)
    for _ in {1..400}; do
        if grep -qs ready "out-$1"; then return; fi
        sleep 0.05
    done
    echo "$1 isn't ready: $(cat "log-$1")"
}

# Ends the member that was started at this place, if it runs still: its status is in `ended`. It has twenty seconds.
end_of() {
    ended=0
    kill "${started[$1]}" 2>/dev/null || true
    for _ in {1..200}; do
        if ! kill -0 "${started[$1]}" 2>/dev/null; then break; fi
        sleep 0.1
    done
    if kill -9 "${started[$1]}" 2>/dev/null; then
        echo "member $1 goes on for twenty seconds behind its end"
        failed=$((failed + 1))
    fi
    wait "${started[$1]}" 2>/dev/null || ended=$?
}

# The lines of a log without their times.
untimed() {
    sed -E 's/^[0-9]{4}-[0-9]{2}-[0-9]{2}T[0-9]{2}:[0-9]{2}:[0-9]{2}\.[0-9]{3}Z //' "$@"
}
export -f untimed

says install 0 "$(printf '%s\n' "$room/to/usr/bin/bracha" "$room/to/usr/share/man/man1/bracha.1")" bash -c '
    DESTDIR=$0/to examples/install.sh /usr >/dev/null && ls "$0/to/usr/bin/bracha" "$0/to/usr/share/man/man1/bracha.1"' "$room"
cd "$room"

# A cluster of four, made and used as README says.
began=$(date -u +%Y-%m-%dT)
says 'a new cluster' 0 "$(printf '644 client.toml\n'; printf '600 member-%s.toml\n' 0 1 2 3)" bash -c '
    "$0" new-cluster --n 4 --t 1 --questions 64 --cluster 7 . >/dev/null && stat -c "%a %n" client.toml member-?.toml' "$program"
says 'a cluster elsewhere' 0 $'desks = [\n    "127.0.0.1:9010",\n    "127.0.0.1:9011",\n]\n    "10.0.0.1:9000",\n    "10.0.0.2:9001",\ndesk = "127.0.0.1:9011"' bash -c '
    "$0" new-cluster --n 2 --t 0 --questions 1 --cluster 8 --port 9000 made 10.0.0.1,10.0.0.2 >/dev/null &&
    tail -n 4 made/client.toml && grep -e :900 -e desk made/member-1.toml' "$program"
says 'desks elsewhere' 0 $'desk = "10.0.0.2:7111"\ndesk = "10.0.0.9:7111"' bash -c '
    "$0" new-cluster --n 2 --t 0 --questions 1 --cluster 8 --desk links links 10.0.0.1,10.0.0.2 >/dev/null &&
    "$0" new-cluster --n 2 --t 0 --questions 1 --cluster 8 --desk 10.0.0.9 desks 10.0.0.1,10.0.0.2 >/dev/null &&
    grep -h desk links/member-1.toml desks/member-1.toml' "$program"
says 'ports that are too high' 1 $'bracha: hosts\n--port 65500: must be from 1 on, and so low that the ports of 64 members, links and desks, are 65535 at most' \
    "$program" new-cluster --n 64 --t 1 --questions 1 --cluster 8 --port 65500 high
says 'a folder in a missing one' 1 $'bracha: file\nno/folder: write: No such file or directory (os error 2)' \
    "$program" new-cluster --n 4 --t 1 --questions 64 --cluster 7 no/folder
says 'a cluster that is there' 1 $'bracha: file\n./member-0.toml: write: there is such a file, and nothing was written' \
    "$program" new-cluster --n 4 --t 1 --questions 64 --cluster 7 .
for member in 0 1 2 3; do
    says "init of member $member" 0 '' "$program" init "member-$member.toml"
done

# A member that nobody welcomes listens for three seconds: it takes no proposal, and answers all else. Then it speaks, and takes
# the proposal that waited.
run member-0
says 'a proposal while it listens' 1 'bracha: no answer' "$program" --quiet propose --timeout 1 127.0.0.1:7110 9 1
says 'a status while it listens' 0 'UP 0 0' "$program" status --timeout 1 127.0.0.1:7110
says 'links while it listens' 0 'LINKS 1 1 4 3' "$program" status --links 127.0.0.1:7110
says 'not ready while it listens' 1 'LINKS 1 1 4 3' "$program" status --ready 127.0.0.1:7110
says 'a second life beside it' 1 $'bracha: file\nmember-0.journal: open: another process has it' timeout 20 "$program" run --stay member-0.toml
sleep 3
says 'a proposal that waited' 0 'HAVE 1' "$program" propose 127.0.0.1:7110 9 0
says 'who is not there' 0 "$(printf 'link-to %s unreachable: refused\n' 1 2 3)" bash -c 'grep -o "link-to.*" log-member-0 | sort'
for member in 1 2 3; do run "member-$member"; done
for _ in {1..100}; do
    if [ "$("$program" status --links 127.0.0.1:7110)" = 'LINKS 4 4 4 3' ]; then break; fi
    sleep 0.1
done
says 'ready' 0 'LINKS 4 4 4 3' "$program" status --ready 127.0.0.1:7110
says 'ready, as an object' 0 '{"state":"links","in":4,"out":4,"members":4,"needed":3}' "$program" status --ready --json 127.0.0.1:7110

# A member that is killed and started again is dialled by the others once its own links reach them, not in their next second.
# Links younger than two seconds are left alone, so it runs for three.
cat >back.py <<'END'
import datetime, sys, time


def first(words):
    """When the member's log said so for the first time in this life."""
    for _ in range(100):
        with open("log-member-3", encoding="ascii") as log:
            lines = [line.split("Z ", 1) for line in log if line.endswith("\n")]
        times = [datetime.datetime.fromisoformat(time) for time, said in lines if said == words + "\n"]
        if times:
            return times[0]
        time.sleep(0.05)
    sys.exit(f"member 3 doesn't say: {words}")


for member in 0, 1, 2:
    late = (first(f"link-up from {member}") - first("ready member 3")).total_seconds()
    if late > 0.5:
        print(f"member {member} dialled {late} seconds later")
END
for time in first second; do
    sleep 3
    kill -9 "${started[3]}"
    wait "${started[3]}" 2>/dev/null || true
    run member-3
    started[3]=${started[-1]}
    unset 'started[-1]'
    says "a member that is back for the $time time" 0 '' python3 back.py
done
all=$(printf 'member %s OK\n' 0 1 2 3)
for bit in 1 0; do
    question=$((5 + bit))
    says "a proposal of $bit to all" 0 "$all" "$program" propose --all client.toml "$question" "$bit"
    for member in 0 1 2 3; do
        says "member $member decides $bit" 0 "DECIDED $bit" "$program" ask --wait --timeout 60 "127.0.0.1:711$member" "$question"
    done
    says "not $bit" 0 "${all//OK/HAVE $bit}" "$program" propose --all ./client.toml "$question" $((1 - bit))
done
says 'no bit' 1 'ERR 3 bit' "$program" propose 127.0.0.1:7110 7 2
says 'a decision of all' 0 'DECIDED 1' "$program" decide --all client.toml 11 1
says 'the same decision' 0 '{"decided":1}' "$program" decide --all --json client.toml 11 0
says 'no bit to decide' 2 $'bracha: words\nV: must be 0 or 1' "$program" decide --all client.toml 11 2
says 'proof of all' 0 yes bash -c '"$0" audit --all client.toml 11 2>/dev/null' "$program"
says 'proof of one' 0 yes bash -c '"$0" transcript --all client.toml 11 2>/dev/null >decision.txt; "$0" audit decision.txt --n 4 --t 1 --questions 64' "$program"
says 'all are ready' 0 4 bash -c '"$0" status --all --ready client.toml >all.txt && grep -c "^member [0-3] LINKS" all.txt' "$program"
says "a member's settings" 1 $'bracha: settings desks\nmember-1.toml: is a member\'s settings; --all wants the client.toml that new-cluster wrote' \
    "$program" propose --all member-1.toml 7 1
says 'no time' 2 $'bracha: timeout\n5x: --timeout wants seconds from 0 to 65535, as 5, 0.5 or 5s' "$program" status --timeout 5x 127.0.0.1:7110

# The time of a client is all of it: a desk that drips one byte in a quarter of a second, and one that comes up late.
drip() {
    python3 -c '
import socket, sys, time
desk = socket.create_server(("127.0.0.1", int(sys.argv[1])))
print("ready", flush=True)
while True:
    client, _ = desk.accept()
    try:
        for byte in b"UNDECIDED" * 9:
            client.send(bytes([byte]))
            time.sleep(0.25)
    except OSError:
        pass' 7109 >drip &
    dripping=$!
    until grep -qs ready drip; do sleep 0.05; done
}
drip
says 'a desk that drips' 0 $'bracha: no answer\n127.0.0.1:7109: connected, but no reply came\nstatus 1 in time' bash -c '
    SECONDS=0 status=0
    "$0" ask --wait --timeout 1.5s 127.0.0.1:7109 7 || status=$?
    if [ "$SECONDS" -lt 4 ]; then echo "status $status in time"; fi' "$program"
kill "$dripping"
wait "$dripping" 2>/dev/null || true
says 'a desk that comes up late' 0 'DECIDED 1' bash -c '
    (sleep 1; exec python3 -c "
import socket
desk = socket.create_server((\"127.0.0.1\", 7108))
client, _ = desk.accept()
client.recv(64)
client.sendall(b\"DECIDED 1\\n\")") &
    "$0" ask --wait --timeout 30 127.0.0.1:7108 7' "$program"
says 'a desk at a path' 0 $'UP 3 1' bash -c '
    python3 -c "
import socket
desk = socket.socket(socket.AF_UNIX)
desk.bind(\"desk\")
desk.listen()
print(\"ready\", flush=True)
client, _ = desk.accept()
client.recv(64)
client.sendall(b\"UP 3 1\\n\")" >at-path &
    until grep -qs ready at-path || ((SECONDS > 10)); do sleep 0.05; done
    if ! grep -qs ready at-path; then kill $!; exit 1; fi
    "$0" status --timeout 30 unix:desk' "$program"
says 'too many liars' 1 $'bracha: size TooManyLiars\n--n 3 --t 1 --questions 1: n > 3t has to hold' \
    "$program" new-cluster --n 3 --t 1 --questions 1 --cluster 7 .
says 'too many members' 1 $'bracha: size TooManyMembers\n--n 65 --t 1 --questions 1: 1 <= n <= 64 has to hold' \
    "$program" hear --n 65 --t 1 --questions 1 --me 0
says 'no question' 1 $'bracha: size NoQuestions\n--n 4 --t 1 --questions 0: 1 <= questions <= 4096 has to hold' \
    "$program" audit none --n 4 --t 1 --questions 0
says 'no such member' 1 $'bracha: me\n--me 4: must be below n, which is 4' "$program" hear --n 4 --t 1 --questions 1 --me 4
says 'no line' 1 $'bracha: line 2\nstandard input:2: must be SENDER HEX: a member below n, a space, and an even count of hexadecimal digits, at least two' \
    bash -c 'printf "0 00\n0 0\n" | "$0" hear --n 4 --t 1 --questions 1 --me 1' "$program"
says 'a key that is missing' 1 $'bracha: settings desk\nlacking.toml: desk: is missing' \
    bash -c 'grep -v ^desk member-1.toml >lacking.toml; exec "$0" check lacking.toml' "$program"
says 'keys below a table' 1 $'bracha: settings cluster\nbelow.toml:2: cluster: stands below a table, and must stand above the first one' \
    bash -c '(echo "[bracha]"; cat member-1.toml) >below.toml; exec "$0" check below.toml' "$program"
says "a desk at another's links" 1 $'bracha: listen\n127.0.0.1:7103: listen: the desk has the address of member 3\'s links' \
    bash -c 'sed s/^desk.*/desk=\"127.0.0.1:7103\"/ member-1.toml >desk.toml; "$0" check desk.toml | grep -v .' "$program"
says 'a desk at any host' 1 $'bracha: listen\n127.0.0.1:7101: listen: the desk has the address of the links' \
    bash -c 'sed s/^desk.*/desk=\"0.0.0.0:7101\"/ member-1.toml >desk.toml; "$0" check desk.toml | grep -v .' "$program"
says 'a host name' 1 $'bracha: address\nexample.org:7110: must be unix:PATH, or localhost or four numbers with points between them, a colon and a port from 1 to 65535: no host names, no IPv6' \
    "$program" status example.org:7110
says 'keys that are ignored' 0 $'strays.toml:1: desc: no key of the settings, ignored\nstrays.toml:N: listen: stands in a table, ignored\nlisten 127.0.0.1:7101\ndesk-socket a desk' bash -c '
    (printf "desc = \"tls\"\nlisten = \"127.0.0.1:7101\"\ndesk-socket = \"a desk\"\n"; cat member-1.toml; printf "[tls]\nlisten = 1\n") >strays.toml
    "$0" check strays.toml 2>/dev/null | grep ignored
    "$0" check strays.toml 2>&1 | grep -e ignored -e ^listen -e ^desk- | sed "s/:$(wc -l <strays.toml):/:N:/"' "$program"
says 'a word that is no bit' 2 $'error: invalid value \'yes\' for \'<V>\': invalid digit found in string\n\nFor more information, try \'--help\'.\nV: must be 0 or 1' \
    "$program" propose 127.0.0.1:7110 0 yes
says 'a word that is no question' 2 $'error: invalid value \'x\' for \'<Q>\': invalid digit found in string\n\nFor more information, try \'--help\'.\nQ: must be an integer from 0 on and below the cluster\'s number of questions' \
    "$program" ask 127.0.0.1:7110 x
says 'a word that is no member' 2 $'error: invalid value \'256\' for \'--me <M>\': 256 is not in 0..=255\n\nFor more information, try \'--help\'.\n--me: must be an integer from 0 on and below n' \
    "$program" hear --n 4 --t 1 --questions 1 --me 256
says 'a word that is no count of members' 2 $'error: invalid value \'four\' for \'--n <N>\': invalid digit found in string\n\nFor more information, try \'--help\'.\n--n: must be an integer from 1 to 64' \
    "$program" audit none --n four --t 1 --questions 1
says 'a word that is no port' 2 $'error: invalid value \'70000\' for \'--port <FIRST>\': 70000 is not in 0..=65535\n\nFor more information, try \'--help\'.\n--port: must be an integer from 1 to 65535' \
    "$program" new-cluster --n 4 --t 1 --questions 1 --cluster 7 --port 70000 nowhere
says 'a word that is no bit, in short' 2 $'error: invalid value \'yes\' for \'<V>\': invalid digit found in string\n\nFor more information, try \'--help\'.' \
    env BRACHA_QUIET=1 "$program" propose 127.0.0.1:7110 0 yes
says 'a second line unless less is asked for' 2 $'bracha: words\nV: must be 0 or 1' env BRACHA_QUIET=0 "$program" decide --all client.toml 11 2
form='localhost or four numbers with points between them, a colon and a port from 1 to 65535: no host names, no IPv6'
for word in '[::1]:7110' tcp://127.0.0.1:7110 127.0.0.1:0 '127.0.0.1 :7110' 127.0.0.1 unix:; do
    says "the address $word" 1 "bracha: address
$word: must be unix:PATH, or $form" "$program" status "$word"
done
for word in '[::1]:7102' myhost:7102 tcp://127.0.0.1:7102 127.0.0.1:0 ' 127.0.0.1:7102' 127.0.0.256:7102; do
    says "the peer $word" 1 "bracha: settings peers
peer.toml:7: peers: entry 2 must be $form" bash -c 'sed "s#127.0.0.1:7102#$1#" member-1.toml >peer.toml; exec "$0" check peer.toml' "$program" "$word"
    says "the desk $word" 1 "bracha: settings desk
peer.toml:13: desk: must be $form" bash -c 'sed "s#^desk.*#desk = \"$1\"#" member-1.toml >peer.toml; exec "$0" check peer.toml' "$program" "$word"
done
says 'a time that is none' 2 $'bracha: timeout\n5m: --timeout wants seconds from 0 to 65535, as 5, 0.5 or 5s' "$program" status --timeout 5m 127.0.0.1:7110
says 'an address for a file' 1 $'bracha: file\n127.0.0.1:7110: is an address; --all wants a file, the client.toml that new-cluster wrote' \
    "$program" propose --all 127.0.0.1:7110 7 1
says "a client's settings without desks" 1 $'bracha: settings desks\ndeskless.toml: desks: is missing' \
    bash -c 'head -n 4 client.toml >deskless.toml; exec "$0" propose --all deskless.toml 7 1' "$program"
says 'nobody there' 1 'bracha: no answer' "$program" --quiet propose --timeout 1 127.0.0.1:7109 7 1
for member in 0 1 2 3; do
    end_of "$member"
    says "the end of member $member" 0 $'0\ndecided 11 1\ndecided 5 0\ndecided 6 1\nend' bash -c 'echo "$0"; untimed "$1" | grep -e ^decided -e ^end | sort' "$ended" "log-member-$member"
done
started=()
now=$(date -u +%Y-%m-%dT)
says 'each line of a log has the time' 0 '' bash -c 'grep -vE "^($0|$1)[0-9:.]{12}Z [a-z]" log-member-0 || true' "$began" "$now"

# Who reads a page has read enough; and of a file whose first bytes are wrong no more is read.
says 'a reader that goes' 0 $'1 propose 0 0 1: done: initial 0 0 1 1 one\nbracha: stream' \
    bash -c '"$0" simulate --trace - "$1" 2>said | head -n 1; cat said' "$program" "$script"
says 'a chart that is too long' 0 $'bracha: long.svg: a chart of 100000 events is too long for most viewers: choose rows by --from, --to, --member or --question\nevents 100000 skipped 0' bash -c '
    { printf "n 4\nt 1\nquestions 1\nliars 3\nseed 1\n"; yes "fuse 0 off" | head -n 100000; } >long.script
    "$0" simulate --chart long.svg long.script 2>errors >output
    cat errors && grep -v ^bracha: output' "$program"
says 'a part of it' 0 'events 100000 skipped 0' "$program" simulate --chart part.svg --from 5 --to 30 long.script

# How many rounds decisions take. What is decided when is by tests/reference/rounds.py.
table=$'round 1: 0\nround 2: 2\nround 3: 2\nround 4: 0\nround 5: 3\nround 6: 1\nopen: 0\nquestions: 8'
says 'rounds' 0 "$table" "$program" rounds --n 4 --t 1 --order links --seeds 8
says 'rounds of so many liars' 0 "$table" "$program" rounds --n 4 --t 1 --liars 1 --order links --seeds 8
says 'rounds by default' 0 'questions: 100' bash -c '"$0" rounds --n 4 --t 1 | tail -n 1' "$program"
says 'a chart of rounds' 0 "$table"$'\n32' bash -c '"$0" rounds --n 4 --t 1 --order links --seeds 8 --chart rounds.svg && grep -c "open</title>" rounds.svg' "$program"
says 'a chart of rounds on the output' 0 "$table"$'\n32' bash -c '"$0" rounds --n 4 --t 1 --order links --seeds 8 --chart - 2>said | grep -c "open</title>" >count; cat said count' "$program"
says 'a chart of rounds that cannot be written' 1 $'bracha: chart\nnowhere/x.svg: write: No such file or directory (os error 2)' "$program" rounds --n 4 --t 1 --seeds 1 --chart nowhere/x.svg
for words in '--liars 2' '--order first' '--seeds 0'; do
    # shellcheck disable=SC2086
    says "rounds $words" 2 $'bracha: words\nrounds: wants at most T liars, the order random, adversary or links, and at least one run' "$program" rounds --n 4 --t 1 $words
done
says 'rounds of no size' 1 'bracha: size TooManyLiars' "$program" --quiet rounds --n 3 --t 1
says 'progress of rounds' 0 'bracha: some' bash -c 'timeout 4 "$0" rounds --n 7 --t 2 --order adversary --seeds 1000000 2>&1 | sed -n "s/ [0-9]* of 1000000 questions/ some/p"' "$program"
says 'no progress of rounds' 124 '' timeout 3 "$program" rounds --quiet --n 7 --t 2 --order adversary --seeds 1000000

# Drawn scripts, for ten seconds. A finding would be printed with its script.
says 'random scripts' 0 'seed 1 scripts N events N decisions N' bash -c '
    "$0" simulate --forever --seed 1 --seconds 10 --quiet >scripts.txt && sed -E "s/(scripts|events|decisions) [1-9][0-9]*/\1 N/g" scripts.txt' "$program"
says 'random scripts that differ' 0 '' awk '$6 % $4 == 0 && $8 % $4 == 0 { print "each has as many events and decisions" }' scripts.txt
says 'progress of random scripts' 0 $'seed 7 scripts\n1 output' bash -c '
    "$0" simulate --forever --seed 7 --seconds 3 2>errors >output
    head -n 1 errors | cut -d " " -f 1-3 && wc -l <output | sed "s/$/ output/"' "$program"
says 'random scripts by the time' 0 'seed N scripts' bash -c '"$0" simulate --forever --seconds 0 2>&1 | cut -d " " -f 1-3 | sed -E "s/ [1-9][0-9]{9} / N /"' "$program"
truncate -s 1G sparse
says 'a large file' 1 "bracha: journal BadHeader
sparse: no journal of bracha: bytes 00 00 00 00 00 00 00 00 00 00 00 00 00 00 00 00 .." \
    bash -c 'ulimit -v 500000; exec "$0" dump sparse' "$program"

# What has no end is read up to its limit, in little memory.
mkfifo endless
for limit in 'check /dev/zero:1048576' 'init /dev/zero:1048576' 'run /dev/zero:1048576' 'simulate /dev/zero:33554432' \
    'audit /dev/zero --n 4 --t 1 --questions 1:33554432'; do
    says "${limit%:*}" 1 "bracha: file
/dev/zero: read: longer than ${limit##*:} bytes, the most that is read" \
        bash -c 'ulimit -v 500000; exec "$0" $1' "$program" "${limit%:*}"
done
says 'a pipe without an end' 1 $'bracha: file\nendless: read: longer than 1048576 bytes, the most that is read' \
    bash -c 'yes >endless 2>/dev/null & ulimit -v 500000; exec timeout 20 "$0" check endless' "$program"

# Mistakes with files are told with what is wanted.
mistake() { says "$1" 1 "bracha: $2" "$program" "${@:3}"; }
sed 's/member-0.journal/mistaken.journal/' member-0.toml >mistaken.toml
hint='no such file: `bracha init` makes one for a new member, and for no other'
says 'a check of no journal' 1 $'bracha: file\nmistaken.journal: open: '"$hint" bash -c '"$0" check mistaken.toml >/dev/null' "$program"
mistake 'a run of no journal' $'file\nmistaken.journal: open: '"$hint" run mistaken.toml
: >mistaken.journal
mistake 'a run of an empty file' $'journal BadHeader\nmistaken.journal: empty: `bracha init` makes the journal of a new member, and of no other' run mistaken.toml
echo 'a note' >mistaken.journal
mistake 'an init over a note' $'journal NotEmpty\nmistaken.journal: no journal of bracha: bytes 61 20 6e 6f 74 65 0a' init mistaken.toml
(head -c 24 member-0.journal; printf '\1\0\2\2\0\0\0\1\x11\x9\0\0\0\1\x11\0') >damaged.journal
mistake 'a record that is none' $'journal BadRecord\ndamaged.journal: byte 33: bytes 09 00 00 00 01 11 00: journal BadRecord' dump damaged.journal
(head -c 24 member-0.journal; echo damage) >damaged.journal
says 'an init over a damaged journal' 1 $'bracha: journal NotEmpty\ndamaged.journal: begins as the journal of member 0 of cluster 7 and has 31 bytes' \
    bash -c 'sed s/mistaken.journal/damaged.journal/ mistaken.toml >damaged.toml; exec "$0" init damaged.toml' "$program"
mistake 'a run of a note' $'journal BadHeader\nmistaken.journal: no journal of bracha: bytes 61 20 6e 6f 74 65 0a' run mistaken.toml
printf BRACHA >mistaken.journal
mistake 'a run of a part of a header' $'journal BadHeader\nmistaken.journal: no journal of bracha: bytes 42 52 41 43 48 41' run mistaken.toml
echo 'a note' >mistaken.journal
says 'a migration onto itself' 2 'bracha: same file ./mistaken.journal' "$program" migrate mistaken.journal ./mistaken.journal
mistake 'a migration of a note' $'migrate NotOld\nmistaken.journal: no journal of version 1' migrate mistaken.journal new.journal
mistake 'a migration of version 2' $'migrate NotOld\nmember-0.journal: is version 2 already, and needs no migration' migrate member-0.journal new.journal
printf 'BRACHAJ1%b' '\0\0\0\0\0\0\0\x07\x04\x01\0\x40\0\0\0\0\0' >mistaken.journal
printf 'BRACHAJ1\0\0\0\0\0\0\0\x07\x04\x01\0\x40\0\0\0\0\1\0\2\2\0\0\0\1\1\1\x9\0\0\0\1\1\1\0' >damaged.journal
mistake 'a migration of a record that is none' $'migrate BadRecord\ndamaged.journal: byte 34: bytes 09 00 00 00 01 01 01 00: migrate BadRecord' migrate damaged.journal new.journal
truncate -s 30 damaged.journal
mistake 'a migration of a part of a batch' $'migrate CutShort\ndamaged.journal: byte 24: bytes 01 00 02 02 00 00: migrate CutShort' migrate damaged.journal new.journal
old='a journal of version 1: `bracha migrate OLD NEW` brings it over into a new file'
cp mistaken.journal kept.journal
says 'a migration with closed streams' 1 'bracha: stream' bash -c '
    status=0
    "$0" --quiet migrate mistaken.journal closed.journal <&- >&- || status=$?
    cmp mistaken.journal kept.journal
    exit "$status"' "$program"
mistake 'a run of version 1' $'journal OldVersion\nmistaken.journal: '"$old" run mistaken.toml
truncate -s 1G mistaken.journal
says 'a migration that is refused memory' 1 'bracha: memory' bash -c 'ulimit -v 500000; exec "$0" migrate mistaken.journal new.journal' "$program"
says 'a check of version 1' 1 $'bracha: journal OldVersion\nmistaken.journal: '"$old" bash -c 'head -c 25 mistaken.journal >old.journal
    sed s/mistaken.journal/old.journal/ mistaken.toml >old.toml; "$0" check old.toml 2>&1 >/dev/null | sed s/^old.journal/mistaken.journal/; exit "${PIPESTATUS[0]}"' "$program"
mistake 'a dump of version 1' $'journal OldVersion\nmistaken.journal: '"$old" dump mistaken.journal
rm mistaken.journal
sed -i 's/127.0.0.1:7100/203.0.113.1:7100/' mistaken.toml
"$program" init mistaken.toml
mistake 'an address of another host' $'listen\n203.0.113.1:7100: listen: no address of this host: entry 0 of `peers` is where this member listens' run mistaken.toml
says 'a check of that' 1 $'bracha: listen\n203.0.113.1:7100: listen: no address of this host: entry 0 of `peers` is where this member listens' \
    bash -c '"$0" check mistaken.toml >/dev/null' "$program"
says 'a check of an address of another host' 1 $'bracha: listen\n203.0.113.2:7100: listen: no address of this host: `listen` is where this member listens' \
    bash -c 'sed "1i listen = \"203.0.113.2:7100\"" mistaken.toml >listens.toml; exec "$0" check listens.toml >/dev/null' "$program"
sed -i -e 's/203.0.113.1:7100/127.0.0.1:7100/' -e 's/desk = "127.0.0.1/desk = "203.0.113.1/' mistaken.toml
mistake 'a desk of another host' $'listen\n203.0.113.1:7110: listen: no address of this host: `desk` is where clients are listened for' run mistaken.toml
says 'a check of such a desk' 1 $'bracha: listen\n203.0.113.1:7110: listen: no address of this host: `desk` is where clients are listened for' \
    bash -c '"$0" check mistaken.toml >/dev/null' "$program"
head=$'n 4\nt 1\nquestions 1\nliars 3\nseed 1\n'
printf '%spropose 0 0 2\n' "$head" >mistaken.script
mistake 'a bit of 2' $'line 6\nmistaken.script:6: propose 0 0 2: word 4 must be a bit, 0 or 1: an event is `propose M Q B`: member M, 0 to 255, question Q, 0 to 65535, bit B, 0 or 1' simulate mistaken.script
printf '%srestart 0 \n' "$head" >mistaken.script
mistake 'a blank at the end' $'line 6\nmistaken.script:6: "restart 0 ": word 3 is empty: a blank before it is too many: an event is `restart M`: member M, 0 to 255' simulate mistaken.script
line() { # line WHAT LINE WHY FORM: what is told of a line behind the first five
    printf '%s%s\n' "$head" "$2" >mistaken.script
    mistake "$1" "line 6"$'\n'"mistaken.script:6: $2: $3: $4" simulate mistaken.script
}
line 'a member of 256' 'propose 256 0 1' 'word 2 must be a member, 0 to 255' 'an event is `propose M Q B`: member M, 0 to 255, question Q, 0 to 65535, bit B, 0 or 1'
line 'a question that is none' 'propose 0 x 1' 'word 3 must be a question, 0 to 65535' 'an event is `propose M Q B`: member M, 0 to 255, question Q, 0 to 65535, bit B, 0 or 1'
line 'a bit that is missing' 'propose 0 0' 'word 4 must be a bit, 0 or 1' 'an event is `propose M Q B`: member M, 0 to 255, question Q, 0 to 65535, bit B, 0 or 1'
line 'a word too many' 'propose 0 0 1 1' 'word 5 is too many' 'an event is `propose M Q B`: member M, 0 to 255, question Q, 0 to 65535, bit B, 0 or 1'
line 'two blanks' 'reset 0  1' 'word 3 is empty: a blank before it is too many' 'an event is `reset A B`: members A and B, 0 to 255'
line 'no next' 'deliver 0 1 last' 'word 4 must be `next` or a number' 'an event is `deliver A B next` or `deliver A B I`: members A and B, 0 to 255, number I'
line 'a group of 0' 'group 0 1 0' 'word 4 must be a number from 1 to 256' 'an event is `group A B K`: members A and B, 0 to 255, K from 1 to 256'
line 'a digit too few' 'lie 3 0 000' 'word 4 must be an even count of hexadecimal digits' 'an event is `lie L M HEX`: members L and M, 0 to 255, an even count of hexadecimal digits'
line 'a fuse of words' 'fuse 0 on' 'word 3 must be `off` or a number' 'an event is `fuse M K` or `fuse M off`: member M, 0 to 255, number K'
crash='an event is `crash M kept`, `crash M lost` or `crash M fill HH`: member M, 0 to 255, two hexadecimal digits HH'
line 'a crash of none' 'crash 0 keep' 'word 3 must be `kept`, `lost` or `fill`' "$crash"
line 'a crash that fills with none' 'crash 0 fill 0' 'word 4 must be two hexadecimal digits' "$crash"
line 'rounds of words' 'rounds many' 'word 2 must be a number below 2^64' 'an event is `rounds K`: number K'
line 'a name that is none' 'restarts 0' 'word 1 must be restart' 'an event is `restart M`: member M, 0 to 255'
printf '# a comment\n\nn 4\nt x\n' >mistaken.script
mistake 'a second line' $'line 4\nmistaken.script:4: t x: word 2 must be a number from 0 to 65535: the second line is `t T`: T of them may lie, less than a third' simulate mistaken.script
printf 'n 4\nt 1\nquestions 1\nliars 3 x\n' >mistaken.script
mistake 'a fourth line' $'line 4\nmistaken.script:4: liars 3 x: the fourth line is `liars M M ..`: the members that lie, each 0 to 255, perhaps none' simulate mistaken.script
printf 'n 4\nt 1\nquestions 1\nliars 3\nsed 1\n' >mistaken.script
mistake 'a fifth line' $'line 5\nmistaken.script:5: sed 1: word 1 must be seed: the fifth line is `seed S`: a number S' simulate mistaken.script
printf '%srandom 1000001\n' "$head" >mistaken.script
mistake 'too many events' $'events\nmistaken.script: more than 1000000 events, the most that are taken' simulate mistaken.script
printf '%s' "${head/liars 3/liars 2 3}" >mistaken.script
mistake 'too many liars' $'sim BadLiars\nmistaken.script: the liars have to ascend, each below n, and to be t at most' simulate mistaken.script
printf '%s' "${head/n 4/n 3}" >mistaken.script
mistake 'a size of none' $'size TooManyLiars\nmistaken.script: t: must be an integer from 0 on and below a third of n' simulate mistaken.script
printf 'transcript 0 bit 1 count 2\n0 00080301000000010101\n\n' >mistaken.transcript
mistake 'an empty last line' $'line 3\nmistaken.transcript:3: this line is empty' audit mistaken.transcript --n 1 --t 0 --questions 1
printf 'transcript 0 bit 1 count 2\n0 00080301000000010101\n' >mistaken.transcript
mistake 'a line that is missing' $'line 3\nmistaken.transcript:3: the text ends before this line' audit mistaken.transcript --n 1 --t 0 --questions 1

# A member alone whose file may not grow is stopped and ends, as by a full disk, and goes on once there is room.
sed -e 's/^n = 4/n = 1/' -e 's/^t = 1/t = 0/' -e '/:710[123]"/d' -e 's/member-0/alone/' member-0.toml >alone.toml
says 'init of a member alone' 0 '' "$program" init alone.toml
run alone '-f 1'
for question in {0..15}; do "$program" propose 127.0.0.1:7110 "$question" 1 >/dev/null 2>&1 || true; done
for _ in {1..200}; do
    if ! kill -0 "${started[0]}" 2>/dev/null; then break; fi
    sleep 0.1
done
end_of 0
says 'a full disk' 0 $'1\nstopped device: File too large (os error 27)\nend\nbracha: stopped\nalone.journal: File too large (os error 27)' \
    bash -c 'echo "$0"; tail -n 4 log-alone | untimed' "$ended"
says 'a full disk and no log' 1 $'member 0 ready\nstopped device: File too large (os error 27)\nbracha: stopped\nalone.journal: File too large (os error 27)' \
    bash -c 'ulimit -f 1; exec timeout 60 env --ignore-signal=XFSZ "$0" run --stay alone.toml' "$program"
says 'no room for a journal' 1 $'bracha: journal Device\nfresh.journal: File too large (os error 27)' \
    bash -c 'sed s/alone.journal/fresh.journal/ alone.toml >fresh.toml; ulimit -f 0; exec env --ignore-signal=XFSZ "$0" init fresh.toml' "$program"
run alone '' --log-json
says 'room again' 0 'DECIDED 1' "$program" ask --wait --timeout 60 127.0.0.1:7110 2
says 'a new question there' 0 $'OK\nDECIDED 1' bash -c '"$0" propose 127.0.0.1:7110 40 1 && "$0" ask --wait --timeout 60 127.0.0.1:7110 40' "$program"
end_of 1
says 'a log of objects' 0 $'{"time":T,"event":"decided","question":40,"bit":1}\n{"time":T,"event":"end"}\n{"time":T,"event":"ready","member":0}' \
    bash -c 'sed -E "s/\"[0-9-]{10}T[0-9:.]{12}Z\"/T/" log-alone | grep -e ready -e :40, -e end | LC_ALL=C sort'

# As many clients are served as it says, and one more in the place of the one that was silent longest, after ten seconds.
run alone '-n 23'
says 'few files' 0 'bracha: 23 open files are enough for 3 of 32 clients: the links want 17, and each client 2' head -n 1 log-alone
says 'few clients' 0 '3 served, one more, 2 left' bash -c '
    talks() { echo STATUS >&"$1" && read -r -t 15 said <&"$1" && [[ $said == "UP "* ]]; } 2>/dev/null
    trap "" PIPE
    served=0 left=0
    for it in 0 1 2; do
        exec {file}<>/dev/tcp/127.0.0.1/7110
        files[it]=$file
        if talks "$file"; then served=$((served + 1)); fi
    done
    exec {file}<>/dev/tcp/127.0.0.1/7110
    if talks "$file"; then more="one more"; fi
    for file in "${files[@]}"; do if talks "$file"; then left=$((left + 1)); fi; done
    echo "$served served, ${more-none more}, $left left"'
end_of 2
says 'a client that was closed' 0 'client from 127.0.0.1 at place 0 closed for another: silent for 1X s' \
    bash -c 'untimed log-alone | grep "for another" | sed -E "s/ 1[1-3] s$/ 1X s/"'

# A member listens elsewhere than at its entry of the peers, and at a path for clients of its machine alone. What a member that
# was killed left there is taken away.
sed '1i listen = "0.0.0.0:7190"\ndesk-socket = "alone.desk"' alone.toml >elsewhere.toml
run elsewhere
says 'a desk in the file system' 0 $'UP\n600 socket' bash -c '"$0" status unix:alone.desk | cut -d " " -f 1 && stat -c "%a %F" alone.desk' "$program"
says 'a proposal there' 0 $'OK\nDECIDED 1' bash -c '"$0" propose unix:alone.desk 41 1 && "$0" ask --wait --timeout 60 unix:alone.desk 41' "$program"
says 'two at one path' 1 $'bracha: listen\nalone.desk: listen: another process listens there' bash -c '
    sed -e s/alone.journal/twin.journal/ -e s/:7190/:7191/ -e s/:7110/:7111/ elsewhere.toml >twin.toml
    "$0" init twin.toml && timeout 20 "$0" run --stay twin.toml' "$program"
kill -9 "${started[3]}"
wait "${started[3]}" || true
run elsewhere
says 'a desk that was left behind' 0 'DECIDED 1' "$program" ask --timeout 60 unix:alone.desk 41
end_of 4
says 'a desk that is gone' 1 '' bash -c '[ -e alone.desk ]'
run elsewhere
rm alone.desk
echo 'a note' >alone.desk
end_of 5
says 'a note that came in its place' 0 'a note' cat alone.desk
says 'a note at its path' 1 $'bracha: listen\nalone.desk: listen: a file is there that is no socket' "$program" run --stay elsewhere.toml

says 'no files to speak of' 1 $'bracha: file\nopen files: 12 are too few: this member wants 17 at least, and 2 for each client (`ulimit -n`)' \
    bash -c 'ulimit -n 12; exec timeout 20 "$0" run --stay alone.toml' "$program"
says 'no files for n - t links' 1 $'bracha: file\nopen files: 23 are too few: this member wants 24 at least, and 2 for each client (`ulimit -n`)' \
    bash -c 'ulimit -n 23; exec timeout 20 "$0" run --stay member-0.toml' "$program"

# A liar says its own Initial of rounds 2 to 32 at each of 128 questions, which nobody needs yet: 8,192 are taken at once and
# 512 a second behind these, and all of them in the end.
"$program" new-cluster --n 4 --t 1 --questions 128 --cluster 9 --port 7140 early >early.out
sed 's/member-0/early/' early/member-0.toml >early.toml
"$program" init early.toml
run early
cat >early.py <<'END'
import socket, struct, time

said = [struct.pack(">BHBBBB", 1, question, 1, turn, step, 2 if step == 3 else 0)
        for turn in range(2, 33) for step in (1, 2, 3) for question in range(128)]
link = socket.create_connection(("127.0.0.1", 7140), timeout=60)
link.sendall(struct.pack(">HBBQBBHBB", 16, 1, 2, 9, 4, 1, 128, 1, 0))
assert len(link.recv(11)) == 11
for first in range(0, len(said), 96):
    link.sendall(struct.pack(">HBB", 2 + 7 * 96, 4, 96) + b"".join(said[first:first + 96]))
desk = socket.create_connection(("127.0.0.1", 7150), timeout=60)
replies = desk.makefile("rb")


def reaches(wanted):
    while True:
        link.sendall(bytes([0, 1, 0]))
        desk.sendall(b"STATUS\n")
        count = int(replies.readline().split()[1])
        if count >= wanted:
            return count
        time.sleep(0.25)


reaches(8192)
time.sleep(1.5)
print("paced" if reaches(8192) < 11000 else "not paced")
print("all heard" if reaches(len(said)) == len(said) else "more than was said")
END
says 'a liar ahead of all' 0 $'paced\nall heard' timeout 90 python3 early.py
end_of 6

# A journal that is too long to go through is told whose it is all the same.
truncate -s 20M alone.journal
says 'a long journal' 1 $'bracha: journal NotEmpty\nalone.journal: begins as the journal of member 0 of cluster 7 and has 20971520 bytes' \
    "$program" init alone.toml

# A system that gives no thread is told as such. The limit holds for no root, so root tries it as nobody, where that can be.
chmod 755 "$room"
chmod 644 alone.toml
chmod 666 alone.journal
as=()
if [ "$EUID" = 0 ]; then as=(setpriv --reuid 65534 --regid 65534 --clear-groups); fi
alone=("${as[@]}" prlimit --nproc=1 "$room/to/usr/bin/bracha")
if "${alone[@]}" --version >/dev/null 2>&1; then
    says 'no threads' 1 $'bracha: memory\nthreads: the system refused one: see `ulimit -u`' timeout 60 "${alone[@]}" run --stay alone.toml
    alone[-2]=--nproc=7
    says 'no thread to read a link' 1 $'bracha: memory\nthreads: the system refused one: see `ulimit -u`' timeout 60 "${alone[@]}" run --stay alone.toml
else
    echo 'no threads: not tried, since nobody can start the program here'
fi
echo "$passed passed, $failed failed"
[ "$failed" = 0 ]
