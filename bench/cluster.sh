#!/usr/bin/env bash
# Starts a cluster of four members on this machine, proposes 1 to each on 256 questions, and waits until all have decided
# all of them. Prints
#
#   decided      questions that all four decided, a second
#   batches      batches a question in the journal of the member that has most of them
#   syncs        syncs a question there: two a batch
#   sync         what a sync of a few bytes takes on the same disk where four sync at once, in milliseconds
#   floor        the time of its syncs one after the other, in seconds: no member can be faster with so many
#   times        how many times the floor it took
#
# Usage: bench/cluster.sh [PROGRAM [FOLDER]], by default crates/bracha/out/bracha (made by `rt run` in crates/bracha) and
# a new folder below /tmp. The disk that is measured is the folder's. Ports 7100 to 7103 and 7110 to 7113 are used.
set -euo pipefail
here=$(cd "$(dirname "$0")/.." && pwd)
program=$(realpath "${1:-$here/crates/bracha/out/bracha}")
folder=$(mktemp -d "${2:-${TMPDIR:-/tmp}}/bracha-bench.XXXXXX")
cd "$folder"
questions=256
members=()
trap 'kill "${members[@]}" 2>/dev/null || true; rm -r "$folder"' EXIT

# What a sync takes, of 400 writes of a record's bytes each followed by one, where four do so at once, as the members do.
sync_seconds() {
    perl -MIO::Handle -MTime::HiRes=time -e '
        for my $writer (1 .. 4) {
            next if fork;
            open(my $file, ">", "synced-$writer") or die "synced: $!";
            my $begun = time;
            for (1 .. 400) { syswrite($file, "0" x 21); $file->sync or die "sync: $!" }
            printf("%.9f\n", (time - $begun) / 400);
            exit;
        }
        1 while wait > 0;' | awk '{ all += $1 } END { print all / NR }'
}

start() {
    sed "s/^questions *=.*/questions = $questions/" "$here/examples/cluster/member-$1.toml" > "member-$1.toml"
    "$program" init "member-$1.toml"
    "$program" run --stay --log "member-$1.toml" > "output-$1" 2> "log-$1" &
    members+=($!)
}

# Waits until a member hears each of the three others. It doesn't where it couldn't listen, say because an outgoing
# connection of this machine had its port for a moment: then the bench ends.
linked() {
    until [ "$(grep -c ' link-up ' "log-$1")" -ge 3 ]; do
        ! grep '^bracha: ' "log-"* || exit 1
        sleep 0.05
    done
}

# Sends a member the proposals, and then asks it until it has decided each question.
settle() {
    perl -MIO::Socket::INET -e '
        my ($port, $questions) = @ARGV;
        my $desk = IO::Socket::INET->new("127.0.0.1:$port") or die "desk: $!";
        print $desk join("", map { "PROPOSE $_ 1\n" } 0 .. $questions - 1);
        $desk->flush;
        <$desk> for 1 .. $questions;
        for my $question (0 .. $questions - 1) {
            while (1) {
                print $desk "ASK $question\n";
                $desk->flush;
                last if (<$desk> // die "desk") eq "DECIDED 1\n";
                select(undef, undef, undef, 0.002);
            }
        }' "711$1" "$questions"
}

# Of a journal, how many batches it has: its header and first gate take 25 bytes, a batch 3, and a record 6.
batches() {
    local records bytes
    records=$("$program" dump "member-$1.journal" | tail -n +2 | wc -l)
    bytes=$(stat -c %s "member-$1.journal")
    echo $(((bytes - 25 - 6 * records) / 3))
}

sync=$(sync_seconds)
for member in 0 1 2 3; do start "$member"; done
for member in 0 1 2 3; do linked "$member"; done
begun=$(date +%s.%N)
settling=()
for member in 0 1 2 3; do
    settle "$member" &
    settling+=($!)
done
wait "${settling[@]}"
ended=$(date +%s.%N)
kill "${members[@]}"
wait "${members[@]}" 2> "log" || true
for member in 0 1 2 3; do batches "$member"; done | sort -n | tail -1 |
    awk -v questions="$questions" -v begun="$begun" -v ended="$ended" -v sync="$sync" '{
        took = ended - begun
        floor = 2 * $1 * sync
        printf "decided %.1f a second\nbatches %.1f a question\nsyncs %.1f a question\n", questions / took, $1 / questions, 2 * $1 / questions
        printf "sync %.3f ms\nfloor %.2f s\ntimes %.2f\n", sync * 1000, floor, took / floor
    }'
