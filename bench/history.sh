#!/usr/bin/env bash
# Prints what an event of `bracha simulate` costs where more and more was heard: microseconds of processor time an event,
# at 10^4, 10^5 and 10^6 events of one question and of 256.
#
# Each event is news at its member. Of 32 members ten lie, and each sends every correct one an Echo and a Ready at one
# place after the other. Ten are no help set, so nothing is ever due and no disk is written: what is timed is the reading
# of the line, the frame, and the hearing of the statement.
#
# Usage: bench/history.sh [PROGRAM], by default crates/bracha/out/bracha (made by `rt run` in crates/bracha).
set -euo pipefail
cd "$(dirname "$0")/.."
program=${1:-crates/bracha/out/bracha}
scripts=$(mktemp -d)
trap 'rm -r "$scripts"' EXIT

# A script of QUESTIONS with so many EVENTS.
script() {
    awk -v questions="$1" -v events="$2" 'BEGIN {
        printf "n 32\nt 10\nquestions %d\nliars 22 23 24 25 26 27 28 29 30 31\nseed 1\n", questions
        for (i = 0; i < events; i++) {
            turn = int(i / 220)
            said = int(turn / questions)
            place = int(said / 2)
            number = int(place / 32)
            step = number % 3 + 1
            printf "lie %d %d 000803%02x%04x%02x%02x%02x%02x\n", 22 + i % 10, int(i / 10) % 22,
                2 + said % 2, turn % questions, place % 32, int(number / 3) + 1, step, step == 3 ? 3 : 1
        }
    }'
}

# The least processor time of three runs of a script, in seconds.
seconds() {
    local TIMEFORMAT='%U %S' try
    for try in 1 2 3; do
        { time "$program" simulate "$1" > "$scripts/out"; } 2>&1
    done | awk '{ print $1 + $2 }' | sort -g | head -1
}

# One row: what is left of the time of a script without events, by their number.
row() {
    local questions=$1 events least empty
    script "$questions" 0 > "$scripts/script"
    empty=$(seconds "$scripts/script")
    printf '%-12s' "$questions"
    for events in 10000 100000 1000000; do
        script "$questions" "$events" > "$scripts/script"
        least=$(seconds "$scripts/script")
        awk -v least="$least" -v empty="$empty" -v events="$events" \
            'BEGIN { printf "%12.2f", (least - empty) * 1e6 / events }'
    done
    printf '\n'
}

printf '%-12s%12s%12s%12s\n' questions 10^4 10^5 10^6
row 1
row 256
