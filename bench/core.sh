#!/usr/bin/env bash
# Prints what a hearing costs a member's core where more and more was heard: nanoseconds an event after 10^4, 10^5 and
# 10^6 events of 256 questions, and of one question up to the 199,680 that it can have. Every event is news; the core
# says what is due and accepts on the way. It proves and builds the crates below `questions` in a copy, which takes some minutes.
set -euo pipefail
cd "$(dirname "$0")/.."
copy=$(mktemp -d)
trap 'rm -r "$copy"' EXIT
grep -E '^(terms|terms_prelude|votes|rbc|validate|rounds|questions):' crates.txt > "$copy/crates.txt"
cp HANDLES "$copy"
mkdir "$copy/crates"
cp -a crates/{terms,terms_prelude,votes,rbc,validate,rounds,questions} "$copy/crates"
cd "$copy/crates/questions"
printf '\n#[cfg(test)]\nmod tests;\n' >> src/lib.rt
cp "$OLDPWD/bench/core-tests.txt" src/tests.rt
rt test > "$copy/log" 2>&1 || { cat "$copy/log"; exit 1; }
./out/questions_tests tests::cost
