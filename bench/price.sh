#!/usr/bin/env bash
# bench/price.sh [LIBRARY]
#
# What an event costs a C program over the library, next to what it costs the core alone: the same events, of four members and
# 256 questions. Processor time is the least of 60 runs of each, in turns; instructions (callgrind) are the difference of two
# lengths, so that opening and closing aren't counted.
# LIBRARY is the folder that packaging/library.sh made; left out, it is made anew. It proves the crates below `questions` in a
# copy, which takes some minutes. Prints both of each, and their ratio.
set -euo pipefail
here=$(realpath "$(dirname "$0")")
cd "$here/.."
copy=$(mktemp -d)
trap 'rm -rf "$copy"' EXIT
library=${1-}
if [ -z "$library" ]; then
    packaging/library.sh "$copy/library" > /dev/null
    library=$copy/library
fi
cc -O2 -I "$library/include" bench/price.c "$library/lib/libbracha.a" -o "$copy/price"

grep -E '^(terms|terms_prelude|votes|rbc|validate|rounds|questions):' crates.txt > "$copy/crates.txt"
cp HANDLES "$copy"
mkdir "$copy/crates"
cp -a crates/{terms,terms_prelude,votes,rbc,validate,rounds,questions} "$copy/crates"
cd "$copy/crates/questions"
printf '\n#[cfg(test)]\nmod tests;\n' >> src/lib.rt
# The test of many members is not needed; that of few is, of both lengths.
sed -e '/^fn many_members/,/^}/s/32, 10, 256)?, 256, 3906/4, 1, 256)?, 256, 1728/' "$here/core-tests.txt" > src/tests.rt
rt test > "$copy/log" 2>&1 || { cat "$copy/log"; exit 1; }

python3 - ./out/questions_tests "$copy/price" <<'END'
import resource
import subprocess
import sys

def spent(*words):
    before = resource.getrusage(resource.RUSAGE_CHILDREN)
    subprocess.run(words, stdout=subprocess.DEVNULL, stderr=subprocess.DEVNULL, check=True)
    after = resource.getrusage(resource.RUSAGE_CHILDREN)
    return after.ru_utime + after.ru_stime - before.ru_utime - before.ru_stime

runs = [(spent(sys.argv[1], "tests::few_members"), spent(sys.argv[2], "3456")) for _ in range(60)]
core, c = (min(times) * 1e9 / (256 * 3456) for times in zip(*runs))
print(f"the core alone {core:.0f}, from C {c:.0f} nanoseconds of a processor an event: {c / core:.2f} times")
END
# The instructions of a program.
count() {
    valgrind --tool=callgrind --callgrind-out-file=/dev/null "$@" 2>&1 >/dev/null | sed -n 's/.*Collected : //p'
}
# The instructions of an event, of so many more of them.
events=$((256 * 1728))
core=$((($(count ./out/questions_tests tests::few_members) - $(count ./out/questions_tests tests::many_members)) / events))
c=$((($(count "$copy/price" 3456) - $(count "$copy/price" 1728)) / events))
echo "the core alone $core, from C $c instructions an event: $(awk "BEGIN { printf \"%.2f\", $c / $core }") times"
