#!/usr/bin/env python3
"""What each part costs: processor time (user and system, the best of five), what that makes a second, and memory at its peak.

    bench/table.py [PROGRAM [OTHER]]       whole simulations; PROGRAM is by default crates/bracha/out/bracha, which
                                           `rt run` makes in crates/bracha. OTHER is another program that takes the
                                           same words, run in turns with it: a row of its own, and the ratio
    bench/table.py --instructions ..       instructions an event instead (valgrind's callgrind), by the difference of a
                                           script and one three times as long, which other work doesn't move
    bench/table.py --libraries ..          the decoder, a member's core and batches on a real file too: their crates
                                           are proved and built in a copy first, which takes some twenty minutes

The row of the file is wall time, beside the bare writes and syncs of the same bytes on the same disk.
"""
import os
import re
import shutil
import subprocess
import sys
import tempfile
import time

HERE = os.path.dirname(os.path.abspath(__file__))
ROOT = os.path.dirname(HERE)
TRIES = 5
# A test of these, and the crates that it stands on.
DECODER = ["terms", "terms_prelude", "statement_codec", "wire"]
CORE = ["terms", "terms_prelude", "votes", "rbc", "validate", "rounds", "questions"]
APPEND = ["disk"]


def spent(words, folder):
    """The processor seconds, wall seconds and peak megabytes of one run, and its last line."""
    start = time.monotonic()
    run = subprocess.Popen(words, cwd=folder, stdin=subprocess.DEVNULL, stdout=subprocess.PIPE)
    told = run.stdout.read().decode().strip().splitlines()
    _, status, used = os.wait4(run.pid, 0)
    run.returncode = os.waitstatus_to_exitcode(status)
    if run.returncode:
        sys.exit(f"{' '.join(words)} ended with status {run.returncode}")
    return used.ru_utime + used.ru_stime, time.monotonic() - start, used.ru_maxrss / 1024, told[-1] if told else ""


def best_of(runs):
    return min(it[0] for it in runs), min(it[1] for it in runs), max(it[2] for it in runs), runs[0][3]


def best(words, folder=ROOT):
    return best_of([spent(words, folder) for _ in range(TRIES)])


def row(name, seconds, count, unit, peak):
    print(f"{name:<44}{seconds:9.2f} s{count / seconds / 1e6:10.2f} million {unit} a second{peak:8.0f} MB", flush=True)


def head(n, t, questions, proposals=True):
    """The head of a script, and with proposals one to each member on each question, the bits in turn."""
    lines = [f"n {n}", f"t {t}", f"questions {questions}", "liars", "seed 1"]
    return lines + [f"propose {member} {question} {question % 2}" for question in range(questions if proposals else 0) for member in range(n)]


def rounds(n, t, questions):
    """Every delivery that members on all links have: each says 6 Initials a question, and Echo and Ready at 6 n places."""
    return [*head(n, t, questions), f"rounds {(6 + 12 * n) * questions}"]


def scripts(part=1):
    """The simulations of the table, or those of a part of their length."""
    return [
        ("random events, n 4, one question", [*head(4, 1, 1), f"random {int(999996 * part)}"]),
        ("rounds, n 7, 200 questions", rounds(7, 2, int(200 * part))),
        ("rounds, n 16, 19 questions", rounds(16, 5, max(2, int(19 * part)))),
        ("random events, n 7, one question", [*head(7, 2, 1), f"random {int(999993 * part)}"]),
        ("random events, n 4, 256 questions", [*head(4, 1, 256, False), f"random {int(300000 * part)}"]),
        ("random events, n 4, 4,096 questions", [*head(4, 1, 4096, False), f"random {int(300000 * part)}"]),
        ("random events, n 64, 4,096 questions", [*head(64, 21, 4096, False), f"random {int(300000 * part)}"]),
    ]


def written(room, lines):
    path = f"{room}/script"
    with open(path, "w", encoding="utf-8") as script:
        script.write("\n".join(lines) + "\n")
    return path


def simulations(programs, room):
    for name, lines in scripts():
        path = written(room, lines)
        turns = [[spent([it, "simulate", path], ROOT) for it in programs] for _ in range(TRIES)]
        bests = [best_of(runs) for runs in zip(*turns)]
        for at, (seconds, _, peak, told) in enumerate(bests):
            row(f"simulate, {name}" if not at else "  the other program", seconds, int(told.split()[1]), "events", peak)
        if len(bests) > 1:
            print(f"  ratio of their times{bests[1][0] / bests[0][0]:35.2f}", flush=True)


def counted(program, room, lines):
    """The instructions of one run, and how many events it says that there were."""
    words = ["valgrind", "--tool=callgrind", "--callgrind-out-file=/dev/null", program, "simulate", written(room, lines)]
    run = subprocess.run(words, stdin=subprocess.DEVNULL, capture_output=True, text=True)
    found = re.search(r"Collected : (\d+)", run.stderr)
    if run.returncode or not found:
        sys.exit(f"{' '.join(words)} ended with status {run.returncode}:\n{run.stderr}")
    return int(found[1]), int(run.stdout.strip().splitlines()[-1].split()[1])


def instructions(programs, room):
    for (name, short), (_, long) in zip(scripts(0.1), scripts(0.3)):
        for at, program in enumerate(programs):
            (few, first), (many, last) = counted(program, room, short), counted(program, room, long)
            print(f"{name if not at else '  the other program':<44}{(many - few) / (last - first):9.0f} instructions an event", flush=True)


def built(room, crates, tests):
    """The tests of the last crate, with these in place of its own, proved and built in a copy."""
    copy = f"{room}/{crates[-1]}"
    os.makedirs(f"{copy}/crates")
    with open(f"{ROOT}/crates.txt", encoding="utf-8") as lines:
        kept = [it for it in lines if it.split(":")[0] in crates]
    with open(f"{copy}/crates.txt", "w", encoding="utf-8") as lines:
        lines.writelines(kept)
    shutil.copy(f"{ROOT}/HANDLES", copy)
    for crate in crates:
        shutil.copytree(f"{ROOT}/crates/{crate}", f"{copy}/crates/{crate}")
    folder = f"{copy}/crates/{crates[-1]}"
    shutil.rmtree(f"{folder}/src/tests", ignore_errors=True)
    shutil.copy(f"{HERE}/{tests}", f"{folder}/src/tests.rt")
    with open(f"{folder}/src/lib.rt", "r+", encoding="utf-8") as lib:
        if "mod tests;" not in lib.read():
            lib.write("\n#[cfg(test)]\nmod tests;\n")
    with open(f"{copy}/log", "w", encoding="utf-8") as log:
        if subprocess.run(["rt", "test"], cwd=folder, stdin=subprocess.DEVNULL, stdout=log, stderr=log).returncode:
            sys.exit(open(f"{copy}/log", encoding="utf-8").read())
    return f"{folder}/out/{crates[-1]}_tests"


def libraries(room):
    decoder = built(room, DECODER, "decoder-tests.txt")
    for test, frames in [("decoder", "one"), ("decoder_of_8", "8"), ("decoder_of_50", "50")]:
        seconds, _, peak, _ = best([decoder, f"tests::{test}"], room)
        row(f"decoder, {frames} to a frame, pieces of 512", seconds, 20_000_000, "statements", peak)
    core = built(room, CORE, "core-tests.txt")
    seconds, _, peak, _ = best([core, "tests::few_members"], room)
    row("core, 4 members, 256 questions", seconds, 884_736, "events", peak)
    seconds, _, peak, _ = best([core, "tests::many_members"], room)
    row("core, 32 members, 256 questions", seconds, 999_936, "events", peak)
    append = built(room, APPEND, "append-tests.txt")
    _, wall, _, _ = best([append, "tests::append"], room)
    bare = min(bare_writes(f"{room}/bare") for _ in range(TRIES))
    print(f"{'2,000 batches of a record on a file':<44}{wall:9.2f} s, the bare writes and syncs {bare:.2f} s", flush=True)


def bare_writes(path):
    """Wall seconds of 2,000 times two writes and two syncs, of the bytes of a batch of one record."""
    with open(path, "wb", buffering=0) as file:
        start = time.monotonic()
        for turn in range(2000):
            os.pwrite(file.fileno(), bytes(10), 25 + 10 * turn)
            os.fsync(file.fileno())
            os.pwrite(file.fileno(), b"\x01", 24 + 10 * turn)
            os.fsync(file.fileno())
        return time.monotonic() - start


def main():
    options = [it for it in sys.argv[1:] if it.startswith("-")]
    programs = [os.path.abspath(it) for it in sys.argv[1:] if not it.startswith("-")]
    if not {"--instructions", "--libraries"}.issuperset(options) or len(programs) > 2:
        sys.exit(__doc__)
    programs = programs or [f"{ROOT}/crates/bracha/out/bracha"]
    with tempfile.TemporaryDirectory() as room:
        if "--instructions" in options:
            instructions(programs, room)
            return
        simulations(programs, room)
        if "--libraries" in options:
            libraries(room)


main()
