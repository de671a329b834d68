#!/usr/bin/env python3
"""tests/vectors.py [PROGRAM [FILE..]]

Plays the test vectors of tests/vectors over the built program, crates/bracha/out/bracha unless another is named: all files, or those that
are named. It prints each vector that differs, with its line, and in its last line `N passed, M failed`: vectors. The status is 1 where M
isn't 0. The files come from reference implementations that share no code with the product, or were worked by hand; each says which.
A command takes less than a second, and has ten. ANSWERS counts the vectors of all files, so that none is lost: who adds some adds to it.

A vector begins with its command and ends before the next one. `#` begins a comment.

    simulate | trace | dump | dump count | hear N T QUESTIONS ME
                           the command; `trace` is `simulate --trace -`, of which the decisions are compared behind the trace
    < LINE, << DIGITS      a line of the script, the journal or the input; bytes of it
    ends -> 0              it ends so, with nothing but decisions on standard error; `ends -> FAULT`: with status 1 and `bracha: FAULT`
    -> LINE                the next line that it prints
    no more                it prints no other
    times TEXT -> N        what it prints has the text so often

    play N T LIARS ORDER SEED -> decided R | open
                           a vector of its own: the question of that seed, which `bracha rounds` counts in round R or among the open ones
"""
import collections
import concurrent.futures
import glob
import os
import re
import subprocess
import sys
import tempfile

TOP = os.path.dirname(os.path.dirname(os.path.realpath(__file__)))
SECONDS = 10
ANSWERS = 14734
Said = collections.namedtuple("Said", "printed told status")


def run(words, given=b""):
    try:
        ran = subprocess.run([PROGRAM, *words], input=given, capture_output=True, timeout=SECONDS)
    except subprocess.TimeoutExpired:
        return Said(b"", b"nothing in %d seconds\n" % SECONDS, None)
    return Said(ran.stdout, ran.stderr, ran.returncode)


class Job:
    """A command, what it gets, and what it has to print."""

    def __init__(self, place, command):
        self.place, self.command, self.given, self.rows = place, command.split(), b"", []

    def run(self):
        name, *rest = self.command
        if name == "hear":
            words = [it for pair in zip(("--n", "--t", "--questions", "--me"), rest) for it in pair]
            return run([name, *words], self.given)
        with tempfile.NamedTemporaryFile() as file:
            file.write(self.given)
            file.flush()
            if name == "trace":
                said = run(["simulate", "--trace", "-", file.name])
                return Said(said.printed + said.told, b"", 0) if said.status == 0 else said
            return run([name, *(f"--{it}" for it in rest), file.name])

    def played(self):
        """How many of its rows are as they say, and those that aren't, each with its place."""
        said, next_line, well, ill = self.run(), 0, 0, []
        lines = said.printed.split(b"\n")[:-1]
        fault = said.told.partition(b"\n")[0].removeprefix(b"bracha: ")
        ending = b"0" if said.status == 0 else fault
        is_ended = said.status in (0, 1) and bool(said.told) == bool(said.status) and said.printed.endswith(b"\n" if lines else b"")
        for place, row in self.rows:
            if row == b"no more":
                is_so, found = next_line == len(lines), b"%d lines more" % (len(lines) - next_line)
            elif row.startswith(b"ends -> "):
                is_so, found = is_ended and row == b"ends -> " + ending, b"%s, status %s" % (ending, str(said.status).encode())
            elif row.startswith(b"-> "):
                found = lines[next_line] if next_line < len(lines) else b"no line"
                is_so, next_line = row == b"-> " + found, next_line + 1
            elif row.startswith(b"times "):
                text, _, count = row.removeprefix(b"times ").rpartition(b" -> ")
                found = b"%d" % said.printed.count(text)
                is_so = found == count
            else:
                is_so, found = False, b"no row"
            well += is_so
            ill += [] if is_so else [f"{place}: {row.decode()}: is {found.decode(errors='replace')}"]
        return well, ill


class Questions:
    """What becomes of one question of a cluster, by seed."""

    def __init__(self, words):
        self.words, self.rows = words, []

    def counts(self, seeds):
        """How many questions of the seeds from 1 on end how."""
        n, t, liars, order = self.words
        said = run(["rounds", "--n", n, "--t", t, "--liars", liars, "--order", order, "--seeds", str(seeds)])
        rows = re.findall(rb"^(round (\d+)|open): (\d+)$", said.printed, re.M)
        return collections.Counter({f"decided {at.decode()}" if at else "open": int(count) for _, at, count in rows})

    def played(self):
        before, well, ill = collections.Counter(), 0, []
        for seed, (place, number, answer) in enumerate(self.rows, 1):
            now = self.counts(seed)
            found = list((now - before).elements())
            is_so = number == seed and found == [answer] and now.total() == seed
            well, before = well + is_so, now
            ill += [] if is_so else [f"{place}: {answer}: is {', '.join(found)}"]
        return well, ill


def works_of(path):
    """The jobs and the questions of a file, in order."""
    works, questions = [], {}
    with open(path, "rb") as file:
        lines = file.read().split(b"\n")
    for number, line in enumerate(lines, 1):
        place = f"{os.path.basename(path)}:{number}"
        if not line or line.startswith(b"#"):
            continue
        if line.startswith(b"< "):
            works[-1].given += line[2:] + b"\n"
        elif line.startswith(b"<< "):
            works[-1].given += bytes.fromhex(line[3:].decode())
        elif line.startswith(b"play "):
            what, _, answer = line.decode().partition(" -> ")
            _, *words, seed = what.split()
            if tuple(words) not in questions:
                works.append(questions.setdefault(tuple(words), Questions(words)))
            questions[tuple(words)].rows.append((place, int(seed), answer))
        elif re.fullmatch(rb"simulate|trace|dump( count)?|hear( \d+){4}", line):
            works.append(Job(place, line.decode()))
        else:
            works[-1].rows.append((place, line))
    return works


def main(files):
    passed, failed = 0, 0
    with concurrent.futures.ThreadPoolExecutor(os.cpu_count()) as pool:
        works = [it for file in files or sorted(glob.glob(f"{TOP}/tests/vectors/*.txt")) for it in works_of(file)]
        for well, ill in pool.map(lambda work: work.played(), works):
            passed, failed = passed + well, failed + len(ill)
            print("\n".join(ill), end="\n" if ill else "", flush=True)
    if not files and passed + failed != ANSWERS:
        print(f"{passed + failed} vectors, and ANSWERS says {ANSWERS}")
        failed += 1
    print(f"{passed} passed, {failed} failed")
    return 1 if failed or not passed else 0


if __name__ == "__main__":
    PROGRAM = os.path.realpath(sys.argv[1] if len(sys.argv) > 1 else f"{TOP}/crates/bracha/out/bracha")
    if not os.access(PROGRAM, os.X_OK):
        sys.exit(f"tests/vectors.py: there is no program {PROGRAM}: make it by (cd crates/bracha && rt run -- --version)")
    sys.exit(main(sys.argv[2:]))
