#!/usr/bin/env python3
"""tests/reference/page.py SCRIPT TRACE [NAME]

Prints the object of a run that `bracha simulate --page` puts into its page, for a script and the trace of its run. NAME is the name
in it, by default that of the script's file. It is written from docs/FORMATS.md alone, and shares nothing with the program.
"""
import os
import re
import sys
from typing import Iterable, Iterator

MOST_ROWS = 200_000
KINDS = ["initial", "echo", "ready"]
VALUES = ["zero", "one", "sure-zero", "sure-one", "unsure"]
REASONS = ["no-such", "wrong-side", "not-up", "running", "nothing"]
LINE = re.compile(r"(\d+) ([^:]*): (done|failed|skipped ([a-z-]+))(?:: (.*))?")


def head_of(lines: Iterable[str]) -> dict[str, list[int]]:
    """The numbers behind the first five words of a script."""
    head: dict[str, list[int]] = {}
    for line in lines:
        if line.strip() and not line.startswith("#"):
            word, *numbers = line.split()
            head[word] = [int(it) for it in numbers]
        if len(head) == 5:
            break
    return head


def number_of(record: str) -> int:
    """A record as a number: a statement's is 0 or more, a decision's below 0."""
    word, *rest = record.split()
    if word == "decided":
        question, round_, bit = (int(it) for it in rest)
        return -((question * 64 + round_) * 2 + bit)
    question, origin, round_, step = (int(it) for it in rest[:4])
    return ((((question * 64 + origin) * 64 + round_) * 4 + step) * 3 + KINDS.index(word)) * 5 + VALUES.index(rest[4])


def member_of(line: str) -> int:
    """The member that an event is for."""
    word, first, *rest = line.split()
    return int(rest[0]) if word in ("deliver", "group", "lie", "reset") else int(first)


def quoted(text: str) -> str:
    return '"' + "".join(f"\\u{ord(it):04x}" if ord(it) < 32 or it in '"\\<' else it for it in text) + '"'


class Run:
    """What a trace says of a run."""

    def __init__(self, trace: Iterable[str]) -> None:
        self.total = self.acted = 0
        self.skipped = dict.fromkeys(REASONS, 0)
        self.decided: dict[tuple[int, int], tuple[int, int]] = {}
        self.rows: list[str] = []
        for line in trace:
            self.take(line.rstrip("\n"))

    def take(self, line: str) -> None:
        match = LINE.fullmatch(line)
        if not match:
            sys.exit(f"page.py: no line of a trace: {line[:80]}")
        number, event, mark, reason, records = match.groups()
        self.total += 1
        if reason:
            self.skipped[reason] += 1
            return
        self.acted += 1
        numbers = [number_of(it) for it in records.split(", ")] if records else []
        for it in numbers:
            if it < 0:
                place, bit = divmod(-it, 2)
                self.decided.setdefault((member_of(event), place // 64), (place % 64, bit))
        if self.acted <= MOST_ROWS:
            failed = ',"failed"' if mark == "failed" else ""
            self.rows.append(f'[{number},"{event}",[{",".join(map(str, numbers))}]{failed}]')


def lines_of(head: dict[str, list[int]], run: Run, name: str) -> Iterator[str]:
    sizes = ",".join(f'"{it}":{head[it][0]}' for it in ("n", "t", "questions"))
    yield f'{{"format":"bracha-run-1","name":{quoted(name)},'
    yield f'{sizes},"liars":[{",".join(map(str, head["liars"]))}],'
    skipped = ",".join(f'"{it}":{run.skipped[it]}' for it in REASONS)
    yield f'"total":{run.total},"left_out":{max(0, run.acted - MOST_ROWS)},"skipped":{{{skipped}}},'
    decided = [f"[{member},{question},{round_},{bit}]" for (member, question), (round_, bit) in sorted(run.decided.items())]
    yield ",\n".join(['"decided":[["member","question","round","bit"]', *decided]) + "],"
    yield ",\n".join(['"rows":[["event","line","records"]', *run.rows]) + "]}"


def object_of(script: str, trace: str, name: str) -> str:
    with open(script, encoding="utf-8") as lines:
        head = head_of(lines)
    with open(trace, encoding="utf-8") as lines:
        run = Run(lines)
    return "\n".join(lines_of(head, run, name)) + "\n"


if __name__ == "__main__":
    sys.stdout.write(object_of(sys.argv[1], sys.argv[2], sys.argv[3] if len(sys.argv) > 3 else os.path.basename(sys.argv[1])))
