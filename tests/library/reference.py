#!/usr/bin/env python3
"""tests/library/reference.py: compares the library with independent reference implementations.

The files of crates/test_rows/data and tests/vectors named here were written by plain scripts that know the rules and the formats, and
share no code with the product (docs/TESTS.md). The gate plays them on the crates and on the program; here they are played on the C library,
by the Python package:

- lives_of_the_reference.txt: what a member answers to each proposal and statement, with its toss, over its restarts: the outcome and
  all records, byte for byte, and the records that a restart begins with;
- transcripts_of_a_reference.txt: whether pairs of senders and statements prove a decision;
- frames_of_the_reference.txt, frames_of_three.txt: the messages of a stream and whether it is broken, fed whole and byte by byte; each
  message, encoded again, is the bytes that it was read from;
- journals_of_the_reference.txt: the records of a journal's file, or its first error; the records, encoded again, are the file's.

Prints each row that differs, the count of each file, and `N passed, M failed` in its last line; the status is 1 where M isn't 0."""

import collections
import os
import re
import sys
from collections.abc import Iterator

from bracha_core import (
    IDLE, Core, Fault, Feeder, Hello, Idle, Member, Message, Size, Statements, Status, Welcome, audit, batch_bytes, decisions, hello_frame,
    journal_head, read_journal, statements_frame, welcome_frame,
)

TOP = f"{os.path.dirname(os.path.realpath(__file__))}/../.."
FOLDERS = (f"{TOP}/crates/test_rows/data", f"{TOP}/tests/vectors")
KINDS = {"initial": 1, "echo": 2, "ready": 3}
VALUES = {"zero": 0, "one": 1, "sure-zero": 2, "sure-one": 3, "unsure": 4}
CAMEL = {"Initial": 1, "Echo": 2, "Ready": 3, "Zero": 0, "One": 1, "SureZero": 2, "SureOne": 3, "Unsure": 4}
counts: collections.Counter[str] = collections.Counter()
failed = 0


def rows(name: str) -> Iterator[tuple[str, str]]:
    """The rows of a file, each with its place."""
    path = next(it for folder in FOLDERS if os.path.exists(it := f"{folder}/{name}"))
    with open(path, encoding="ascii") as file:
        for number, line in enumerate(file, 1):
            line = line.rstrip("\n")
            if line and not line.startswith("#"):
                yield f"{name}:{number}", line


def same(where: str, found: object, wanted: object) -> None:
    """Counts a row, and names it if it differs."""
    global failed
    counts[where.split(":")[0]] += 1
    if found != wanted:
        failed += 1
        print(f"{where}: says {found!r}, is {wanted!r}")


class Life:
    """A member of the reference's rows. A row whose disk fails leaves its batch in doubt: kept, or gone."""

    def __init__(self, size: Size, me: int) -> None:
        self.size, self.me = size, me
        self.core: Core | None = None
        self.saved, self.in_doubt, self.is_doubtful = b"", b"", False

    def open(self, where: str, wanted: bytes) -> None:
        if self.is_doubtful and wanted == self.saved + self.in_doubt:
            self.saved = wanted
        same(where, self.saved.hex(), wanted.hex())
        self.is_doubtful = False
        self.core = Core(self.size, self.me, self.saved)

    def event(self, words: list[str]) -> tuple[str, bytes]:
        """Tells the core, and returns the answer in the row's words, with the records."""
        assert self.core is not None
        if words[0] == "propose":
            answer = self.core.propose(int(words[1]), int(words[2]), int(words[3], 16))
        else:
            answer = self.core.hear(int(words[0]), bytes.fromhex(words[1])[3:], int(words[2], 16))
        said = {0: "taken", 1: "repeat", 2: "foreign", 3: "have 0", 4: "have 1"}[answer.outcome]
        told = " ".join(answer.records[at:at + 7].hex() for at in range(0, len(answer.records), 7))
        return f"{said} {told}".strip(), answer.records

    def answer(self, where: str, row: str, wanted: str) -> None:
        kind, rest = row.split(" ", 1)
        events = [one.split() for one in rest.split(", ")] if kind in ("hear", "all") else [row.split()]
        told = [self.event(words) for words in events]
        records = b"".join(it for _, it in told)
        if wanted == "Device":
            self.in_doubt, self.is_doubtful = records, True
            return
        same(where, ", ".join(said for said, _ in told), wanted)
        self.saved += records


def lives(name: str) -> None:
    life = Life(Size(1, 0, 1), 0)
    for where, line in rows(name):
        row, _, wanted = (part.strip() for part in f"{line} ".partition("->"))
        kind = row.split()[0]
        if kind == "size":
            n, t, questions, me = (int(word) for word in re.findall(r"\d+", row))
            life = Life(Size(n, t, questions), me)
        elif kind == "open":
            life.open(where, bytes.fromhex(wanted))
        elif kind in ("hear", "all", "propose"):
            life.answer(where, row, wanted)


def transcripts(name: str) -> None:
    size, question, bit, pairs = Size(1, 0, 1), 0, 0, list[tuple[int, bytes]]()
    for where, line in rows(name):
        words = line.split()
        if words[0] == "new":
            size, pairs = Size(*(int(word) for word in words[1:])), []
        elif words[:2] == ["line", "transcript"]:
            question, bit = int(words[2]), int(words[4])
        elif words[0] == "line":
            pairs.append((int(words[1]), bytes.fromhex(words[2])[3:]))
        elif words[0] == "audit":
            same(where, "yes 0" if audit(size, question, bit, pairs) else "no 1", line.partition("-> ")[2])


def shown(message: Message) -> str:
    """A message in the words of a row."""
    def statement(s: bytes) -> str:
        names = {code: name for name, code in list(CAMEL.items())[:3]}
        values = {code: name for name, code in list(CAMEL.items())[3:]}
        return f"{names[s[0]]} {s[1] << 8 | s[2]} {s[3]} {s[4]} {s[5]} {values[s[6]]}"
    match message:
        case Idle():
            return "Idle"
        case Welcome(next):
            return f"Welcome {next}"
        case Hello(version, cluster, size, sender, to):
            return f"Hello{'-2' if version == 2 else ''} {cluster} {size.n} {size.t} {size.questions} {sender} {to}"
        case Statements([one]):
            return statement(one)
        case Statements(several):
            return f"({'; '.join(statement(one) for one in several)})"


def encoded(message: Message) -> bytes:
    match message:
        case Idle():
            return IDLE
        case Welcome(next):
            return welcome_frame(next)
        case Hello():
            return hello_frame(message)
        case Statements(several):
            return statements_frame(several)


def read(size: Size, stream: bytes, chunk: int) -> tuple[list[Message], str]:
    """The messages of a stream, fed in chunks, and how it ends."""
    feeder, messages, end = Feeder(size), list[Message](), "More"
    for at in range(0, len(stream), chunk):
        try:
            feeder.feed(stream[at:at + chunk])
        except Fault as fault:
            assert fault.status is Status.BROKEN
            end = "Broken"
        messages += feeder.messages()
    return messages, end


def frames(name: str) -> None:
    size = Size(1, 0, 1)
    for where, line in rows(name):
        if line.startswith("size"):
            size = Size(*(int(word) for word in line.split()[1:]))
            continue
        digits, _, wanted = line.partition(" -> ")
        if not re.fullmatch("([0-9a-f]{2})*", digits):
            continue
        *told, end = wanted.split(", ")
        wants = ", ".join([*told, "More" if end == "More" else "Broken"])
        stream = bytes.fromhex(digits)
        for chunk in (len(stream) or 1, 1):
            messages, end = read(size, stream, chunk)
            same(where, ", ".join([*map(shown, messages), end]), wants)
        whole = b"".join(encoded(message) for message in messages)
        same(where, stream[:len(whole)].hex(), whole.hex())


def record_of(line: str) -> bytes:
    """The record of a line of `dump`."""
    kind, question, *words = line.split()
    high, low = divmod(int(question), 256)
    if kind == "decided":
        return bytes([4, high, low, 0, int(words[0]), 0, int(words[1])])
    return bytes([KINDS[kind], high, low, int(words[0]), int(words[1]), int(words[2]), VALUES[words[3]]])


def journal(where: str, file: bytes, wanted: list[str]) -> None:
    """Compares a file with what the reference's dump ends with and writes."""
    head = file[:24].ljust(24, b"\x00")
    n, t, questions, me = head[16], head[17], int.from_bytes(head[18:20], "big"), head[20]
    is_member = me < n <= 64 and n > 3 * t and 1 <= questions <= 4096  # a file that names none is nobody's journal
    member = Member(int.from_bytes(head[8:16], "big"), Size(n, t, questions), me) if is_member else Member(7, Size(4, 1, 1), 1)
    try:
        records, end = read_journal(member, file)
    except Fault as fault:
        name = str(fault).title().replace("_", "")  # CUT_SHORT is the row's CutShort
        same(where, f"journal {name}", wanted[0])
        return
    same(where, records.hex(), b"".join(map(record_of, wanted[2:])).hex() if wanted[0] == "0" else wanted[0])
    same(where, journal_head(member)[:24].hex(), head.hex())
    same(where, file[end], 0)
    if records:  # as one batch it is another file of the same records
        other = journal_head(member)[:24] + b"\x01" + batch_bytes(records)[1:]
        same(where, read_journal(member, other), (records, len(other) - 1))
    assert len(decisions(records)) <= len(records) // 7


def journals(name: str) -> None:
    file, wanted, begun = b"", list[str](), ""
    for where, line in rows(name):
        if line == "dump":
            file, wanted, begun = b"", [], where
        elif line.startswith("<< "):
            file += bytes.fromhex(line[3:])
        elif line.startswith("ends -> "):
            wanted = [line[8:]]
        elif line.startswith("-> "):
            wanted.append(line[3:])
        elif line == "no more":
            journal(begun, file, wanted)


lives("lives_of_the_reference.txt")
transcripts("transcripts_of_a_reference.txt")
frames("frames_of_the_reference.txt")
frames("frames_of_three.txt")
journals("journals_of_the_reference.txt")
for name, count in counts.items():
    print(f"{name}: {count}")
print(f"{sum(counts.values()) - failed} passed, {failed} failed")
sys.exit(failed > 0)
