#!/usr/bin/env python3
"""tests/reference/disks.py [FILE]

Writes the rows of crates/test_rows/data/disks.txt, to FILE or the standard output: what a disk in memory answers to each call,
and what its crashes leave. It knows the model of a disk and nothing of the program:

- what reads give; what they gave at the last sync that succeeded; and the places that were written since, also by writes
  that failed;
- a crash leaves what reads give (kept), what they gave at that sync (lost), or what reads give with one byte at each place
  that was written since or stands behind the end of that sync (fill);
- what a crash leaves is synced; a fuse of k lets k calls pass and fails all others, and a crash takes it out.
"""
import random
import sys

PICKS = [("kept",), ("lost",), ("fill", 35)]
PARTS = [b"", b"a", b"BC", b"def", b"GHIJK", b"lmnopqrst"]


class Disk:
    """A disk, by its model."""

    def __init__(self):
        self.seen, self.synced, self.written, self.fuse = [], [], set(), None

    def passes(self):
        """Whether the next call passes."""
        if self.fuse is None:
            return True
        if self.fuse == 0:
            return False
        self.fuse -= 1
        return True

    def len(self):
        return len(self.seen) if self.passes() else None

    def sync(self):
        if not self.passes():
            return "device"
        self.synced, self.written = list(self.seen), set()
        return ""

    def reaches(self, end):
        """Whether the file has so many bytes: asked of it, but for none."""
        if end == 0:
            return ""
        length = self.len()
        return "device" if length is None else "past" if length < end else ""

    def write(self, at, data):
        why = self.reaches(at)
        if why:
            return why
        passed = self.passes()
        self.written |= set(range(at, at + len(data)))
        if not passed:
            return "device"
        self.seen[at : at + len(data)] = data
        return ""

    def read(self, at, count):
        why = self.reaches(at + count)
        if why:
            return why
        return bytes(self.seen[at : at + count]).hex() if self.passes() else "device"

    def crash(self, pick):
        if pick[0] == "lost":
            self.seen = list(self.synced)
        elif pick[0] == "fill":
            loose = lambda place: place in self.written or place >= len(self.synced)
            self.seen = [pick[1] if loose(place) else byte for place, byte in enumerate(self.seen)]
        self.synced, self.written, self.fuse = list(self.seen), set(), None


class Life:
    """The rows of a new disk."""

    def __init__(self, rows):
        self.disk, self.rows = Disk(), rows
        self.row("new")

    def row(self, done, answer=""):
        self.rows.append(f"{done} -> {answer}" if answer else done)

    def len(self):
        length = self.disk.len()
        self.row("len", "device" if length is None else str(length))

    def read(self, at, count):
        self.row(f"read {at} {count}", self.disk.read(at, count))

    def write(self, at, data):
        self.row(f"write {at} {data.hex()}".rstrip(), self.disk.write(at, list(data)))

    def sync(self):
        self.row("sync", self.disk.sync())

    def set_fuse(self, calls):
        self.disk.fuse = calls
        self.row(f"fuse {calls}")

    def state(self):
        self.row("fused", str(self.disk.fuse is not None).lower())
        self.row("empty", str(not self.disk.seen).lower())

    def look(self):
        """A look takes the fuse out, so it is set again."""
        self.row("look", bytes(self.disk.seen).hex())
        if self.disk.fuse is not None:
            self.row(f"fuse {self.disk.fuse}")

    def crash(self, pick):
        self.disk.crash(pick)
        self.row("crash " + " ".join(map(str, pick)))

    def crash_twice(self, pick):
        """What a pick leaves, and that a second crash changes nothing."""
        self.state()
        self.look()
        self.crash(pick)
        self.state()
        self.look()
        self.crash(("fill", 63))
        self.look()

    def do(self, steps):
        for name, *values in steps:
            getattr(self, name)(*values)


def picks(rows):
    files = [
        [],
        [("write", 0, b"abc")],
        [("write", 0, b"abc"), ("sync",)],
        [("write", 0, b"abc"), ("sync",), ("write", 1, b"X")],
        [("write", 0, b"abcd"), ("sync",), ("write", 3, b"XYZ")],
        [("write", 0, b"abcd"), ("sync",), ("write", 4, b"efg"), ("write", 2, b""), ("write", 5, b"F")],
        [("write", 0, b"ab"), ("write", 2, b"cd"), ("sync",), ("write", 0, b"W"), ("sync",), ("write", 3, b"Z")],
    ]
    for steps in files:
        for pick in PICKS:
            life = Life(rows)
            life.do(steps)
            life.crash_twice(pick)


def fuses(rows):
    steps = [("len",), ("write", 0, b"abcd"), ("sync",), ("read", 0, 0), ("write", 0, b"XY"), ("sync",), ("write", 0, b"Z"), ("len",)]
    for calls in range(10):
        for pick in PICKS:
            life = Life(rows)
            life.set_fuse(calls)
            life.do(steps)
            life.crash_twice(pick)


def drawn_call(life):
    kind = random.randrange(8)
    if kind == 0:
        life.len()
    elif kind == 1:
        life.read(*((random.randrange(6), random.randrange(6)) if random.randrange(2) else (0, 0)))
    elif kind < 4:
        life.sync()
    else:
        life.write(random.randrange(16), random.choice(PARTS))


def lives(rows):
    random.seed(20)
    for _ in range(500):
        life = Life(rows)
        for _ in range(4):
            if random.randrange(3) == 0:
                life.set_fuse(random.randrange(8))
            for _ in range(12):
                drawn_call(life)
            life.look()
            life.crash(random.choice([("kept",), ("lost",), ("fill", random.randrange(256))]))
            life.look()


def main():
    rows = ["# A disk in memory, its fuse and its crashes. `src/disks.rt` says what a row is; what has to come was written by",
            "# tests/reference/disks.py, which knows only what the model of a disk says."]
    for head, part in [("What each pick leaves, and that a second crash changes nothing.", picks),
                       ("A fuse lets its number of calls pass.", fuses),
                       ("Lives of drawn calls, fuses and picks, one after another.", lives)]:
        rows += ["", f"# {head}"]
        part(rows)
    rows += ["", "# An append takes no longer as the file grows: a disk that copied its file in each call would take many seconds.",
             "new", "many 100000 30313233343536373839", "len -> 1000000"]
    text = "\n".join(rows) + "\n"
    if len(sys.argv) > 1:
        with open(sys.argv[1], "w", encoding="utf-8") as file:
            file.write(text)
    else:
        sys.stdout.write(text)


main()
