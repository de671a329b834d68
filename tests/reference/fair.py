#!/usr/bin/env python3
"""tests/reference/fair.py SCRIPT
tests/reference/fair.py --events SCRIPT
tests/reference/fair.py --rows

Plays a script as `bracha simulate` does, and prints what that prints; SCRIPT `-` is standard input. `--events` prints its events
with their tosses, `--rows` the rows of tests/vectors/fair_of_the_reference.txt. It is written from docs/FORMATS.md,
docs/PROTOCOL.md and crates/script/README.md alone and shares nothing with the program.

How many calls of its disk an opening takes is said nowhere, so a script that opens a member whose fuse hasn't burnt is refused.
"""
import struct
import sys
from dataclasses import dataclass, field
from typing import Iterator, Optional, Union

MASK = 0xFFFFFFFF
MOST_EVENTS = 1_000_000
INITIAL, ECHO, READY = 1, 2, 3
ZERO, ONE, SURE_ZERO, SURE_ONE, UNSURE = range(5)
LAST_STEP = 32 * 3 - 1


class Refused(Exception):
    """Why a script isn't read, or isn't run."""


# --- words ----------------------------------------------------------------------------------------------------------------


def chacha_block(key: tuple[int, ...], counter: int) -> list[int]:
    """A block of ChaCha20: 16 words."""
    start = [0x61707865, 0x3320646E, 0x79622D32, 0x6B206574, *key, counter & MASK, counter >> 32, 0, 0]
    x = start[:]
    quarters = ((0, 4, 8, 12), (1, 5, 9, 13), (2, 6, 10, 14), (3, 7, 11, 15),
                (0, 5, 10, 15), (1, 6, 11, 12), (2, 7, 8, 13), (3, 4, 9, 14))  # fmt: skip
    for _ in range(10):
        for i, j, k, m in quarters:
            a, b, c, d = x[i], x[j], x[k], x[m]
            a = (a + b) & MASK
            d ^= a
            d = (d << 16 | d >> 16) & MASK
            c = (c + d) & MASK
            b ^= c
            b = (b << 12 | b >> 20) & MASK
            a = (a + b) & MASK
            d ^= a
            d = (d << 8 | d >> 24) & MASK
            c = (c + d) & MASK
            b ^= c
            b = (b << 7 | b >> 25) & MASK
            x[i], x[j], x[k], x[m] = a, b, c, d
    return [(a + b) & MASK for a, b in zip(x, start)]


def words(seed: int) -> Iterator[int]:
    """The words of a seed."""
    key = struct.unpack("<8I", seed.to_bytes(8, "big") + bytes(24))
    counter = 0
    while True:
        yield from chacha_block(key, counter)
        counter += 1


# --- scripts --------------------------------------------------------------------------------------------------------------


@dataclass
class Event:
    """An event: its words, and its toss if it takes one."""

    words: list[str]
    toss: Optional[int] = None

    def __str__(self) -> str:
        return " ".join(self.words) + (" -" if self.toss is None else f" {self.toss:016x}")


@dataclass
class Fair:
    """What a line `fair K` keeps between two events: its deck, and the acts that are owed with the events that are left then."""

    deck: list[tuple[int, int]] = field(default_factory=list)
    owed: dict[int, list[str]] = field(default_factory=dict)


class Script:
    """A script's cluster and its events."""

    def __init__(self, text: bytes) -> None:
        lines = text.decode("latin-1").split("\n")
        if lines[-1] == "":
            lines.pop()
        said = [(at, line) for at, line in enumerate(lines, 1) if line and line[0] != "#"]
        self.behind = len(lines) + 1
        head = said[:5]
        self.n, self.t, self.questions = (self.head_number(head, at, name) for at, name in enumerate(("n", "t", "questions")))
        self.check_size()
        self.listed = self.head_liars(head)
        seed = self.head_number(head, 4, "seed", 1 << 64)
        self.words = words(seed)
        self.liars = [m for m in range(self.n) if m in self.listed]
        self.correct = [m for m in range(self.n) if m not in self.listed]
        self.events: list[Event] = []
        orders = []
        count = 0
        for at, line in said[5:]:
            orders.append(self.order(at, line.split(" ")))
            count += self.length(orders[-1])
            if count > MOST_EVENTS:
                raise Refused("events")
        for order in orders:
            self.make(order)

    # The lines.

    def fault(self, head: list[tuple[int, str]], at: int) -> Refused:
        return Refused(f"line {head[at][0] if at < len(head) else self.behind}")

    def head_number(self, head: list[tuple[int, str]], at: int, name: str, end: int = 1 << 16) -> int:
        parts = head[at][1].split(" ") if at < len(head) else []
        if len(parts) != 2 or parts[0] != name or (value := number(parts[1], end)) is None:
            raise self.fault(head, at)
        return value

    def head_liars(self, head: list[tuple[int, str]]) -> list[int]:
        parts = head[3][1].split(" ") if len(head) > 3 else []
        found = [number(part, 256) for part in parts[1:]]
        if not parts or parts[0] != "liars" or None in found:
            raise self.fault(head, 3)
        return [member for member in found if member is not None]

    def check_size(self) -> None:
        if not 1 <= self.n <= 64 or self.n <= 3 * self.t or not 1 <= self.questions <= 4096:
            raise Refused("size")

    def order(self, at: int, parts: list[str]) -> list[str]:
        """The words of a line of events, once they fit its form."""
        forms = {
            "propose": [256, 65536, 2], "deliver": [256, 256, "which"], "group": [256, 256, "count"], "lie": [256, 256, "hex"],
            "fuse": [256, "calls"], "restart": [256], "reset": [256, 256], "rounds": [1 << 64], "random": [1 << 64],
            "fair": [1 << 64],
        }  # fmt: skip
        if parts[0] == "crash":
            forms["crash"] = [256, "pick"] if len(parts) == 3 else [256, "fill", "byte"]
        form = forms.get(parts[0])
        if form is None or len(form) != len(parts) - 1:
            raise Refused(f"line {at}")
        kept = [plain(part, kind) for part, kind in zip(parts[1:], form)]
        if None in kept:
            raise Refused(f"line {at}")
        return [parts[0], *(word for word in kept if word is not None)]

    def length(self, order: list[str]) -> int:
        if order[0] == "rounds":
            return int(order[1]) * len(self.correct) ** 2
        return int(order[1]) if order[0] in ("random", "fair") else 1

    # The events.

    def add(self, parts: list[str]) -> None:
        """An event, and its toss behind its own words."""
        event = Event(parts)
        if parts[0] in ("propose", "deliver", "group", "lie"):
            low = next(self.words)
            event.toss = next(self.words) << 32 | low
        self.events.append(event)

    def make(self, order: list[str]) -> None:
        if order[0] == "rounds":
            for _ in range(int(order[1])):
                for a in self.correct:
                    for b in self.correct:
                        self.add(["deliver", str(a), str(b), "next"])
        elif order[0] == "random":
            for _ in range(int(order[1])):
                self.add(self.drawn())
        elif order[0] == "fair":
            fair = Fair()
            for left in range(int(order[1]), 0, -1):
                self.add(self.fair_event(fair, left))
        else:
            self.add(order)

    def below(self, bound: int) -> int:
        return next(self.words) % bound

    def one_of(self, members: list[int]) -> int:
        return members[self.below(len(members))]

    def pick(self) -> list[str]:
        p = self.below(258)
        return ["kept"] if p == 256 else ["lost"] if p == 257 else ["fill", f"{p:02x}"]

    def calls(self) -> str:
        k = self.below(8)
        return "off" if k == 7 else str(k)

    def lie_of(self, liar: int, to: int) -> list[str]:
        kind = 1 + self.below(3)
        question = self.below(self.questions)
        origin = self.below(self.n)
        round_ = 1 + self.below(3)
        step = 1 + self.below(3)
        value = 2 + self.below(3) if step == 3 else self.below(2)
        frame = struct.pack(">HBBHBBBB", 8, 3, kind, question, origin, round_, step, value)
        return ["lie", str(liar), str(to), frame.hex()]

    def propose_to(self, member: int) -> list[str]:
        question = self.below(self.questions)
        return ["propose", str(member), str(question), str(self.below(2))]

    def drawn(self) -> list[str]:
        """An event of `random`."""
        kind = self.below(16)
        a = self.below(self.n)
        if kind <= 8:
            return ["deliver", str(a), str(self.below(self.n)), "next"]
        if kind == 9:
            b = self.below(self.n)
            return ["deliver", str(a), str(b), str(self.below(64))]
        if kind == 10:
            return ["reset", str(a), str(self.below(self.n))]
        if kind == 11:
            return self.lie_of(a, self.below(self.n))
        if kind == 12:
            return ["crash", str(a), *self.pick()]
        if kind == 13:
            return ["restart", str(a)]
        if kind == 14:
            return ["fuse", str(a), self.calls()]
        return self.propose_to(a)

    def fair_event(self, fair: Fair, left: int) -> list[str]:
        """An event of `fair`, where so many are left, this one among them."""
        if not self.correct:
            return ["restart", "0"]
        if left in fair.owed:
            return fair.owed.pop(left)
        kind = self.below(16 * self.n)
        if kind == 0 and not fair.owed and left > 100:
            return self.trouble(fair, left)
        if kind == 1:
            return self.propose_to(self.one_of(self.correct))
        if 2 <= kind <= self.n and self.liars:
            liar = self.one_of(self.liars)
            return self.lie_of(liar, self.one_of(self.correct))
        if not fair.deck:
            fair.deck = [(a, b) for a in self.correct for b in self.correct]
        a, b = fair.deck.pop(self.below(len(fair.deck)))
        k = self.below(288)
        return ["group", str(a), str(b), str(k + 1)] if k < 256 else ["deliver", str(a), str(b), "next"]

    def trouble(self, fair: Fair, left: int) -> list[str]:
        member = str(self.one_of(self.correct))
        calls = self.calls()
        pick = self.pick()
        crash = left - (self.below(50) + 1)
        restart = crash - (self.below(50) + 1)
        fair.owed = {crash: ["crash", member, *pick], restart: ["restart", member]}
        return ["fuse", member, calls]


def number(word: str, end: int) -> Optional[int]:
    """The number below this end that a word is."""
    if not word or any(c not in "0123456789" for c in word):
        return None
    return int(word) if int(word) < end else None


def plain(word: str, kind: Union[int, str]) -> Optional[str]:
    """The word without leading zeros or capitals, if it is of the kind."""
    if isinstance(kind, int):
        value = number(word, kind)
        return None if value is None else str(value)
    if kind in ("which", "calls") and word == {"which": "next", "calls": "off"}[kind]:
        return word
    if kind in ("which", "calls"):
        return plain(word, 1 << 64)
    if kind == "count":
        return plain(word, 257) if (number(word, 257) or 0) >= 1 else None
    if kind in ("hex", "byte"):
        fits = len(word) % 2 == 0 and word and all(c in "0123456789abcdefABCDEF" for c in word)
        return word.lower() if fits and (kind == "hex" or len(word) == 2) else None
    return word if word in {"pick": ("kept", "lost"), "fill": ("fill",)}[kind] else None


# --- frames ---------------------------------------------------------------------------------------------------------------

# A statement: kind, question, origin, step from 0 over all rounds, value.
Statement = tuple[int, int, int, int, int]


class Stream:
    """The bytes of a liar's link."""

    def __init__(self, script: Script) -> None:
        self.script = script
        self.bytes = b""
        self.broken = False

    def feed(self, more: bytes) -> list[Statement]:
        """The statements that these bytes complete."""
        found: list[Statement] = []
        for byte in more:
            self.bytes += bytes([byte])
            if not self.begins():
                self.broken = True
                break
            length = struct.unpack(">H", self.bytes[:2])[0] if len(self.bytes) >= 2 else None
            if length is not None and len(self.bytes) == 2 + length:
                found += self.statements()
                self.bytes = b""
        return found

    def begins(self) -> bool:
        """Whether a frame begins so."""
        b = self.bytes
        lengths = {1: (0,), 8: (3,), 9: (2,), **{2 + 7 * c: (4,) for c in range(2, 100)}}
        lengths[16] = (1, 4)
        if len(b) == 1:
            return any(length >> 8 == b[0] for length in lengths)
        length = struct.unpack(">H", b[:2])[0]
        if length not in lengths or (len(b) > 2 and b[2] not in lengths[length]):
            return False
        if len(b) == 2 or b[2] in (0, 2):
            return True
        if b[2] == 1:
            return self.is_hello(b[3:])
        if b[2] == 4 and len(b) > 3 and b[3] != (length - 2) // 7:
            return False
        body = b[3:] if b[2] == 3 else b[4:]
        return all(self.is_statement(body[at : at + 7]) for at in range(0, len(body), 7))

    def is_hello(self, b: bytes) -> bool:
        s = self.script
        size = struct.pack(">BBH", s.n, s.t, s.questions)
        return (not b or b[0] in (1, 2)) and size.startswith(b[9:13]) and all(x < s.n for x in b[13:])

    def is_statement(self, b: bytes) -> bool:
        s = self.script
        if b[:1] and b[0] not in (1, 2, 3):
            return False
        if len(b) == 2 and b[1] << 8 >= s.questions:
            return False
        if len(b) >= 3 and b[1] << 8 | b[2] >= s.questions:
            return False
        if b[3:4] and b[3] >= s.n or b[4:5] and not 1 <= b[4] <= 32 or b[5:6] and not 1 <= b[5] <= 3:
            return False
        return not b[6:7] or (2 <= b[6] <= 4 if b[5] == 3 else b[6] <= 1)

    def statements(self) -> list[Statement]:
        b = self.bytes
        if b[2] not in (3, 4):
            return []
        body = b[3:] if b[2] == 3 else b[4:]
        found = []
        for at in range(0, len(body), 7):
            kind, question, origin, round_, step, value = struct.unpack(">BHBBBB", body[at : at + 7])
            found.append((kind, question, origin, 3 * (round_ - 1) + step - 1, value))
        return found


# --- the rules ------------------------------------------------------------------------------------------------------------


class Broadcast:
    """What a member heard at a place."""

    __slots__ = ("initial", "echoed", "readied", "echoes", "readies", "accepted")

    def __init__(self) -> None:
        self.initial: Optional[int] = None
        self.echoed = 0
        self.readied = 0
        self.echoes = [0] * 5
        self.readies = [0] * 5
        self.accepted: Optional[int] = None


class Question:
    """What a member heard on a question: per step, how many accepted values count and how many wait."""

    def __init__(self) -> None:
        self.places: dict[tuple[int, int], Broadcast] = {}
        self.valid = [[0] * 5 for _ in range(LAST_STEP + 1)]
        self.waiting = [[0] * 5 for _ in range(LAST_STEP + 1)]


class Member:
    """A correct member: what its journal holds, and what it heard since its start."""

    def __init__(self, script: Script, me: int) -> None:
        self.me, self.n, self.t = me, script.n, script.t
        self.echo_quorum = (self.n + self.t) // 2 + 1
        self.wait = self.n - self.t
        self.records: list[tuple] = []
        self.up = True
        self.fuse: Optional[int] = None
        self.doubt: Optional[tuple[int, list[tuple]]] = None
        self.open()

    def open(self) -> None:
        """Opened again: it has its records, and heard nothing."""
        self.heard: dict[int, Question] = {}
        self.outbox: list[tuple] = [record for record in self.records if record[0] != "decided"]
        self.echoed: set[tuple[int, int, int]] = set()
        self.readied: set[tuple[int, int, int]] = set()
        self.own: dict[int, int] = {}
        self.decided: dict[int, tuple[int, int]] = {}
        for record in self.records:
            self.note(record)
        self.up = True

    def note(self, record: tuple) -> None:
        """What a record stands for."""
        if record[0] == "decided":
            self.decided[record[1]] = record[2:]
            return
        kind, question, origin, step, _ = record
        if kind == ECHO:
            self.echoed.add((question, origin, step))
        elif kind == READY:
            self.readied.add((question, origin, step))
        else:
            self.own[question] = max(step, self.own.get(question, -1))

    # The disk.

    def passes(self) -> bool:
        if self.fuse is None:
            return True
        if self.fuse == 0:
            return False
        self.fuse -= 1
        return True

    def save(self, batch: list[tuple]) -> None:
        """Appends the batch: written, synced, its gate opened, synced. The number of the call that fails says what a crash leaves."""
        if not batch:
            return
        for call in range(4):
            if not self.passes():
                self.doubt = (call, batch)
                self.up = False
                return
        self.records += batch
        self.outbox += [record for record in batch if record[0] != "decided"]

    def crash(self, pick: list[str]) -> None:
        self.up = False
        self.fuse = None
        if self.doubt is None:
            return
        call, batch = self.doubt
        opened = pick[0] == "fill" and pick[1] != "00"
        if (call == 2 and opened) or (call == 3 and (opened or pick[0] == "kept")):
            self.records += batch
        self.doubt = None

    def restart(self) -> None:
        if self.fuse == 0:
            return
        if self.fuse is not None:
            raise Refused("a fuse in an opening: this reference doesn't say")
        if self.doubt is not None:
            self.crash(["kept"])
        self.open()

    # The rules.

    def propose(self, question: int, bit: int, toss: int) -> None:
        batch: list[tuple] = []
        if question not in self.own:
            self.say(batch, (INITIAL, question, self.me, 0, bit))
            self.own_initials(batch, question, toss)
        self.save(batch)

    def hear(self, sender: int, statements: list[Statement], toss: int) -> None:
        batch: list[tuple] = []
        for statement in statements:
            self.hear_one(batch, sender, statement, toss)
        self.save(batch)

    def say(self, batch: list[tuple], record: tuple) -> None:
        batch.append(record)
        self.note(record)

    def hear_one(self, batch: list[tuple], sender: int, statement: Statement, toss: int) -> None:
        kind, question, origin, step, value = statement
        heard = self.heard.get(question)
        if heard is None:
            heard = self.heard[question] = Question()
        place = heard.places.get((origin, step))
        if place is None:
            place = heard.places[(origin, step)] = Broadcast()
        bit = 1 << sender
        if kind == INITIAL:
            if sender != origin or place.initial is not None:
                return
            place.initial = value
        elif kind == ECHO:
            if place.echoed & bit:
                return
            place.echoed |= bit
            place.echoes[value] += 1
        else:
            if place.readied & bit:
                return
            place.readied |= bit
            place.readies[value] += 1
        self.relay(batch, place, question, origin, step)
        if place.accepted is None and place.readies[value] >= 2 * self.t + 1:
            place.accepted = value
            self.accept(heard, step, value)
            self.decide(batch, heard, question)
            self.own_initials(batch, question, toss)

    def relay(self, batch: list[tuple], place: Broadcast, question: int, origin: int, step: int) -> None:
        """Echo and Ready, where they are due."""
        key = (question, origin, step)
        if key in self.echoed and key in self.readied:
            return
        strong = [v for v in range(5) if place.echoes[v] >= self.echo_quorum or place.readies[v] >= self.t + 1]
        if key not in self.echoed:
            may = strong if place.initial is None else [*strong, place.initial]
            if may:
                self.say(batch, (ECHO, question, origin, step, min(may)))
        if strong and key not in self.readied:
            self.say(batch, (READY, question, origin, step, min(strong)))

    def accept(self, heard: Question, step: int, value: int) -> None:
        """A value is accepted: it counts, and what follows from it, or it waits."""
        heard.waiting[step][value] += 1
        while step <= LAST_STEP:
            counted = False
            for v in range(5):
                if heard.waiting[step][v] and self.may_count(heard, step, v):
                    heard.valid[step][v] += heard.waiting[step][v]
                    heard.waiting[step][v] = 0
                    counted = True
            if not counted:
                return
            step += 1

    def may_count(self, heard: Question, step: int, value: int) -> bool:
        """Whether some set of n - t valid messages of the step before gives the value."""
        if step == 0:
            return True
        before, wait = heard.valid[step - 1], self.wait
        if sum(before) < wait:
            return False
        if step % 3 == 1:
            most = min(before[value], wait)
            return 2 * most >= wait if value == ZERO else 2 * most > wait
        if step % 3 == 2:
            if value != UNSURE:
                return 2 * min(before[value - SURE_ZERO], wait) > self.n
            half = self.n // 2
            return min(before[ZERO], half) + min(before[ONE], half) >= wait
        if min(before[SURE_ZERO + value], wait) >= self.t + 1:
            return True
        few = min(before[SURE_ZERO], self.t) + min(before[SURE_ONE], self.t)
        return few + before[UNSURE] >= wait

    def decide(self, batch: list[tuple], heard: Question, question: int) -> None:
        if question in self.decided:
            return
        for round_ in range(1, 33):
            counts = heard.valid[3 * round_ - 1]
            for bit in (0, 1):
                if counts[SURE_ZERO + bit] >= 2 * self.t + 1:
                    self.say(batch, ("decided", question, round_, bit))
                    return

    def own_initials(self, batch: list[tuple], question: int, toss: int) -> None:
        """The member's own Initials, as far as they are due."""
        while True:
            step = self.own.get(question)
            if step is None or step == LAST_STEP or question not in self.heard:
                return
            counts = self.heard[question].valid[step]
            round_ = (step + 1) // 3 + 1
            if sum(counts) < self.wait or (question in self.decided and round_ > self.decided[question][0] + 1):
                return
            self.say(batch, (INITIAL, question, self.me, step + 1, self.next_value(counts, step, toss)))

    def next_value(self, counts: list[int], step: int, toss: int) -> int:
        if step % 3 == 0:
            return ONE if counts[ONE] > counts[ZERO] else ZERO
        if step % 3 == 1:
            for bit in (ZERO, ONE):
                if 2 * counts[bit] > self.n:
                    return SURE_ZERO + bit
            return UNSURE
        for bit in (ZERO, ONE):
            if counts[SURE_ZERO + bit] >= self.t + 1:
                return bit
        return toss >> (step // 3) & 1


# --- the cluster ----------------------------------------------------------------------------------------------------------


class Cluster:
    """A simulated cluster."""

    def __init__(self, script: Script) -> None:
        self.script = script
        listed = script.listed
        if any(a >= b for a, b in zip(listed, listed[1:])) or any(m >= script.n for m in listed) or len(listed) > script.t:
            raise Refused("sim BadLiars")
        self.members = {m: Member(script, m) for m in script.correct}
        self.at: dict[tuple[int, int], int] = {}
        self.streams: dict[tuple[int, int], Stream] = {}
        self.skipped = 0

    def run(self) -> None:
        for event in self.script.events:
            if not self.play(event):
                self.skipped += 1

    def play(self, event: Event) -> bool:
        """Plays the event; false where it is skipped."""
        verb, *rest = event.words
        named = {"propose": 1, "fuse": 1, "crash": 1, "restart": 1}.get(verb, 2)
        members = [int(word) for word in rest[:named]]
        if any(m >= self.script.n for m in members):
            return False
        if verb == "propose" and int(rest[1]) >= self.script.questions:
            return False
        is_liar = [m in self.script.liars for m in members]
        if verb != "reset" and is_liar != ([True, False] if verb == "lie" else [False] * named):
            return False
        if verb == "reset":
            self.begin_anew(members[0], members[1])
            return True
        return self.act(verb, members, rest[named:], event.toss or 0)

    def act(self, verb: str, members: list[int], rest: list[str], toss: int) -> bool:
        member = self.members[members[-1]]
        if verb in ("propose", "deliver", "group", "lie") and not member.up:
            return False
        if verb == "propose":
            member.propose(int(rest[0]), int(rest[1]), toss)
        elif verb == "fuse":
            member.fuse = None if rest[0] == "off" else int(rest[0])
        elif verb == "crash":
            member.crash(rest)
        elif verb == "restart":
            return self.restart(member)
        elif verb == "lie":
            return self.lie(members[0], member, bytes.fromhex(rest[0]), toss)
        else:
            return self.deliver(verb, members[0], member, rest[0], toss)
        return True

    def begin_anew(self, a: int, b: int) -> None:
        self.at.pop((a, b), None)
        self.streams.pop((a, b), None)

    def restart(self, member: Member) -> bool:
        if member.up:
            return False
        member.restart()
        if member.up:
            for a in range(self.script.n):
                self.begin_anew(a, member.me)
        return True

    def lie(self, liar: int, member: Member, data: bytes, toss: int) -> bool:
        stream = self.streams.setdefault((liar, member.me), Stream(self.script))
        if stream.broken:
            return False
        for statement in stream.feed(data):
            if member.up:
                member.hear(liar, [statement], toss)
        return True

    def deliver(self, verb: str, a: int, member: Member, which: str, toss: int) -> bool:
        outbox = self.members[a].outbox
        link = (a, member.me)
        at = self.at.get(link, 0) if verb == "group" or which == "next" else int(which)
        statements = outbox[at : at + (int(which) if verb == "group" else 1)]
        if not statements:
            return False
        if verb == "group" or which == "next":
            self.at[link] = at + len(statements)
        member.hear(a, statements, toss)
        return True

    def told(self) -> list[str]:
        """What `bracha simulate` prints."""
        lines = []
        for me, member in self.members.items():
            saved = {record[1]: record[2:] for record in member.records if record[0] == "decided"}
            for question in sorted(saved):
                lines.append(f"member {me} question {question} round {saved[question][0]} bit {saved[question][1]}")
        lines.append(f"events {len(self.script.events)} skipped {self.skipped}")
        return lines


def simulate(text: bytes) -> list[str]:
    cluster = Cluster(Script(text))
    cluster.run()
    return cluster.told()


# --- rows -----------------------------------------------------------------------------------------------------------------

HEAD = """\
# Scripts with lines `fair K`, and what `simulate` prints: `tests/vectors.py` says what a row is. What has to come is by
# tests/reference/fair.py, which knows the formats and the rules alone, and writes this file.
"""


def scripts() -> Iterator[tuple[str, list[str]]]:
    """The scripts of the rows, each with what it is. Each of them decides all its questions."""

    def script(size: tuple[int, int, int], liars: list[int], seed: int, *events: str) -> list[str]:
        head = [f"n {size[0]}", f"t {size[1]}", f"questions {size[2]}", " ".join(["liars", *map(str, liars)]), f"seed {seed}"]
        return head + list(events)

    def split(n: int, questions: int, liars: list[int]) -> list[str]:
        correct = [m for m in range(n) if m not in liars]
        return [f"propose {m} {q} {(at + q) % 2}" for q in range(questions) for at, m in enumerate(correct)]

    yield "One member, which fails and comes back.", script((1, 0, 2), [], 1, "fair 400")
    yield "Four members, without a liar, and with one.", script((4, 1, 1), [], 2, *split(4, 1, []), "fair 700")
    for liar in range(4):
        yield "", script((4, 1, 1), [liar], 3 + liar, *split(4, 1, [liar]), "fair 700")
    yield "Five questions.", script((4, 1, 5), [0], 7, *split(4, 5, [0]), "fair 3000")
    yield "Nobody proposes but the line itself.", script((5, 1, 3), [2], 8, "fair 4000")
    yield "Seven members, with two liars.", script((7, 2, 1), [2, 5], 9, *split(7, 1, [2, 5]), "fair 1500")
    yield "", script((7, 2, 8), [1, 6], 10, *split(7, 8, [1, 6]), "fair 6000")
    yield "Lines behind each other, each with a deck of its own; what stands between them.", script(
        (7, 2, 2), [3], 11, *split(7, 2, [3]), "fair 150", "crash 0 lost", "fair 90", "restart 0", "rounds 2",
        "crash 6 fill a5", "restart 6", "fair 101", "fair 0", "fair 1", "fair 3000",
    )  # fmt: skip
    five = [1, 5, 6, 9, 10]
    yield "16 members, with five liars, and without one.", script((16, 5, 1), five, 12, *split(16, 1, five), "fair 5000")
    yield "", script((16, 5, 1), [], 13, *split(16, 1, []), "fair 8000")
    yield "", script((16, 5, 3), [0, 15], 14, *split(16, 3, [0, 15]), "fair 9000")
    few, many = list(range(0, 63, 9)), list(range(0, 63, 3))
    yield "64 members, with seven liars, and with 21.", script((64, 21, 1), few, 5, *split(64, 1, few), "fair 55000")
    yield "", script((64, 21, 1), many, 2, *split(64, 1, many), "fair 80000")


def rows() -> Iterator[str]:
    yield HEAD
    for what, lines in scripts():
        if what:
            yield f"# {what}"
        yield from ("simulate", *(f"< {line}" for line in lines), "ends -> 0")
        yield from (f"-> {line}" for line in simulate("\n".join(lines).encode()))
        yield "no more\n"


def main(args: list[str]) -> int:
    try:
        if args == ["--rows"]:
            for row in rows():
                print(row, flush=True)
        elif args[:1] == ["--events"]:
            print("\n".join(map(str, Script(read(args[1])).events)))
        else:
            print("\n".join(simulate(read(args[0]))))
    except Refused as why:
        print(f"bracha: {why}", file=sys.stderr)
        return 1
    return 0


def read(path: str) -> bytes:
    if path == "-":
        return sys.stdin.buffer.read()
    with open(path, "rb") as file:
        return file.read()


if __name__ == "__main__":
    sys.exit(main(sys.argv[1:]))
