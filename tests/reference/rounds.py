#!/usr/bin/env python3
"""tests/reference/rounds.py N T LIARS ORDER SEED ..
tests/reference/rounds.py --rows

Plays one question as `bracha rounds` does, for each seed, and prints how it ends: `decided R` or `open`. ORDER is random,
adversary or links. `--rows` prints the rows of tests/vectors/rounds_of_the_reference.txt. The orders are written from
docs/LIVENESS.md and crates/script/README.md alone; the members are those of fair.py. It shares nothing with the program.
"""
import struct
import sys
from typing import Iterator, Optional

from fair import ECHO, INITIAL, LAST_STEP, MASK, ONE, READY, SURE_ONE, SURE_ZERO, UNSURE, ZERO, Member

HEAD = """\
# How questions end, by seed: n, t, liars, order and seed. These rows are printed by tests/reference/rounds.py, and aren't edited
# by hand.
"""


def block(key: tuple[int, ...], counter: int, stream: int) -> list[int]:
    """A block of ChaCha20 on a stream: 16 words."""
    start = [0x61707865, 0x3320646E, 0x79622D32, 0x6B206574, *key, counter, 0, stream, 0]
    x = start[:]

    def turn(i: int, j: int, by: int, k: int) -> None:
        x[i] = (x[i] + x[j]) & MASK
        it = x[k] ^ x[i]
        x[k] = (it << by | it >> (32 - by)) & MASK

    for _ in range(10):
        for a, b, c, d in ((0, 4, 8, 12), (1, 5, 9, 13), (2, 6, 10, 14), (3, 7, 11, 15),
                           (0, 5, 10, 15), (1, 6, 11, 12), (2, 7, 8, 13), (3, 4, 9, 14)):  # fmt: skip
            turn(a, b, 16, d)
            turn(c, d, 12, b)
            turn(a, b, 8, d)
            turn(c, d, 7, b)
    return [(a + b) & MASK for a, b in zip(x, start)]


def tosses(seed: int, stream: int) -> Iterator[int]:
    """Tosses of two words, the low half first."""
    key = struct.unpack("<8I", seed.to_bytes(8, "big") + bytes(24))
    counter = 0
    while True:
        words = block(key, counter, stream)
        yield from (words[at] | words[at + 1] << 32 for at in range(0, 16, 2))
        counter += 1


class Size:
    """What a member asks of a script."""

    def __init__(self, n: int, t: int) -> None:
        self.n, self.t = n, t


class Table:
    def __init__(self, n: int, t: int, liars: int, seed: int) -> None:
        self.n, self.t, self.correct, self.seed = n, t, n - liars, seed
        self.members = [Member(Size(n, t), me) for me in range(self.correct)]
        self.queues = [[[] for _ in range(self.correct)] for _ in range(n)]
        self.known = [0] * self.correct
        self.tosses = tosses(seed, 0)
        for me in range(self.correct):
            self.members[me].propose(0, me % 2, next(self.tosses))
            self.spread(me)

    def say(self, sender: int, statement: tuple) -> None:
        for queue in self.queues[sender]:
            queue.append(statement)

    def spread(self, me: int) -> None:
        for statement in self.members[me].outbox[self.known[me]:]:
            self.say(me, statement)
        self.known[me] = len(self.members[me].outbox)

    def hear(self, sender: int, to: int, statement: tuple) -> None:
        self.members[to].hear(sender, [statement], next(self.tosses))
        self.spread(to)

    def deliver(self, sender: int, to: int, place: int = 0) -> None:
        self.hear(sender, to, self.queues[sender][to].pop(place))

    def is_decided(self) -> bool:
        return all(0 in member.decided for member in self.members)

    def value(self, me: int, step: int) -> Optional[int]:
        said = [s for s in self.members[me].outbox if s[0] == INITIAL and s[3] == step]
        return said[0][4] if said else None

    def values(self, step: int) -> list[Optional[int]]:
        """The values of the step's Initials: those that were said, then each liar's."""
        values = [self.value(me, step) for me in range(self.correct)]
        wait = self.n - self.t
        for _ in range(self.correct, self.n):
            lacks_zero = (wait + 1) // 2 - values.count(ZERO)
            lacks_one = wait // 2 + 1 - values.count(ONE)
            values.append(UNSURE if step % 3 == 2 else ONE if lacks_one > lacks_zero else ZERO)
        return values

    def end(self) -> str:
        decided = [member.decided.get(0) for member in self.members]
        bits = {it[1] for it in decided if it}
        if len(bits) > 1:
            return "two answers"
        return "open" if None in decided else f"decided {max(it[0] for it in decided)}"


def order(table: Table, step: int, values: list[Optional[int]], to: int) -> list[int]:
    """The origins in the order in which their broadcasts are brought to this member."""

    def of(value: int) -> list[int]:
        return [origin for origin, said in enumerate(values) if said == value]

    if step % 3 == 0:
        return of(ZERO) + of(ONE) if to % 2 == 0 else of(ONE) + of(ZERO)
    if step % 3 == 2:
        return of(UNSURE) + of(SURE_ZERO) + of(SURE_ONE)
    zeros, ones, half, wait = of(ZERO), of(ONE), table.n // 2, table.n - table.t
    few = min(len(zeros), half, (wait + 1) // 2)
    b = min(len(ones), half, wait - few)
    a = min(len(zeros), half, wait - b)
    return zeros[:a] + ones[:b] + zeros[a:] + ones[b:]


def bring(table: Table, statement: tuple, to: int, in_order: bool) -> None:
    kind, _, origin, _, _ = statement
    if kind == INITIAL and origin >= table.correct:
        return table.hear(origin, to, statement)
    ways = sorted((queue[to].index(statement), sender) for sender, queue in enumerate(table.queues[: table.correct])
                  if statement in queue[to])  # fmt: skip
    came = table.n - len(ways)
    if in_order and kind != INITIAL:
        for liar in range(table.correct, table.n):
            table.hear(liar, to, statement)
    enough = {INITIAL: table.n + 1, ECHO: (table.n + table.t) // 2 + 1, READY: 2 * table.t + 1}[kind]
    for place, sender in ways:
        if in_order and came >= enough:
            return None
        if in_order:
            for _ in range(place + 1):
                table.deliver(sender, to)
        else:
            table.deliver(sender, to, place)
        came += 1
    return None


def drain(table: Table, step: int) -> None:
    """All that stands before the Initials of the step."""
    came = True
    while came:
        came = False
        for sender in range(table.correct):
            for to in range(table.correct):
                queue = table.queues[sender][to]
                for _ in range(len(queue)):
                    if not queue or (queue[0][0] == INITIAL and queue[0][3] >= step):
                        break
                    table.deliver(sender, to)
                    came = True


def chosen(table: Table, in_order: bool) -> None:
    for step in range(LAST_STEP + 1):
        values = table.values(step)
        for kind in (INITIAL, ECHO, READY):
            for to in range(table.correct):
                for origin in order(table, step, values, to):
                    bring(table, (kind, 0, origin, step, values[origin]), to, in_order)
        drain(table, step + 1)
        if table.is_decided():
            return


def drawn(table: Table) -> None:
    draw, step = tosses(table.seed, 1), 0
    while not table.is_decided():
        if step <= LAST_STEP and all(table.value(me, step) is not None for me in range(table.correct)):
            values = table.values(step)
            for liar in range(table.correct, table.n):
                table.say(liar, (INITIAL, 0, liar, step, values[liar]))
                for origin, value in enumerate(values):
                    for kind in (ECHO, READY):
                        table.say(liar, (kind, 0, origin, step, value))
            step += 1
        for _ in range(64):
            sender, to = next(draw) % table.n, next(draw) % table.correct
            if table.queues[sender][to]:
                break
        else:
            busy = [(a, b) for a in range(table.n) for b in range(table.correct) if table.queues[a][b]]
            if not busy:
                return
            sender, to = busy[0]
        table.deliver(sender, to)


def played(n: int, t: int, liars: int, order_name: str, seed: int) -> str:
    table = Table(n, t, liars, seed)
    if order_name == "random":
        drawn(table)
    else:
        chosen(table, order_name == "links")
    return table.end()


def rows() -> Iterator[str]:
    yield HEAD
    sizes = [(1, 0, 5), (3, 0, 5), (4, 1, 20), (5, 1, 10), (6, 1, 10), (7, 1, 10), (7, 2, 20), (8, 2, 5), (10, 3, 4)]
    for n, t, seeds in sizes:
        for liars in sorted({0, t}):
            for name in ("random", "adversary", "links"):
                for seed in range(1, seeds + 1):
                    yield f"play {n} {t} {liars} {name} {seed} -> {played(n, t, liars, name, seed)}"


def main(args: list[str]) -> int:
    if args == ["--rows"]:
        for row in rows():
            print(row, flush=True)
        return 0
    n, t, liars, name, *seeds = args
    for seed in seeds:
        print(played(int(n), int(t), int(liars), name, int(seed)))
    return 0


if __name__ == "__main__":
    sys.exit(main(sys.argv[1:]))
