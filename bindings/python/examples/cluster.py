"""cluster.py [SEED [QUESTIONS]]: four members in one process. Every statement is delivered in a random order, member 3 lies to each
other member in another way, and member 1 is closed in mid-run and opened again from its saved records. It ends with status 0 if the
three correct members decided every question alike.

    BRACHA_LIBRARY=libbracha.so.0 python3 examples/cluster.py 1 8
"""

import itertools
import random
import sys

from bracha_core import Answer, Core, Size, Toss, audit, statements

LIAR = 3
RESTART = 150  # deliveries a question, after which member 1 is opened again
Letter = tuple[int, int, bytes]


class Member:
    """A correct member, with its journal in memory."""

    def __init__(self, size: Size, me: int, journal: bytes = b"") -> None:
        self.me, self.journal = me, bytearray(journal)
        self.core = Core(size, me, journal)
        seed = bytes([me]) * 32  # a real seed is drawn from the system, and nobody else knows it
        self.toss = Toss(seed, len(journal) // 7)  # another stream in each life
        self.heard: list[tuple[int, bytes]] = []

    def save(self, answer: Answer) -> list[Letter]:
        """Saves, and then returns what is to be sent to the three correct members, this one included."""
        said = answer.save(self.journal.extend)  # a real member writes and syncs here: Journal.append
        return [(self.me, to, statement) for statement in said for to in range(LIAR)]

    def propose(self, question: int, bit: int) -> list[Letter]:
        return self.save(self.core.propose(question, bit, self.toss.draw()))

    def hear(self, sender: int, statement: bytes) -> list[Letter]:
        self.heard.append((sender, statement))
        return self.save(self.core.hear(sender, statement, self.toss.draw()))


def lies(rng: random.Random, question: int) -> list[Letter]:
    """All lies of member 3 on a question: in four rounds its Initials, and Echos and Readys of all places, with a value of its own
    for each receiver."""
    post = []
    for to, round, step, kind, origin in itertools.product(range(LIAR), range(1, 5), (1, 2, 3), (1, 2, 3), range(4)):
        if kind > 1 or origin == LIAR:
            value = rng.randrange(2, 5) if step == 3 else rng.randrange(2)
            post.append((LIAR, to, bytes([kind, question >> 8, question & 255, origin, round, step, value])))
    return post


def restarted(members: list[Member], post: list[Letter], size: Size) -> list[Letter]:
    """Opens member 1 again. What was on its way to it is lost, and each member says all to it once more."""
    journal = bytes(members[1].journal)
    print(f"member 1 is closed, and opened again from its {len(journal) // 7} saved records")
    members[1].core.close()
    members[1] = Member(size, 1, journal)
    again = [(member.me, 1, statement) for member in members for statement in statements(bytes(member.journal))]
    return [letter for letter in post if letter[1] != 1] + again


def main() -> int:
    words = [int(word) for word in sys.argv[1:]]
    rng, questions = random.Random(words[0] if words else 1), words[1] if len(words) > 1 else 8
    size = Size(n=4, t=1, questions=questions)
    members = [Member(size, me) for me in range(LIAR)]
    post = [letter for question in range(questions) for letter in lies(rng, question)]
    for question, member in itertools.product(range(questions), members):
        post += member.propose(question, (member.me + question) % 2)
    heard = 0
    while post:
        at = rng.randrange(len(post))
        post[at], post[-1] = post[-1], post[at]
        sender, to, statement = post.pop()
        post += members[to].hear(sender, statement)
        heard += 1
        if heard == RESTART * questions:
            post = restarted(members, post, size)
    last = 0
    for question in range(questions):
        found = [member.core.verdict(question) for member in members]
        decided = [decision for decision in found if decision is not None]
        bits = {decision.bit for decision in decided}
        if len(decided) < LIAR or len(bits) > 1:
            print(f"question {question}: {found}: undecided, or decided differently")
            return 1
        bit = bits.pop()
        print(f"question {question}: bit {bit}, decided in rounds {[decision.round for decision in decided]}")
        last = max(last, *(decision.round for decision in decided))
        if not audit(size, question, bit, members[0].heard) or audit(size, question, not bit, members[0].heard):
            print("what member 0 heard proves something else")
            return 1
    print(f"heard {heard} statements; {questions} questions decided alike, the last in round {last}")
    print("what member 0 heard proves each decision to somebody who took no part")
    return 0


if __name__ == "__main__":
    sys.exit(main())
