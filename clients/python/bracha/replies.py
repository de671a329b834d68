"""What members reply, as values."""

from dataclasses import dataclass
from enum import Enum


@dataclass(frozen=True)
class Decision:
    """A decision. `number` is its place in one member's journal, from 0, if that member alone is trusted, and otherwise None. In a
    chain, place p of epoch e has the number e Q + p, with Q questions an epoch."""

    question: int
    bit: bool
    number: int | None = None


class Refusal(Enum):
    """Why a member of a chain refuses a line on a slot."""

    GONE = "gone"  # the journal of the slot's epoch was put away: it knows nothing of it
    TOO_FAR = "too far"  # the slot's epoch is too far ahead of its newest one for a proposal


@dataclass(frozen=True)
class Answer:
    """One member's answer to a proposal: the bit that it has as its proposal, or None if it didn't answer, is stopped or refuses
    the slot. `refusal` tells why it does, in a chain, and is otherwise None."""

    member: int
    stands: bool | None
    refusal: Refusal | None = None


@dataclass(frozen=True)
class Status:
    """One member by its own word: whether it is up, how many statements it made, and how many questions it decided."""

    member: int
    up: bool
    statements: int = 0
    decided: int = 0


class Stage(Enum):
    """How far a member is on a question."""

    UNPROPOSED = "unproposed"  # nothing was proposed to it
    OPEN = "open"
    SPENT = "spent"  # undecided after its last round: it says no more of its own
    DECIDED = "decided"
    GONE = "gone"  # in a chain: it has put the journal of the slot's epoch away


@dataclass(frozen=True)
class State:
    """How far one member is on a question, by its own word. `stage` is None if it didn't answer or is stopped. `round` (1 to 32) and
    `step` (1 to 3) are those of an open question, `bit` that of a decided one, and otherwise None."""

    member: int
    stage: Stage | None
    round: int | None = None
    step: int | None = None
    bit: bool | None = None


def decision_in(reply: bytes | None) -> bool | None:
    """Returns the bit of a reply `DECIDED b`, or None for any other."""
    return {b"DECIDED 0": False, b"DECIDED 1": True}.get(reply or b"")


def stands_in(reply: bytes | None, bit: bool) -> bool | None:
    """Returns the proposal of the member that gave this reply to a proposal of `bit`, or None if it has none."""
    return {b"OK": bit, b"HAVE 0": False, b"HAVE 1": True}.get(reply or b"")


def refusal_in(reply: bytes | None) -> Refusal | None:
    """Returns why the member that gave this reply refuses the slot, or None if it doesn't."""
    return {b"ERR 5 gone": Refusal.GONE, b"ERR 2 question": Refusal.TOO_FAR}.get(reply or b"")


def number_in(word: bytes) -> int | None:
    """Returns the number in a word of at most 20 decimal digits, without zeros before it."""
    return int(word) if word.isdigit() and len(word) <= 20 and (word == b"0" or word[:1] != b"0") else None


def told_in(line: bytes) -> tuple[int, bool] | None:
    """Returns the question and the bit of a follower's line `DECIDED q b`, or None for any other."""
    words = line.split(b" ")
    question = number_in(words[1]) if len(words) == 3 else None
    if question is None or words[0] != b"DECIDED" or words[2] not in (b"0", b"1"):
        return None
    return question, words[2] == b"1"


def state_in(member: int, reply: bytes | None) -> State:
    """Returns the state in a reply to `STATE q`. Any other reply is from a member that doesn't say."""
    bit = decision_in(reply)
    if bit is not None:
        return State(member, Stage.DECIDED, bit=bit)
    stage = {b"UNPROPOSED": Stage.UNPROPOSED, b"SPENT": Stage.SPENT, b"ERR 5 gone": Stage.GONE}.get(reply or b"")
    words = (reply or b"").split(b" ")
    if len(words) == 3 and words[0] == b"OPEN":
        round_, step = map(number_in, words[1:])
        if round_ in range(1, 33) and step in range(1, 4):
            return State(member, Stage.OPEN, round_, step)
    return State(member, stage)


def status_in(member: int, reply: bytes | None) -> Status:
    """Returns the status in a reply `UP m d`. Any other reply is from a member that isn't up."""
    words = (reply or b"").split(b" ")
    statements, decided = map(number_in, words[1:]) if len(words) == 3 else (None, None)
    if words[0] != b"UP" or statements is None or decided is None:
        return Status(member, False)
    return Status(member, True, statements, decided)
