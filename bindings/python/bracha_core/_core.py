"""A member's core, and what it says."""

import ctypes
import enum
import secrets
from collections.abc import Callable, Iterable, Iterator
from typing import NamedTuple, Self

from ._library import Fault, Handle, Status, checked, declare, i32, pointer, size, text, u8, u16, u64, within

RECORD = 7
"""The bytes of a record, and of a statement."""
MOST_RECORDS = 99
"""The most records of one answer."""
ROOM = RECORD * MOST_RECORDS

_open = declare("bracha_core_open", i32, pointer, u8, u8, u16, u8, text, size)
_close = declare("bracha_core_close", None, pointer)
_hear = declare("bracha_core_hear", i32, pointer, u8, text, u64, pointer, pointer)
_propose = declare("bracha_core_propose", i32, pointer, u16, ctypes.c_bool, u64, pointer, pointer)
_verdict = declare("bracha_core_verdict", ctypes.c_bool, pointer, u16, pointer)
_audit = declare("bracha_audit", i32, u8, u8, u16, u16, ctypes.c_bool, text, size)


class Size(NamedTuple):
    """The size of a cluster: n members (1 to 64), of whom at most t are faulty (n > 3t), and 1 to 4,096 questions."""

    n: int
    t: int
    questions: int

    def numbers(self) -> tuple[int, int, int]:
        """Returns the three, as the library takes them."""
        return (
            within(self.n, 255, Status.TOO_MANY_MEMBERS),
            within(self.t, 255, Status.TOO_MANY_LIARS),
            within(self.questions, 65535, Status.TOO_MANY_QUESTIONS),
        )


class Outcome(enum.IntEnum):
    """What an event came to."""

    TAKEN = 0
    """It counts, and its records are to be saved."""
    REPEAT = 1
    """The sender said a statement of this kind and place before. Nothing changed."""
    FOREIGN = 2
    """An Initial that doesn't come from its origin: the sender lies. Nothing changed."""
    HAVE_ZERO = 3
    """0 was proposed before, perhaps before a restart. Nothing changed."""
    HAVE_ONE = 4
    """1 was."""


Have = {Outcome.HAVE_ZERO: 0, Outcome.HAVE_ONE: 1}
"""The bit that was proposed before, by outcome."""


class Decision(NamedTuple):
    """The answer to a question: the round in which the member decided, and the bit."""

    round: int
    bit: int


def _rows(records: bytes) -> Iterator[bytes]:
    return (records[at:at + RECORD] for at in range(0, len(records), RECORD))


def statements(records: bytes) -> list[bytes]:
    """Returns the statements among records: what a member sends to a peer that has nothing."""
    return [row for row in _rows(records) if row[0] != 4]


def decisions(records: bytes) -> list[tuple[int, Decision]]:
    """Returns the decisions among records, each with its question."""
    return [(row[1] << 8 | row[2], Decision(row[4], row[6])) for row in _rows(records) if row[0] == 4]


class Answer(NamedTuple):
    """The answer to an event. `records` has seven bytes each; there are none unless `outcome` is TAKEN."""

    outcome: Outcome
    records: bytes

    def save(self, save: Callable[[bytes], object]) -> list[bytes]:
        """Has the records saved, and returns the statements among them, which may then be sent to all members, this one
        included. Without records, `save` isn't called. If `save` raises, nothing may be sent."""
        if self.records:
            save(self.records)
        return statements(self.records)


_OUTCOMES = tuple(Outcome)


class Core(Handle):
    """The core of member `me`, with all records that it ever saved, oldest first: none for a new one."""

    def __init__(self, cluster: Size, me: int, records: bytes = b"") -> None:
        core = ctypes.c_void_p()
        me = within(me, 255, Status.NO_SUCH_MEMBER)
        checked(_open(ctypes.byref(core), *Size(*cluster).numbers(), me, bytes(records), len(records)))
        self._room = ctypes.create_string_buffer(ROOM)
        self._count = ctypes.c_size_t()
        self._room_at, self._count_at = ctypes.addressof(self._room), ctypes.addressof(self._count)
        super().__init__(core, _close)

    def __enter__(self) -> Self:
        return self

    def __exit__(self, *_: object) -> None:
        self.close()

    def _answer(self, status: int) -> Answer:
        checked(status)
        count = self._count.value
        return Answer(_OUTCOMES[status], ctypes.string_at(self._room_at, RECORD * count) if count else b"")

    def hear(self, sender: int, statement: bytes, toss: int | None = None) -> Answer:
        """Hears seven bytes from a member that the link has authenticated. `toss` is 64 random bits that nobody else can guess,
        fresh for each call; the system draws them if it is left out.

        Fault: BAD_STATEMENT, NO_SUCH_QUESTION, NO_SUCH_MEMBER leave the core as it was; after MEMORY and FAILED open another one
        with the saved records."""
        if len(statement) != RECORD:
            raise Fault(Status.BAD_STATEMENT)
        toss = secrets.randbits(64) if toss is None else toss
        within(sender, 255, Status.NO_SUCH_MEMBER)
        with self._lock:
            return self._answer(_hear(self._live(), sender, bytes(statement), toss, self._room_at, self._count_at))

    def propose(self, question: int, bit: int | bool, toss: int | None = None) -> Answer:
        """Proposes a bit for a question at this member, with a toss as in `hear`. Fault: NO_SUCH_QUESTION, MEMORY, FAILED."""
        if bit not in (0, 1):
            raise ValueError("a bit is 0 or 1")
        toss = secrets.randbits(64) if toss is None else toss
        within(question, 65535, Status.NO_SUCH_QUESTION)
        with self._lock:
            return self._answer(_propose(self._live(), question, bool(bit), toss, self._room_at, self._count_at))

    def verdict(self, question: int) -> Decision | None:
        """Returns the decision of a question, if there is one. Act on it only after its record was saved. A core that has failed
        (FAILED) knows of none."""
        if not 0 <= question <= 65535:
            return None
        decision = (ctypes.c_uint8 * 2)()
        with self._lock:
            decided = _verdict(self._live(), question, ctypes.addressof(decision))
        return Decision(decision[0], decision[1]) if decided else None


def audit(cluster: Size, question: int, bit: int | bool, pairs: Iterable[tuple[int, bytes]]) -> bool:
    """Checks whether pairs of a sender and a statement that it sent are by themselves proof that the question has this answer. It
    proves only what was really sent; it is no proof if a sender, an origin or the question doesn't exist. Fault: of the size,
    BAD_STATEMENT, MEMORY; NO_SUCH_QUESTION and NO_SUCH_MEMBER only for numbers that have no room in two bytes or one."""
    within(question, 65535, Status.NO_SUCH_QUESTION)
    rows = []
    for sender, statement in pairs:
        if len(statement) != RECORD:
            raise Fault(Status.BAD_STATEMENT)
        rows.append(bytes((within(sender, 255, Status.NO_SUCH_MEMBER),)) + statement)
    joined = b"".join(rows)
    return bool(checked(_audit(*Size(*cluster).numbers(), question, bool(bit), joined, len(joined))))
