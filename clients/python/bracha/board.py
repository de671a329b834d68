"""What a client believes of all questions."""

from collections.abc import Iterator
from contextlib import contextmanager

from .errors import BrachaError, Gone, TooFar, Undecided
from .reading import Reading
from .replies import Decision, Refusal
from .settings import Settings
from .waiters import Waiters


class Entry:
    """What members say of one question, and how many calls want it."""

    def __init__(self, settings: Settings) -> None:
        self.reading = Reading(settings.n, settings.t)
        self.holders = 0


class Board:
    """What members say of questions, the decisions that are believed, and who waits for them. In a chain it knows only the slots
    that a call holds, and keeps no decisions. Otherwise it takes words on questions that exist, and of each member one a question.
    So its size is bounded."""

    def __init__(self, settings: Settings) -> None:
        self._settings = settings
        self._entries: dict[int, Entry] = {}
        self._decisions: list[Decision] = []
        self.waiters = Waiters()

    def _entry(self, question: int) -> Entry:
        if question not in self._entries:
            self._entries[question] = Entry(self._settings)
        return self._entries[question]

    @contextmanager
    def hold(self, question: int) -> Iterator["Held"]:
        """Holds a question for a call: what members say of it is kept meanwhile."""
        entry = self._entry(question)
        entry.holders += 1
        try:
            yield Held(self, self._settings, question, entry)
        finally:
            entry.holders -= 1
            if self._settings.chain and not entry.holders:
                del self._entries[question]

    def take(self, member: int, question: int, bit: bool) -> None:
        """Takes a member's word."""
        if self._settings.chain and question not in self._entries:
            return
        reading = self._entry(question).reading
        before = reading.decision
        reading.take(member, bit)
        if before is None and reading.decision is not None:
            if not self._settings.chain:
                self._decisions.append(Decision(question, reading.decision))
            self.waiters.wake(question)
            self.waiters.wake(None)

    async def at(self, place: int) -> Decision:
        """Returns the decision at a place of the order in which they came to be believed, once there is one. Closed."""
        while place >= len(self._decisions):
            await self.waiters.wait(None)
        return self._decisions[place]

    def close(self) -> None:
        """Ends all that wait."""
        self.waiters.close()


class Held:
    """A question that a call wants, and the members that refuse it to that call: one that proposes nothing is refused no
    proposal."""

    def __init__(self, board: Board, settings: Settings, question: int, entry: Entry) -> None:
        self._board = board
        self._settings = settings
        self._entry = entry
        self._refusals: dict[int, Refusal] = {}
        self.question = question

    def _refused_by(self, least: int) -> BrachaError | None:
        """Returns the error of a slot that at least so many members refuse for one cause."""
        for cause, error in ((Refusal.GONE, Gone), (Refusal.TOO_FAR, TooFar)):
            members = sorted(member for member, refusal in self._refusals.items() if refusal is cause)
            if len(members) >= least:
                return error(members)
        return None

    @property
    def decision(self) -> bool | None:
        """The decision that is believed, or None."""
        return self._entry.reading.decision

    def take(self, member: int, bit: bool) -> None:
        """Takes a member's word."""
        self._board.take(member, self.question, bit)

    def refuse(self, member: int, refusal: Refusal | None) -> None:
        """Takes the cause for which a member refuses the slot, or None if it doesn't. The last one counts."""
        if refusal is None:
            self._refusals.pop(member, None)
        else:
            self._refusals[member] = refusal
            self._board.waiters.wake(self.question)

    def outcome(self) -> bool | None:
        """Returns the decision that is believed, or None if it may still come. Gone, TooFar: at least n - t members refuse the
        slot, so t or fewer are left."""
        if self.decision is None and (error := self._refused_by(self._settings.n - self._settings.t)):
            raise error
        return self.decision

    async def wait(self) -> bool:
        """Returns the decision once it is believed. The caller limits the time. Gone, TooFar, Closed."""
        while (bit := self.outcome()) is None:
            await self._board.waiters.wait(self.question)
        return bit

    def refusal(self) -> BrachaError | None:
        """Returns the error of a slot that more than t members refuse."""
        return self._refused_by(self._settings.t + 1)

    def failure(self, timeout: float | None) -> BrachaError:
        """Returns the error of a call whose time is over."""
        words = self._entry.reading.words
        return self.refusal() or Undecided(f"question {self.question} after {timeout} seconds; told by members: {words}")
