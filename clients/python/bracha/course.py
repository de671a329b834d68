"""The place of one member's decisions."""

from dataclasses import dataclass

from .settings import Settings

KEPT = 32  # epochs of which a course knows the slots that were told
LAST = 2**64 - 1  # the greatest number


@dataclass
class Epoch:
    """An epoch of which one member told decisions. A cluster that is no chain has one."""

    first: int
    next: int
    """The number of its next decision."""
    told: int = 0
    """A bit for each slot that was told."""


class Course:
    """The number of a member's next decision, and which questions it told.

    A member of a chain tells its slots epoch by epoch. It passes an epoch in which slots stay open, and may tell decisions of it
    later, on the same connection. Epochs are remembered until 32 others were begun: so the size is bounded, whatever a member
    tells.
    """

    def __init__(self, settings: Settings, number: int) -> None:
        self._settings = settings
        self._number = number
        self._lowest = 0  # the first slot of the epoch in which the connection begins: none before it is told
        self._epochs = [Epoch(settings.first_of(number), number)]

    def begin(self) -> int:
        """Returns the number from which on another connection asks for decisions, and begins it."""
        self._lowest = self._settings.first_of(self._number)
        return self._number

    def take(self, question: int) -> int | None:
        """Takes a question that the member tells, and returns the number of its decision. None: a correct member doesn't tell it,
        as there is none, it was told before, or it is of an epoch before those that were asked for."""
        if not self._lowest <= question < self._settings.limit:
            return None
        epoch = self._epoch(self._settings.first_of(question))
        told = 1 << question - epoch.first
        if epoch.told & told:
            return None
        epoch.told |= told
        number, epoch.next = epoch.next, min(epoch.next + 1, LAST)
        # A late decision of an epoch that was passed leaves the next number as it is.
        if epoch.first >= self._settings.first_of(self._number):
            self._number = epoch.next
        return number

    def _epoch(self, first: int) -> Epoch:
        """Returns the epoch of this first slot. A new one takes the place of another if there are too many: of one that was told to
        its end, or else of the oldest."""
        for epoch in reversed(self._epochs):
            if epoch.first == first:
                return epoch
        if len(self._epochs) == KEPT:
            ended = (place for place, epoch in enumerate(self._epochs) if epoch.next - epoch.first >= self._settings.questions)
            del self._epochs[next(ended, 0)]
        self._epochs.append(Epoch(first, first))
        return self._epochs[-1]
