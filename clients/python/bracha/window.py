"""The decisions of a chain, for one who takes them."""

from collections import deque
from dataclasses import dataclass, field

from .reading import Reading
from .replies import Decision
from .settings import Settings
from .waiters import Waiters

SLOTS = 8192  # slots that are kept, unless four epochs have more
EPOCHS = 4  # epochs that are kept, or more


@dataclass
class Epoch:
    """The readings of an epoch's slots, and how many of them believe a decision."""

    readings: dict[int, Reading] = field(default_factory=dict)
    believed: int = 0


class Window:
    """The decisions of a chain as more than t members tell them, each once, for one who takes them.

    It keeps the slots of some epochs in a row. The oldest epoch is dropped once all its slots are decided, or once n - t members
    are past the newest: more than t of these are correct, so all that they told of the oldest is believed by then. A member that is
    past the newest waits, and all wait while too many decisions aren't taken. So the size is bounded, whatever members tell.
    """

    def __init__(self, settings: Settings, slot: int) -> None:
        self._settings = settings
        self._first = slot // settings.questions  # the oldest epoch that is kept: none before it is
        self._epochs: deque[Epoch] = deque()  # that one and those after it, as far as members told slots of them
        self._most = max(EPOCHS, SLOTS // settings.questions)
        self._reached = [0] * settings.n  # the newest epoch of which each member told a slot
        self._decisions: deque[Decision] = deque()
        self._waiters = Waiters()

    async def take(self, member: int, slot: int, bit: bool) -> None:
        """Takes a member's word on a slot, as soon as there is room for it. It is dropped if the slot's epoch isn't kept any more.
        Closed."""
        epoch = slot // self._settings.questions
        self._reach(member, epoch)
        while not self._has_room(epoch):
            await self._waiters.wait("room")
        if epoch >= self._first:
            self._note(member, slot, bit)

    async def next(self) -> Decision:
        """Takes the next decision, once there is one. A call that is cancelled loses nothing. Closed."""
        while not self._decisions:
            await self._waiters.wait("decision")
        if len(self._decisions) == SLOTS // 2:
            self._waiters.wake("room")  # those that wait tell many then, rather than one after each that is taken
        return self._decisions.popleft()

    def close(self) -> None:
        """Ends all that wait."""
        self._waiters.close()

    def _has_room(self, epoch: int) -> bool:
        return epoch < self._first + self._most and len(self._decisions) < SLOTS

    def _reach(self, member: int, epoch: int) -> None:
        """Notes that a member told a slot of this epoch. The oldest epochs are dropped if n - t members are past the newest."""
        if epoch > self._reached[member]:
            self._reached[member] = epoch
            common = sorted(self._reached)[self._settings.t]  # n - t members have come so far
            self._drop(common - self._most + 1 - self._first)

    def _drop(self, count: int) -> None:
        """Drops so many of the oldest epochs, if any."""
        if count > 0:
            self._first += count
            for _ in range(min(count, len(self._epochs))):
                self._epochs.popleft()
            self._waiters.wake("room")

    def _note(self, member: int, slot: int, bit: bool) -> None:
        place, slot_of_epoch = slot // self._settings.questions - self._first, slot % self._settings.questions
        while len(self._epochs) <= place:
            self._epochs.append(Epoch())
        epoch = self._epochs[place]
        reading = epoch.readings.setdefault(slot_of_epoch, Reading(self._settings.n, self._settings.t))
        before = reading.decision
        reading.take(member, bit)
        if before is None and reading.decision is not None:
            epoch.believed += 1
            self._decisions.append(Decision(slot, reading.decision))
            self._waiters.wake("decision")
        while self._epochs and self._epochs[0].believed == self._settings.questions:
            self._drop(1)
