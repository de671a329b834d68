"""A cluster's client for asyncio."""

import asyncio
import operator
from collections.abc import AsyncIterator, Awaitable, Callable, Collection, Coroutine
from contextlib import aclosing
from pathlib import Path
from types import TracebackType
from typing import Any, TypeVar

from .board import Board, Held
from .desk import PATIENCE, REST, Desk
from .errors import BrachaError, Closed, Gone, NoSuchMember, NoSuchQuestion, Unreachable
from .following import Cursor, Decisions, Source, Stream
from .replies import Answer, Decision, Refusal, State, Status, decision_in, refusal_in, stands_in, state_in, status_in
from .settings import Settings
from .window import Window

T = TypeVar("T")
Call = Callable[[Held, Desk], Coroutine[Any, Any, None]]

GRACE = 0.25  # seconds for the last members to be asked, once enough have answered
POLL = 1.0  # seconds, at most, before a member is asked again for a slot that a call waits for


class AsyncCluster:
    """A cluster, as its clients see it. It keeps at most two connections to each member; `async with` closes them.

    All its calls are of one event loop, and as many as you like may be under way. `close` ends each with Closed.

    The members may run a chain of epochs (`settings.chain`). Then a question is a slot, any number below 2**64: slot s is question
    s mod Q of epoch s // Q, with Q = `settings.questions`. Propose slots in order, and leave none out.
    """

    def __init__(self, settings: Settings) -> None:
        self.settings = settings
        self._desks = [Desk(member, desk) for member, desk in enumerate(settings.desks)]
        self._board = Board(settings)
        self._begins: dict[int, int] = {}  # from which number on the board's followers began, 0 once the member has told a decision
        self._followers: dict[int, asyncio.Task[None]] = {}  # those of the board, by member
        self._tasks: set[asyncio.Task[None]] = set()  # all followers
        self._closed = False

    @classmethod
    def open(cls, path: str | Path) -> "AsyncCluster":
        """Returns the cluster of a client.toml. Nothing is sent. BadSettings: what is wrong with the file."""
        return cls(Settings.read(path))

    async def __aenter__(self) -> "AsyncCluster":
        return self

    async def __aexit__(self, kind: type[BaseException] | None, error: BaseException | None, trace: TracebackType | None) -> None:
        self.close()
        await asyncio.gather(*self._tasks, return_exceptions=True)
        await asyncio.sleep(0)  # in which the transports close their sockets

    def close(self) -> None:
        """Closes the connections at once."""
        self._closed = True
        for task in self._tasks:
            task.cancel()
        for desk in self._desks:
            desk.close()
        self._board.close()

    async def propose(self, question: int, bit: bool, *, timeout: float = PATIENCE) -> list[Answer]:
        """Proposes a bit to every member, and returns each member's answer. One that hasn't answered in time has None."""
        question = self._checked(question)

        async def one(desk: Desk) -> Answer:
            return await self._propose(desk, question, bool(bit), timeout)

        return await self._each(one)

    async def ask(self, question: int, *, trust: int | None = None, timeout: float = PATIENCE) -> bool | None:
        """Returns the decision that more than t members tell, or None while there is none to be believed.

        With `trust`, it returns that member's word alone, which is worth as much as that member. Unreachable: t or fewer members
        answered, or the trusted one didn't. Gone: more than t members of a chain have put the slot's journal away, or the trusted
        one has.
        """
        question = self._checked(question)
        if trust is not None:
            return await self._ask_member(self._member(trust), question, timeout)
        with self._board.hold(question) as held:
            if held.decision is None:
                answered = await self._ask_all(held, timeout, GRACE)
                if held.decision is None and (error := self._failure(held, answered)):
                    raise error
            return held.decision

    async def decide(self, question: int, bit: bool, *, timeout: float | None = 60.0) -> bool:
        """Proposes a bit to every member, again to those that don't answer, and returns the decision, which more than t tell.

        It decides what another client left half proposed. The decision may be the other bit. Undecided: the time, if any, is over.
        Gone, TooFar: more than t members of a chain refuse the slot, and the time is over or n - t do.
        """

        async def propose(held: Held, desk: Desk) -> None:
            while True:
                answer = await self._propose(desk, held.question, bool(bit), PATIENCE)
                if answer.stands is not None or answer.refusal is not None:
                    held.refuse(desk.member, answer.refusal)
                if answer.stands is not None:
                    return
                await asyncio.sleep(REST)

        return await self._settle(self._checked(question), timeout, propose)

    async def wait(self, question: int, *, timeout: float | None = 60.0) -> bool:
        """Returns the decision once more than t members tell it. It proposes nothing. Undecided: the time, if any, is over. Gone:
        more than t members of a chain have put the slot's journal away, and the time is over or n - t have."""
        return await self._settle(self._checked(question), timeout)

    def follow(
        self, *, first: int = 0, known: Collection[int] = (), trust: int | None = None, number: int = 0
    ) -> AsyncIterator[Decision]:
        """Returns an iterator over decisions, for ever, also over restarts of members: first those of before, then each once more
        than t members tell it. Questions below `first` and those in `known` are left out: after a restart, name those that you
        have. An `anext` that is cancelled, as by a timeout, loses nothing.

        In a chain it reads nothing of epochs before that of `first`. It has a connection to each member, which ends when it is
        dropped, and reads no more while nobody takes decisions. Slots come roughly in order. Those may be left out that were
        decided after members had passed their epoch, or of an epoch whose journal some members have put away: `ask` for them.

        With `trust`, it yields what that member alone tells, in the order of its journal, from that number on. An `anext` that is
        cancelled ends it: go on with another, from the number after the last. In a chain, epoch e has the numbers from e Q on; go
        on from the greatest that was told, and one more. A decision that comes late of an epoch that was passed may have a lower
        number than those before it.
        """
        self._check_open()
        if trust is not None:
            return self._desks[self._member(trust)].follow(number, self.settings)
        return Decisions(self._source(self._checked(first)), first, known)

    async def state(self, question: int, *, timeout: float = PATIENCE) -> list[State]:
        """Returns how far each member is on a question by its own word: so what one says is worth as much as that member."""
        question = self._checked(question)

        async def one(desk: Desk) -> State:
            return state_in(desk.member, await self._say(desk, f"STATE {question}", timeout))

        return await self._each(one)

    async def status(self, *, timeout: float = PATIENCE) -> list[Status]:
        """Returns each member's status by its own word. A member that doesn't answer in time isn't up."""
        self._check_open()

        async def one(desk: Desk) -> Status:
            return status_in(desk.member, await self._say(desk, "STATUS", timeout))

        return await self._each(one)

    def _check_open(self) -> None:
        if self._closed:
            raise Closed("the cluster is closed")

    def _checked(self, question: int) -> int:
        self._check_open()
        if not 0 <= operator.index(question) < self.settings.limit:
            raise NoSuchQuestion(f"{question}: the questions are 0 to {self.settings.limit - 1}")
        return operator.index(question)

    def _member(self, member: int) -> int:
        if not 0 <= operator.index(member) < self.settings.n:
            raise NoSuchMember(f"{member}: the members are 0 to {self.settings.n - 1}")
        return operator.index(member)

    async def _say(self, desk: Desk, line: str, timeout: float) -> bytes | None:
        """Sends a line to one member and returns its reply, or None if none comes in time. Only members of a chain refuse slots.
        Closed."""
        reply = None
        try:
            async with asyncio.timeout(timeout):
                reply = await desk.say(line)
        except TimeoutError:
            pass
        self._check_open()
        return reply if self.settings.chain or refusal_in(reply) is None else None

    async def _each(self, one: Callable[[Desk], Awaitable[T]]) -> list[T]:
        return list(await asyncio.gather(*map(one, self._desks)))

    def _begin(self, follower: Coroutine[Any, Any, None]) -> asyncio.Task[None]:
        task = asyncio.create_task(follower)
        self._tasks.add(task)
        task.add_done_callback(self._tasks.discard)
        return task

    def _start(self, question: int) -> None:
        """Begins to follow every member, if that hasn't begun: in a chain from the epoch of this slot on. A member that has told
        nothing yet is followed from an earlier epoch, if the slot is of one: it may wait for an epoch that is far ahead."""
        self._check_open()
        first = self.settings.first_of(question)

        async def one(desk: Desk) -> None:
            async with aclosing(desk.follow(first, self.settings)) as told:
                async for decision in told:
                    self._begins[desk.member] = 0
                    self._board.take(desk.member, decision.question, decision.bit)

        for desk in self._desks:
            if first < self._begins.get(desk.member, self.settings.limit):
                self._begins[desk.member] = first
                if before := self._followers.get(desk.member):
                    before.cancel()
                self._followers[desk.member] = self._begin(one(desk))

    def _source(self, first: int) -> Source:
        """Begins to follow every member, and returns where their decisions are: in a chain, from the epoch of this slot on."""
        if not self.settings.chain:
            self._start(0)
            return Cursor(self._board)
        window = Window(self.settings, first)

        async def one(desk: Desk) -> None:
            async with aclosing(desk.follow(self.settings.first_of(first), self.settings)) as told:
                async for decision in told:
                    await window.take(desk.member, decision.question, decision.bit)

        tasks = [self._begin(one(desk)) for desk in self._desks]
        for task in tasks:
            task.add_done_callback(lambda _: window.close())
        return Stream(window, tasks)

    async def _propose(self, desk: Desk, question: int, bit: bool, timeout: float) -> Answer:
        reply = await self._say(desk, f"PROPOSE {question} {int(bit)}", timeout)
        return Answer(desk.member, stands_in(reply, bit), refusal_in(reply))

    async def _settle(self, question: int, timeout: float | None, *calls: Call) -> bool:
        """Returns the decision of a question once it is believed. Until then it does these calls with each member."""
        with self._board.hold(question) as held:
            try:
                async with asyncio.timeout(timeout):
                    return await self._outcome(held, *calls)
            except TimeoutError as error:
                raise held.failure(timeout) from error

    async def _outcome(self, held: Held, *calls: Call) -> bool:
        """Returns the decision as `_settle` does. In a chain the members are asked first: a proposal would make an epoch run again
        that has ended. Then they are asked again: a follower may be held back by a slot that stays open, and one that is past the
        slot's epoch isn't told the decision."""
        if self.settings.chain:
            if held.decision is None:
                await self._ask_all(held, PATIENCE, 0)
            if (bit := held.outcome()) is not None:
                return bit
            calls = (*calls, self._poll)
        self._start(held.question)
        tasks = [asyncio.create_task(call(held, desk)) for desk in self._desks for call in calls]
        try:
            return await held.wait()
        finally:
            await _end(tasks)

    async def _poll(self, held: Held, desk: Desk) -> None:
        """Asks a member for a slot again and again, in the end every second."""
        pause = REST
        while True:
            await asyncio.sleep(pause)
            await self._hear(held, desk, PATIENCE)
            pause = min(2 * pause, POLL)

    async def _ask_member(self, member: int, question: int, timeout: float) -> bool | None:
        reply = await self._say(self._desks[member], f"ASK {question}", timeout)
        bit = decision_in(reply)
        if refusal_in(reply) is Refusal.GONE:
            raise Gone([member])
        if bit is None and reply != b"UNDECIDED":
            raise Unreachable([member])
        return bit

    async def _hear(self, held: Held, desk: Desk, timeout: float) -> bool:
        """Takes a member's word on a question. Returns False if it gives none."""
        try:
            bit = await self._ask_member(desk.member, held.question, timeout)
        except Gone:
            held.refuse(desk.member, Refusal.GONE)
        except Unreachable:
            return False
        else:
            if bit is not None:
                held.take(desk.member, bit)
        return True

    async def _ask_all(self, held: Held, timeout: float, grace: float) -> set[int]:
        """Takes each member's word on a question, until a decision is believed, or the last members have had their time and this
        grace. Returns who gave one."""
        answered: set[int] = set()

        async def one(desk: Desk) -> None:
            if await self._hear(held, desk, timeout):
                answered.add(desk.member)

        tasks = {asyncio.create_task(one(desk)) for desk in self._desks}
        try:
            left = tasks
            while left and held.decision is None:
                # n - t members answer whatever the faulty do. More may, but nobody is waited for.
                limit = grace if len(answered) >= self.settings.n - self.settings.t else None
                done, left = await asyncio.wait(left, timeout=limit, return_when=asyncio.FIRST_COMPLETED)
                for task in done:
                    task.result()
                if not done:
                    break
        finally:
            await _end(tasks)
        return answered

    def _failure(self, held: Held, answered: set[int]) -> BrachaError | None:
        """Returns the error of a question without a decision that these members answered, if there is one."""
        silent = sorted(set(range(self.settings.n)) - answered)
        return held.refusal() or (Unreachable(silent) if len(answered) <= self.settings.t else None)


async def _end(tasks: Collection[asyncio.Task[None]]) -> None:
    """Cancels tasks, and waits until they have ended, which is at once."""
    for task in tasks:
        task.cancel()
    await asyncio.gather(*tasks, return_exceptions=True)
