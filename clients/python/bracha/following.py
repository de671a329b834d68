"""Decisions, for who iterates over them."""

import asyncio
from collections.abc import AsyncIterator, Collection
from contextlib import suppress
from typing import Protocol

from .board import Board
from .replies import Decision
from .window import Window


class Source(Protocol):
    """Where decisions come from. A call of `next` that is cancelled loses nothing."""

    async def next(self) -> Decision:
        """Returns the next decision, once there is one. Closed."""
        ...

    def close(self) -> None:
        """Ends what it holds."""


class Cursor:
    """The decisions on a board. It holds nothing."""

    def __init__(self, board: Board) -> None:
        self._board = board
        self._place = 0

    async def next(self) -> Decision:
        decision = await self._board.at(self._place)
        self._place += 1
        return decision

    def close(self) -> None:
        pass


class Stream:
    """The decisions that tasks of its own take to a window. They end once it is dropped."""

    def __init__(self, window: Window, tasks: Collection[asyncio.Task[None]]) -> None:
        self._window = window
        self._tasks = tasks
        self._loop = asyncio.get_running_loop()

    async def next(self) -> Decision:
        return await self._window.next()

    def close(self) -> None:
        for task in self._tasks:
            task.cancel()

    def __del__(self) -> None:
        # The collector may drop it in any thread, and after the loop has ended.
        with suppress(RuntimeError):
            self._loop.call_soon_threadsafe(self.close)


class Decisions(AsyncIterator[Decision]):
    """The decisions of a source on questions from one on, for ever. It may be dropped, and an `anext` that is cancelled loses
    nothing."""

    def __init__(self, source: Source, first: int, left_out: Collection[int]) -> None:
        self._source = source
        self._first = first
        self._left_out = frozenset(left_out)

    async def __anext__(self) -> Decision:
        while True:
            decision = await self._source.next()
            if decision.question >= self._first and decision.question not in self._left_out:
                return decision

    async def aclose(self) -> None:
        """Ends what it holds: as a generator has it, for the same use."""
        self._source.close()
