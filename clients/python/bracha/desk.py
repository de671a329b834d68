"""One member's desk: lines and their replies over one connection, and the decisions that the member tells."""

import asyncio
from collections import deque
from collections.abc import AsyncIterator
from contextlib import asynccontextmanager, suppress

from .course import Course
from .errors import Closed
from .replies import Decision, told_in
from .settings import Settings, address_of

CONNECT = 3.0  # seconds for a connection
PATIENCE = 5.0  # seconds after which a reply that hasn't come ends its connection
SILENCE = 12.0  # seconds without a line to a follower; a member writes one every five
REST = 0.25  # seconds before another connection to a member that wasn't there
DISTRUST = 5.0  # seconds before another connection to a member that broke the protocol
LONGEST = 4096  # bytes of a line
UNDER_WAY = 1024  # lines without a reply on one connection
TURN = 64  # lines to a follower after which others have their turn


class Wire(asyncio.Protocol):
    """A connection on which each line gets one reply, in order. Many lines may be under way."""

    def __init__(self) -> None:
        self._ended = False
        self._rest = b""
        self._waiting: deque[tuple[float, asyncio.Future[bytes | None]]] = deque()
        self._transport: asyncio.Transport | None = None

    def connection_made(self, transport: asyncio.BaseTransport) -> None:
        assert isinstance(transport, asyncio.Transport)
        self._transport = transport

    def data_received(self, data: bytes) -> None:
        *lines, self._rest = (self._rest + data).split(b"\n")
        for line in lines:
            if not self._waiting or len(line) > LONGEST:
                return self.end()
            _, reply = self._waiting.popleft()
            if not reply.done():
                reply.set_result(line)
        if len(self._rest) > LONGEST:
            self.end()

    def connection_lost(self, error: Exception | None) -> None:
        self.end()

    def end(self) -> None:
        """Closes the connection at once. Lines under way get no reply."""
        self._ended = True
        if self._transport:
            self._transport.abort()
        self._rest = b""
        while self._waiting:
            _, reply = self._waiting.popleft()
            if not reply.done():
                reply.set_result(None)

    def is_open(self) -> bool:
        """Returns True if a line can be sent."""
        return not self._ended and self._transport is not None and not self._transport.is_closing()

    def is_stuck(self) -> bool:
        """Returns True if the oldest line under way has had no reply for too long."""
        return bool(self._waiting) and asyncio.get_running_loop().time() - self._waiting[0][0] > PATIENCE

    async def say(self, line: str) -> bytes | None:
        """Sends a line and returns its reply, or None once the connection has ended."""
        if self._transport is None or not self.is_open():
            return None
        loop = asyncio.get_running_loop()
        reply: asyncio.Future[bytes | None] = loop.create_future()
        self._waiting.append((loop.time(), reply))
        self._transport.write(f"{line}\n".encode())
        return await reply


class Desk:
    """One member's desk, over a connection that is kept, and made anew if it ended."""

    def __init__(self, member: int, desk: str) -> None:
        self.member = member
        self._address = address_of(desk)
        self._wire: Wire | None = None
        self._opening: asyncio.Task[Wire | None] | None = None
        self._places = asyncio.Semaphore(UNDER_WAY)
        self._links: set[asyncio.WriteTransport] = set()  # the connections of those that follow
        self._limits: set[asyncio.Timeout] = set()  # of those that follow and have no connection now
        self._closed = False

    async def _open(self) -> Wire | None:
        try:
            async with asyncio.timeout(CONNECT):
                _, self._wire = await asyncio.get_running_loop().create_connection(Wire, *self._address)
                return self._wire
        except OSError:  # TimeoutError is one
            return None

    async def _connected(self) -> Wire | None:
        """Returns the connection, or a new one if it ended, or None. All that wait for a new one share it."""
        if self._closed:
            return None
        if self._wire and self._wire.is_stuck():
            self._wire.end()
        if self._wire and self._wire.is_open():
            return self._wire
        if self._opening is None or self._opening.done():
            self._opening = asyncio.create_task(self._open())
        opening = self._opening
        try:
            return await asyncio.shield(opening)
        except asyncio.CancelledError:
            if opening.cancelled():  # by `close`, and not the caller
                return None
            raise

    async def say(self, line: str) -> bytes | None:
        """Sends a line and returns its reply, or None if there is none. A kept connection may have ended unnoticed: then the line
        is sent once more, which does no harm. The caller limits the time."""
        async with self._places:
            kept = self._wire
            wire = await self._connected()
            reply = await wire.say(line) if wire else None
            if reply is None and wire and wire is kept:
                wire = await self._connected()
                reply = await wire.say(line) if wire else None
            return reply

    @asynccontextmanager
    async def _limit(self, seconds: float) -> AsyncIterator[None]:
        """Limits the time of what waits in it, which `close` ends too. TimeoutError, Closed."""
        if self._closed:
            raise Closed("the cluster is closed")
        async with asyncio.timeout(seconds) as limit:
            self._limits.add(limit)
            try:
                yield
            finally:
                self._limits.discard(limit)

    async def follow(self, number: int, settings: Settings) -> AsyncIterator[Decision]:
        """Yields the member's decisions from that number of its journal on, for ever, over any number of connections. A member
        that breaks the protocol is left alone for a while. Closed."""
        course = Course(settings, number)
        while True:
            rest = REST
            try:
                async with self._limit(CONNECT):
                    reader, writer = await asyncio.open_connection(*self._address, limit=LONGEST)
                self._links.add(writer.transport)
                try:
                    writer.write(f"FOLLOW {course.begin()}\n".encode())
                    lines = _Lines(reader)
                    while (told := await lines.next()) and (place := course.take(told[0])) is not None:
                        yield Decision(*told, place)
                finally:
                    self._links.discard(writer.transport)
                    writer.transport.abort()
                rest = DISTRUST
            except (OSError, EOFError):  # TimeoutError is the first, the end of the stream the second
                pass
            except asyncio.LimitOverrunError:
                rest = DISTRUST
            with suppress(TimeoutError):
                async with self._limit(rest):
                    await asyncio.sleep(rest)

    def close(self) -> None:
        """Closes the connections at once, and lets nobody make another."""
        self._closed = True
        if self._opening:
            self._opening.cancel()
        if self._wire:
            self._wire.end()
        for link in self._links:
            link.abort()
        for limit in self._limits:
            with suppress(RuntimeError):  # it ends already, or its loop does
                limit.reschedule(0)


class _Lines:
    """The lines of a follower's connection."""

    def __init__(self, reader: asyncio.StreamReader) -> None:
        self._reader = reader
        self._begun = asyncio.get_running_loop().time()
        self._empty = 0
        self._count = 0

    async def next(self) -> tuple[int, bool] | None:
        """Returns what the next line tells that isn't empty. None: it isn't of the protocol, or empty ones come too often."""
        while True:
            self._count += 1
            if self._count % TURN == 0:
                await asyncio.sleep(0)  # lines that have come already are read without waiting
            async with asyncio.timeout(SILENCE):
                line = (await self._reader.readuntil(b"\n"))[:-1]
            self._empty += not line
            if line:
                return told_in(line)
            if self._empty > 3 + (asyncio.get_running_loop().time() - self._begun) / 4:
                return None
