"""Frames, as `bracha run` speaks them over TCP, and the feeder that reads them."""

import ctypes
from collections.abc import Iterable, Iterator
from typing import NamedTuple

from ._core import RECORD, ROOM, Size
from ._library import Fault, Handle, Status, checked, declare, i32, pointer, size, text, u8, u16, u64, within

_idle = declare("bracha_encode_idle", None, pointer)
_hello = declare("bracha_encode_hello", i32, u8, u64, u8, u8, u16, u8, u8, pointer)
_welcome = declare("bracha_encode_welcome", None, u64, pointer)
_statement = declare("bracha_encode_statement", i32, text, pointer)
_statements = declare("bracha_encode_statements", i32, text, size, pointer, pointer)
_open = declare("bracha_feeder_open", i32, pointer, u8, u8, u16)
_close = declare("bracha_feeder_close", None, pointer)
_feed = declare("bracha_feeder_feed", i32, pointer, text, size)
_next = declare("bracha_feeder_next", i32, pointer, pointer, pointer)

_MOST = (1 << 64) - 1


class Hello(NamedTuple):
    """The greeting with which member `sender` begins a session of its link to member `to`."""

    version: int
    cluster: int
    size: Size
    sender: int
    to: int


class Welcome(NamedTuple):
    """The reply to a Hello: how many statements of that link were heard since its member was opened."""

    next: int


class Idle(NamedTuple):
    """A sign of life, once a second if a link has nothing to send."""


class Statements(NamedTuple):
    """The statements of one frame: one, or in version 2 of the wire up to 99."""

    statements: list[bytes]


Message = Hello | Welcome | Idle | Statements


def _idle_frame() -> bytes:
    frame = ctypes.create_string_buffer(3)
    _idle(frame)
    return frame.raw


IDLE = _idle_frame()
"""The frame of an Idle."""


def hello_frame(hello: Hello) -> bytes:
    """Returns the frame of a Hello. Fault: of the size, BAD_VERSION, NO_SUCH_MEMBER."""
    frame = ctypes.create_string_buffer(18)
    version = within(hello.version, 255, Status.BAD_VERSION)
    if not 0 <= hello.cluster <= _MOST:
        raise ValueError("a cluster's number has 64 bits")
    ends = (within(end, 255, Status.NO_SUCH_MEMBER) for end in (hello.sender, hello.to))
    checked(_hello(version, hello.cluster, *hello.size.numbers(), *ends, frame))
    return frame.raw


def welcome_frame(next: int) -> bytes:
    """Returns the frame of a Welcome."""
    if not 0 <= next <= _MOST:
        raise ValueError("a count has 64 bits")
    frame = ctypes.create_string_buffer(11)
    _welcome(next, frame)
    return frame.raw


def statement_frame(statement: bytes) -> bytes:
    """Returns the frame of one statement, in both versions of the wire. Fault: BAD_STATEMENT."""
    if len(statement) != RECORD:
        raise Fault(Status.BAD_STATEMENT)
    frame = ctypes.create_string_buffer(10)
    checked(_statement(bytes(statement), frame))
    return frame.raw


def statements_frame(statements: Iterable[bytes]) -> bytes:
    """Returns one frame of 1 to 99 statements, for sessions of version 2. Fault: BAD_STATEMENT (also none, or too many), MEMORY."""
    joined = b"".join(statements)
    frame, written = ctypes.create_string_buffer(697), ctypes.c_size_t()
    checked(_statements(joined, len(joined), frame, ctypes.byref(written)))
    return frame.raw[:written.value]


class Feeder(Handle):
    """Reads the messages of one connection, whose bytes may be cut anywhere."""

    def __init__(self, cluster: Size) -> None:
        feeder = ctypes.c_void_p()
        checked(_open(ctypes.byref(feeder), *Size(*cluster).numbers()))
        self._body, self._count = ctypes.create_string_buffer(ROOM), ctypes.c_size_t()
        super().__init__(feeder, _close)

    def feed(self, chunk: bytes) -> None:
        """Feeds the next bytes of the connection. Fault: BROKEN (messages before the wrong byte are still given; close the
        connection), MEMORY (nothing was read)."""
        with self._lock:
            checked(_feed(self._live(), bytes(chunk), len(chunk)))

    def next(self) -> Message | None:
        """Takes the next message out, or returns None if more bytes are needed. The message fits the cluster's size; who sent it,
        and whether it comes in its turn, is for the caller to check."""
        with self._lock:
            kind = _next(self._live(), ctypes.addressof(self._body), ctypes.addressof(self._count))
            body, count = self._body.raw, self._count.value
        if kind == 0:
            return Idle()
        if kind == 1:
            number = int.from_bytes
            return Hello(body[0], number(body[1:9], "big"), Size(body[9], body[10], number(body[11:13], "big")), body[13], body[14])
        if kind == 2:
            return Welcome(int.from_bytes(body[:8], "big"))
        if kind == 3:
            return Statements([body[at:at + RECORD] for at in range(0, RECORD * count, RECORD)])
        return None

    def messages(self) -> Iterator[Message]:
        """Takes all messages out that are complete."""
        while (message := self.next()) is not None:
            yield message
