"""Finds and loads the library, and declares the functions of include/bracha.h."""

import ctypes
import ctypes.util
import enum
import os
import threading
from collections.abc import Callable
from typing import Any, NoReturn

ABI = 1
"""The number of the interface that this package was written for."""


class WrongLibrary(ImportError):
    """The library isn't there, or has another interface."""


class Status(enum.IntEnum):
    """Why a call was refused. The numbers are those of bracha.h."""

    NO_SUCH_QUESTION = -1
    NO_SUCH_MEMBER = -2
    MEMORY = -3
    """An allocation failed. A core that was told of an event has failed; one that is opened with the saved records goes on."""
    FAILED = -4
    """An earlier event met MEMORY."""
    BAD_STATEMENT = -5
    BAD_RECORDS = -6
    BROKEN = -7
    """No frame begins like the bytes of this stream: close the connection."""
    NO_ROOM = -9
    NO_MEMBERS = -10
    TOO_MANY_MEMBERS = -11
    TOO_MANY_LIARS = -12
    NO_QUESTIONS = -13
    TOO_MANY_QUESTIONS = -14
    BAD_VERSION = -15
    BAD_HEADER = -20
    """A file doesn't begin as a journal. This and the next four: it is no journal of this member; never start a new one in its place."""
    OTHER_HEADER = -21
    """It is of another cluster, size or member."""
    BAD_RECORD = -22
    CUT_SHORT = -23
    OLD_VERSION = -24
    """It is of version 1: `bracha migrate` converts it."""


class Fault(Exception):
    """A call was refused. `status` says why."""

    def __init__(self, status: int) -> None:
        self.status: Status | int = Status(status) if status in Status._value2member_map_ else status
        super().__init__(self.status.name if isinstance(self.status, Status) else f"status {status}")


u8, u16, u64, size, i32 = ctypes.c_uint8, ctypes.c_uint16, ctypes.c_uint64, ctypes.c_size_t, ctypes.c_int32
pointer, text = ctypes.c_void_p, ctypes.c_char_p


def _load() -> ctypes.CDLL:
    named = os.environ.get("BRACHA_LIBRARY")
    try:
        library = ctypes.CDLL(named or ctypes.util.find_library("bracha") or "libbracha.so.0")
        found = int(library.bracha_abi())
    except (OSError, AttributeError) as error:
        raise WrongLibrary(f"no library of bracha ({error}): install it, or name it by BRACHA_LIBRARY") from error
    if found != ABI:
        raise WrongLibrary(f"{library._name} has interface {found}, and this package wants {ABI}")
    return library


_library = _load()


def declare(name: str, result: Any, *arguments: Any) -> Callable[..., Any]:
    """Returns a function of the library, with its types."""
    function = getattr(_library, name)
    function.restype, function.argtypes = result, arguments
    return function  # type: ignore[no-any-return]


_version = declare("bracha_version", ctypes.c_uint32)


def library_version() -> tuple[int, int, int]:
    """Returns the version of the library, as (0, 3, 0)."""
    version = int(_version())
    return version >> 16 & 255, version >> 8 & 255, version & 255


def checked(status: int) -> int:
    """Returns the status, or raises the Fault that it is."""
    if status < 0:
        raise Fault(status)
    return status


def within(value: int, most: int, fault: Status) -> int:
    """Returns a number that the library's type can hold. One that is too large, or below 0, is the Fault."""
    if not 0 <= value <= most:
        raise Fault(fault)
    return value


class Handle:
    """What the library owns: opened once, closed once, one call at a time."""

    def __init__(self, opened: ctypes.c_void_p, close: Callable[[ctypes.c_void_p], None]) -> None:
        self._handle: ctypes.c_void_p | None = opened
        self._close = close
        self._at = ctypes.addressof(opened)
        self._lock = threading.Lock()

    def close(self) -> None:
        """Frees the memory. Every later call raises ValueError."""
        lock = getattr(self, "_lock", None)
        if lock is None:  # it was never opened
            return
        with lock:
            handle, self._handle, self._at = self._handle, None, 0
            if handle is not None:
                self._close(handle)

    def __reduce__(self) -> NoReturn:
        raise TypeError("what the library owns isn't copied: open another one")

    def __del__(self) -> None:
        self.close()

    def _live(self) -> int:
        """Returns where the handle is. The lock is held."""
        if not self._at:
            raise ValueError("it is closed")
        return self._at
