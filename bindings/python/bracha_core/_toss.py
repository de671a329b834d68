"""The random bits of events."""

import ctypes

from ._library import Handle, checked, declare, i32, pointer, text, u64

_open = declare("bracha_toss_open", i32, pointer, text, u64)
_next = declare("bracha_toss_next", u64, pointer)
_close = declare("bracha_toss_close", None, pointer)


class Toss(Handle):
    """A stream of tosses: ChaCha20 of a secret seed of 32 bytes. Never use a stream twice with one seed; after a restart take
    another: `bracha run` takes 256 times the number of records when the member was opened, plus the peer's number."""

    def __init__(self, seed: bytes, stream: int) -> None:
        if len(seed) != 32 or not 0 <= stream < 1 << 64:
            raise ValueError("a seed has 32 bytes, and a stream is a number of 64 bits")
        toss = ctypes.c_void_p()
        checked(_open(ctypes.byref(toss), bytes(seed), stream))
        super().__init__(toss, _close)

    def draw(self) -> int:
        """Returns the next 64 bits of the stream."""
        with self._lock:
            return int(_next(self._live()))
