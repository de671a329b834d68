"""Who waits for something to change."""

import asyncio
from collections.abc import Hashable

from .errors import Closed


class Waiters:
    """Calls of one event loop that wait, each for a change of what its key names."""

    def __init__(self) -> None:
        self._waiting: dict[Hashable, set[asyncio.Future[None]]] = {}
        self._closed = False

    async def wait(self, key: Hashable) -> None:
        """Waits until this key is woken. Closed."""
        if self._closed:
            raise Closed("the cluster is closed")
        more: asyncio.Future[None] = asyncio.get_running_loop().create_future()
        self._waiting.setdefault(key, set()).add(more)
        try:
            await more
        finally:
            left = self._waiting.get(key, set())
            left.discard(more)
            if not left:
                self._waiting.pop(key, None)

    def wake(self, key: Hashable) -> None:
        """Wakes all that wait for this key."""
        for more in self._waiting.get(key, ()):
            if not more.done():
                more.set_result(None)

    def close(self) -> None:
        """Wakes all, and lets nobody wait any more."""
        self._closed = True
        for key in self._waiting:
            self.wake(key)
