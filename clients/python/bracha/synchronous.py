"""A cluster's client for programs without asyncio."""

import asyncio
import threading
from collections.abc import AsyncIterator, Collection, Coroutine, Iterator
from concurrent.futures import CancelledError, Future
from contextlib import suppress
from pathlib import Path
from types import TracebackType
from typing import Any, TypeVar

from .asynchronous import AsyncCluster
from .desk import PATIENCE
from .errors import Closed
from .replies import Answer, Decision, State, Status
from .settings import Settings

T = TypeVar("T")


class Cluster:
    """A cluster, as its clients see it: the methods of `AsyncCluster`, each of which returns once it is done.

    Threads may share one. It has a thread of its own for the connections; `with` or `close` ends it. `close` also ends the calls of
    other threads, with Closed.
    """

    def __init__(self, settings: Settings) -> None:
        self.settings = settings
        self._closing = threading.RLock()  # the collector may drop an iterator in a thread that has it
        self._closed = False
        self._loop = asyncio.new_event_loop()
        self._cluster = AsyncCluster(settings)
        self._thread = threading.Thread(target=self._loop.run_forever, name="bracha", daemon=True)
        self._thread.start()

    @classmethod
    def open(cls, path: str | Path) -> "Cluster":
        """Returns the cluster of a client.toml. Nothing is sent. BadSettings: what is wrong with the file."""
        return cls(Settings.read(path))

    def __enter__(self) -> "Cluster":
        return self

    def __exit__(self, kind: type[BaseException] | None, error: BaseException | None, trace: TracebackType | None) -> None:
        self.close()

    def close(self) -> None:
        """Closes the connections and ends the thread, at once. A second call does nothing."""
        with self._closing:
            if self._closed:
                return
            self._closed = True
            ended = asyncio.run_coroutine_threadsafe(self._end(), self._loop)
        ended.result()
        self._loop.call_soon_threadsafe(self._loop.stop)
        self._thread.join()
        self._loop.close()

    async def _end(self) -> None:
        await self._cluster.__aexit__(None, None, None)
        others = asyncio.all_tasks() - {asyncio.current_task()}
        for task in others:
            task.cancel()
        await asyncio.gather(*others, return_exceptions=True)
        await self._loop.shutdown_asyncgens()
        await asyncio.sleep(0)  # in which the transports close their sockets

    def _submit(self, call: Coroutine[Any, Any, T]) -> Future[T]:
        with self._closing:
            if self._closed:
                call.close()
                raise Closed("the cluster is closed")
            return asyncio.run_coroutine_threadsafe(call, self._loop)

    def _run(self, call: Coroutine[Any, Any, T]) -> T:
        running = self._submit(call)
        try:
            return running.result()
        except CancelledError as error:
            raise Closed("the cluster was closed") from error
        finally:
            running.cancel()  # if the caller was interrupted

    def propose(self, question: int, bit: bool, *, timeout: float = PATIENCE) -> list[Answer]:
        """As `AsyncCluster.propose`."""
        return self._run(self._cluster.propose(question, bit, timeout=timeout))

    def ask(self, question: int, *, trust: int | None = None, timeout: float = PATIENCE) -> bool | None:
        """As `AsyncCluster.ask`."""
        return self._run(self._cluster.ask(question, trust=trust, timeout=timeout))

    def decide(self, question: int, bit: bool, *, timeout: float | None = 60.0) -> bool:
        """As `AsyncCluster.decide`."""
        return self._run(self._cluster.decide(question, bit, timeout=timeout))

    def wait(self, question: int, *, timeout: float | None = 60.0) -> bool:
        """As `AsyncCluster.wait`."""
        return self._run(self._cluster.wait(question, timeout=timeout))

    def follow(
        self, *, first: int = 0, known: Collection[int] = (), trust: int | None = None, number: int = 0
    ) -> Iterator[Decision]:
        """As `AsyncCluster.follow`. An iterator that is dropped ends what it holds; `close` of the cluster ends it with Closed."""

        async def begin() -> AsyncIterator[Decision]:
            return self._cluster.follow(first=first, known=known, trust=trust, number=number)

        decisions = self._run(begin())

        async def next_one() -> Decision:
            return await anext(decisions)

        async def end() -> None:
            with suppress(RuntimeError):
                await decisions.aclose()  # type: ignore[attr-defined]

        try:
            while True:
                yield self._run(next_one())
        finally:
            # The collector may drop an iterator in any thread, so nobody waits here.
            with suppress(Closed):
                self._submit(end())

    def state(self, question: int, *, timeout: float = PATIENCE) -> list[State]:
        """As `AsyncCluster.state`."""
        return self._run(self._cluster.state(question, timeout=timeout))

    def status(self, *, timeout: float = PATIENCE) -> list[Status]:
        """As `AsyncCluster.status`."""
        return self._run(self._cluster.status(timeout=timeout))
