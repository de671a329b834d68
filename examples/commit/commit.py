"""A two-phase commit whose second phase is a question of a cluster of bracha.

    commit.py party NAME BALANCE                                runs an account, which keeps its promises in NAME.log
    commit.py coordinate QUESTION NAME=DELTA.. [--die WHEN]     moves money between accounts
    commit.py show NAME..                                       prints balances, and what became of each question

In the first phase the coordinator asks each party to promise its change. A party that promised can't go back by itself: with a
coordinator that dies, it would wait for ever. Here the outcome isn't the coordinator's word but the decision of a question, which t
liars among the members can't change, and any other coordinator can bring it about. 1, "commit", is proposed only after all promised.
The folder in which it runs has client.toml. --die prepared: the coordinator dies before it proposes; --die half: after it proposed
to one member.
"""

import asyncio
import json
import os
import sys
from pathlib import Path

from bracha import AsyncCluster, Settings

VOTE = 1.0  # seconds for a party's promise


class Party:
    """An account. Each line of its log was on the disk before anybody heard of it."""

    def __init__(self, name: str, balance: int) -> None:
        self.name, self.balance = name, balance
        self.promises: dict[int, int | None] = {}  # the change of each question, or None if it was refused
        self.outcomes: dict[int, bool] = {}
        self.log = Path(f"{name}.log")
        saved = self.log.read_bytes() if self.log.exists() else b""
        self.whole = saved.rfind(b"\n") + 1  # bytes of whole lines; a crash may have left part of another, of which nobody heard
        for line in saved[:self.whole].splitlines():
            self.take(**json.loads(line))

    def take(self, question: int, change: int | None = None, commit: bool | None = None) -> None:
        if commit is None:
            self.promises[question] = change
        else:
            self.outcomes[question] = commit
            self.balance += (self.promises.get(question) or 0) if commit else 0

    def save(self, **entry: int | bool | None) -> None:
        """Saves a line. If the disk fails, nobody knows what it has, and the party ends."""
        try:
            with self.log.open("a") as file:
                file.write(json.dumps(entry) + "\n")
                file.flush()
                os.fsync(file.fileno())
        except OSError as error:
            print(f"{self.log}: {error}", flush=True)
            os._exit(1)
        self.take(**entry)

    def begin(self) -> None:
        """Cuts off the part of a line that a crash left, and has the disk keep the log and its name."""
        with self.log.open("ab") as file:
            file.truncate(self.whole)
            os.fsync(file.fileno())
        folder = os.open(".", os.O_RDONLY)
        os.fsync(folder)
        os.close(folder)

    def promise(self, question: int, change: int) -> bool:
        """Promises a change, unless the account may have too little for it. The same question has the same answer for ever."""
        if question not in self.promises:
            open_yet = [it for at, it in self.promises.items() if it and it < 0 and at not in self.outcomes]
            fits = change >= 0 or self.balance + sum(open_yet) + change >= 0
            self.save(question=question, change=change if fits else None)
        return self.promises[question] == change

    async def run(self, cluster: AsyncCluster) -> None:
        self.begin()
        ends = {question: asyncio.create_task(self.end(cluster, question)) for question in self.promises}

        async def serve(reader: asyncio.StreamReader, writer: asyncio.StreamWriter) -> None:
            question, change = map(int, (await reader.readline()).split())
            # A promise on a question that doesn't exist would never end.
            promised = 0 <= question < cluster.settings.limit and self.promise(question, change)
            if question in self.promises and question not in ends:
                ends[question] = asyncio.create_task(self.end(cluster, question))
            writer.write(b"YES\n" if promised else b"NO\n")
            writer.close()

        Path(f"{self.name}.socket").unlink(missing_ok=True)
        async with await asyncio.start_unix_server(serve, f"{self.name}.socket") as server:
            print("ready", flush=True)
            await server.serve_forever()

    async def end(self, cluster: AsyncCluster, question: int) -> None:
        if question not in self.outcomes:
            self.save(question=question, commit=await cluster.wait(question, timeout=None))


async def asked(name: str, question: int, change: int) -> bool:
    """Returns whether the party promises. One that doesn't answer in time, or tells a line without an end, doesn't."""
    try:
        async with asyncio.timeout(VOTE):
            reader, writer = await asyncio.open_unix_connection(f"{name}.socket")
            try:
                writer.write(f"{question} {change}\n".encode())
                return await reader.readline() == b"YES\n"
            finally:
                writer.close()
    except (OSError, ValueError):  # TimeoutError is the first, a line that is too long the second
        return False


async def coordinate(cluster: AsyncCluster, question: int, changes: dict[str, int], die: str | None) -> None:
    commit = all(await asyncio.gather(*(asked(name, question, change) for name, change in changes.items())))
    if die == "half":
        had = cluster.settings
        async with AsyncCluster(Settings(had.cluster, 1, 0, had.questions, had.desks[:1])) as first:
            await first.propose(question, commit)
    if die:
        os._exit(9)
    outcome = await cluster.decide(question, commit)
    print(f"question {question}: proposed {'commit' if commit else 'abort'}, decided {'commit' if outcome else 'abort'}")


async def main(what: str, *words: str) -> None:
    die = words[-1] if "--die" in words else None
    async with AsyncCluster.open("client.toml") as cluster:
        if what == "party":
            await Party(words[0], int(words[1])).run(cluster)
        elif what == "coordinate":
            changes = dict(word.split("=") for word in words[1:] if "=" in word)
            await coordinate(cluster, int(words[0]), {name: int(change) for name, change in changes.items()}, die)
        else:
            for party in (Party(name, 100) for name in words):
                print(party.name, party.balance, *(f"{q}:{'abort' if not it else 'commit'}" for q, it in sorted(party.outcomes.items())))


asyncio.run(main(*sys.argv[1:]))
