"""A ledger over a cluster of bracha: values in slots 0, 1, 2 .., the same in the same slots for everybody.

    ledger.py witness M              keeps the ledger next to member M, and trusts that member alone: it's on the same machine
    ledger.py put SLOT TEXT          gives a value to all witnesses
    ledger.py lie SLOT TEXT TEXT     gives one value to half of them, and another to the others

A question has one bit, and a value is bytes. So slot s is question s: "has a value's hash come into slot s for all?", and the bytes
go from witness to witness. A witness holds the first value of a slot that it gets, if it is one line of text. It locks a hash that
more than (n + t) / 2 witnesses hold, or that more than t have locked: so no two correct witnesses lock different ones. It votes 1,
at its own member, once 2t + 1 have locked: then all correct ones will. It votes 0 if that takes too long, and a slot that is decided
0 stays empty: its value is to be put again. All that it holds and locks is on the disk before anybody hears of it, and what came of
a slot before that is entered. Here are client.toml and its folder.

Chance may leave a question open for ever, and a slot with it. So the second half of the questions asks of each slot: "is it given
up?". In a chain of epochs, whose questions don't end, slot s has the questions 2s and 2s + 1, and both are settled. A witness takes
one stand on a slot, for good: it keeps the slot once its member has decided it, or leaves it once its member is spent, after 32
rounds. A decision is entered once more than (n + t) / 2 witnesses keep the slot. Where as many leave it, a witness votes to give it
up; where its member has decided and another has left, it votes not to. A slot that is given up stays empty. As more than half of
the correct witnesses can't both keep and leave a slot, nobody enters what others give up.
"""

import asyncio
import hashlib
import os
import sys
from collections import Counter
from contextlib import suppress
from pathlib import Path

from bracha import AsyncCluster, Settings, Stage, Undecided

DIGITS = 20  # of the greatest slot that there may be
PATIENCE = 2.5  # seconds for a slot, once values are there for it or a later one
PAUSE = 0.1  # seconds before a slot is looked at again: it may wait for witnesses that are down
WINDOW = 8  # slots that are settled at once; they are entered in order


def save(path: Path, data: bytes) -> bytes:
    """Writes a file for good, if it isn't there, and returns what it has."""
    if not path.exists():
        draft = path.with_suffix(".draft")
        with draft.open("wb") as file:
            file.write(data)
            file.flush()
            os.fsync(file.fileno())
        draft.rename(path)
        folder = os.open(path.parent, os.O_RDONLY)
        os.fsync(folder)
        os.close(folder)
    return path.read_bytes()


async def say(witness: int, line: str) -> list[str]:
    """Returns the words of a witness's reply, none if it gives none in time or a line without an end."""
    try:
        async with asyncio.timeout(1):
            reader, writer = await asyncio.open_unix_connection(f"witness-{witness}.socket")
            try:
                writer.write(line.encode() + b"\n")
                return (await reader.readline()).decode("ascii", "replace").split()
            finally:
                writer.close()
    except (OSError, ValueError):  # TimeoutError is the first, a line that is too long the second
        return []


def is_entry(value: bytes) -> bool:
    """Returns whether a value is one printable line of text. Another one could be read as entries of other slots."""
    try:
        return value.decode().isprintable()
    except UnicodeDecodeError:
        return False


class Witness:
    def __init__(self, me: int, settings: Settings) -> None:
        self.me, self.n, self.t = me, settings.n, settings.t
        self.slots, self.chain = settings.limit // 2, settings.chain
        self.member = AsyncCluster(Settings(settings.cluster, 1, 0, settings.questions, (settings.desks[me],), settings.chain))
        self.folder = Path(f"witness-{me}")
        self.folder.mkdir(exist_ok=True)

    def entered(self, slot: int) -> int:
        """Returns the question: has a value's hash come into the slot for all?"""
        return 2 * slot if self.chain else slot

    def given_up(self, slot: int) -> int:
        """Returns the question: is the slot given up?"""
        return 2 * slot + 1 if self.chain else self.slots + slot

    def at(self, slot: int, what: str) -> str:
        path = self.folder / f"{slot}.{what}"
        return path.read_text() if path.exists() else "-"

    def end(self) -> int:
        return max((int(path.stem) + 1 for path in self.folder.glob("*.held")), default=0)

    async def serve(self, reader: asyncio.StreamReader, writer: asyncio.StreamWriter) -> None:
        what, name, *more = (await reader.readline()).decode().split()
        if what == "PUT" and 0 <= int(name) < self.slots and is_entry(value := bytes.fromhex(more[0])):
            digest = hashlib.sha256(value).hexdigest()
            save(self.folder / f"{digest}.value", value)
            writer.write(save(self.folder / f"{int(name)}.held", digest.encode()) + b"\n")
        elif what == "TELL":  # what it holds and has locked in a slot, its stand, and the end of the slots in which it holds something
            held, locked, stand = (self.at(int(name), what) for what in ("held", "locked", "stand"))
            writer.write(f"{held} {locked} {stand} {self.end()}\n".encode())
        elif what == "GET" and name.isalnum():
            path = self.folder / f"{name}.value"
            writer.write((path.read_bytes().hex() if path.exists() else "-").encode() + b"\n")
        writer.close()

    def is_quorum(self, count: int) -> bool:
        return 2 * count > self.n + self.t

    async def settle(self, slot: int) -> bytes | None:
        """Returns the value that came into a slot, or None if it stays empty. What came of the slot is on the disk from then on: in a
        chain the member may put its journal of it away."""
        path = self.folder / f"{slot}.settled"
        if not path.exists():
            value = await self.agree(slot)
            save(path, b"" if value is None else hashlib.sha256(value).hexdigest().encode())
        digest = path.read_text()
        return await self.fetch(digest) if digest else None

    async def agree(self, slot: int) -> bytes | None:
        """Returns what `settle` does, once the witnesses and their members agree on it."""
        loop = asyncio.get_running_loop()
        begun, voted = None, False
        while True:
            replies = await asyncio.gather(*(say(witness, f"TELL {slot}") for witness in range(self.n)))
            told = [words for words in replies if len(words) == 4 and words[3].isdecimal() and len(words[3]) <= DIGITS]
            held, locked = (Counter(words[part] for words in told if words[part] != "-").most_common(1) for part in (0, 1))
            if held and self.is_quorum(held[0][1]):
                save(self.folder / f"{slot}.locked", held[0][0].encode())
            if locked and locked[0][1] > self.t:
                save(self.folder / f"{slot}.locked", locked[0][0].encode())
            if sum(int(words[3]) > slot for words in told) > self.t:  # a liar alone makes no slot end
                begun = begun or loop.time()
            full = bool(locked) and locked[0][1] > 2 * self.t
            if not voted and (full or begun and loop.time() - begun > PATIENCE):
                voted = (await self.member.propose(self.entered(slot), full))[0].stands is not None
            bit, given_up = await self.judge(slot, voted, Counter(words[2] for words in told))
            if given_up or bit is False:
                return None
            if bit and locked and locked[0][1] > self.t:
                return await self.fetch(locked[0][0])
            await asyncio.sleep(PAUSE)

    async def judge(self, slot: int, voted: bool, stands: Counter[str]) -> tuple[bool | None, bool]:
        """Returns the bit of a slot, once it may be entered, and whether the slot is given up."""
        bit = await self.decision(self.entered(slot))
        if bit is not None:
            save(self.folder / f"{slot}.stand", b"keeps")
        elif voted and (await self.member.state(self.entered(slot)))[0].stage is Stage.SPENT:
            save(self.folder / f"{slot}.stand", b"leaves")
        question = self.given_up(slot)
        if self.is_quorum(stands["keeps"]):
            if self.chain and bit is not None and (await self.member.propose(question, False))[0].stands is None:
                bit = None  # once the slot is settled, nobody would propose this again
            return bit, False
        if not stands["leaves"]:
            return None, False
        if self.is_quorum(stands["leaves"]) or bit is not None:
            await self.member.propose(question, self.is_quorum(stands["leaves"]))
        given_up = await self.decision(question)
        return (bit if given_up is False else None), given_up is True

    async def decision(self, question: int) -> bool | None:
        """Returns what this witness's member decided, waiting a moment for it."""
        try:
            return await self.member.wait(question, timeout=0.1)
        except Undecided:
            return None

    async def fetch(self, digest: str) -> bytes:
        """Returns the bytes of a hash that a correct witness holds."""
        while True:
            for witness in (self.me, *range(self.n)):
                with suppress(ValueError, IndexError):  # it lies, or has no answer
                    value = bytes.fromhex((await say(witness, f"GET {digest}"))[0])
                    if hashlib.sha256(value).hexdigest() == digest:
                        return save(self.folder / f"{digest}.value", value)
            await asyncio.sleep(0.1)

    async def run(self) -> None:
        socket = Path(f"witness-{self.me}.socket")
        socket.unlink(missing_ok=True)
        async with self.member, await asyncio.start_unix_server(self.serve, socket):
            print("ready", flush=True)
            slots = {slot: asyncio.create_task(self.settle(slot)) for slot in range(min(WINDOW, self.slots))}
            # It is made anew from what is on the disk and what the member tells.
            with Path(f"ledger-{self.me}").open("w", encoding="utf-8") as ledger:
                for slot in range(self.slots):
                    value = await slots.pop(slot)
                    if slot + WINDOW < self.slots:
                        slots[slot + WINDOW] = asyncio.create_task(self.settle(slot + WINDOW))
                    print(slot, "(empty)" if value is None else value.decode(), file=ledger, flush=True)


async def main(what: str, *words: str) -> None:
    settings = Settings.read("client.toml")
    if what == "witness":
        await Witness(int(words[0]), settings).run()
    values = [os.fsencode(text).hex() for text in words[1:]]
    for witness in range(settings.n if what in ("put", "lie") else 0):
        await say(witness, f"PUT {words[0]} {values[witness * len(values) // settings.n]}")


asyncio.run(main(*sys.argv[1:]))
