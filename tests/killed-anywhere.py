#!/usr/bin/env python3
"""tests/killed-anywhere.py [--step K] [--jobs J] [PROGRAM]

Kills the program (SIGKILL) at each of its system calls in turn, and looks at what it leaves:

- `init`: the file is missing, empty or a whole journal without records, and `init` then makes it or says that it is there.
- `run` of member 0 of four: a client proposes 1 on question 0 and 0 on question 1, the three peers, which this script is,
  send all that decides both, each in one piece, so a group; then its input ends. After the kill the journal opens; what the
  peers read is a beginning of what it says was said, in its order; a proposal and a decision that the client was told of are
  in it. Then the member runs once more, unharmed, decides both, and says all that it had said again, and first.
- `run` of a chain with one member and two questions an epoch, over four epochs: after the kill the journals open and none is
  missing among them. Then the chain runs once more, unharmed: it starts, holds each proposal and decision that the client was
  told of, and decides all slots; no journal is left half made.

It wants a C compiler, for the tracer (tests/kill_at.c; it is no part of the product), and takes the ports from 27500 on.
--step K tries each Kth call alone, --jobs J so many runs side by side (4). PROGRAM is crates/bracha/out/bracha unless another
is named. The last line is `N passed, M failed`: kills.
"""
import argparse
import concurrent.futures
import os
import queue
import socket
import subprocess
import sys
import tempfile
import threading
import time

TOP = os.path.dirname(os.path.dirname(os.path.realpath(__file__)))
N, PORTS = 4, 27500
KINDS = {"initial": 1, "echo": 2, "ready": 3}
VALUES = {"zero": 0, "one": 1, "sure-zero": 2, "sure-one": 3, "unsure": 4}
BITS = {0: 1, 1: 0}
KILLED = 200


class Wrong(Exception):
    """What isn't as it has to be."""


def check(holds, words):
    if not holds:
        raise Wrong(words)


def frame(kind, question, origin, step, value):
    return bytes([0, 8, 3, kind, 0, question, origin, 1, step, value])


def all_that_decides(sender):
    """What a peer says in round 1 of both questions, where everybody holds the same bit."""
    said = b""
    for question, bit in BITS.items():
        for step in (1, 2, 3):
            value = bit + 2 if step == 3 else bit
            said += frame(1, question, sender, step, value)
            for kind in (2, 3):
                said += b"".join(frame(kind, question, origin, step, value) for origin in range(N))
    return said


def whole(stream, count):
    """So many bytes, or nothing where the stream ends first."""
    read = b""
    while len(read) < count:
        try:
            piece = stream.recv(count - len(read))
        except OSError:
            piece = b""
        if not piece:
            return None
        read += piece
    return read


class Peer(threading.Thread):
    """A member's other end: takes its link and keeps the statements that come, and has one to it."""

    def __init__(self, me, ports):
        super().__init__(daemon=True)
        self.me, self.ports, self.said, self.stream = me, ports, b"", None
        self.door = socket.create_server(("127.0.0.1", ports + me))

    def run(self):
        try:
            stream, _ = self.door.accept()
            if whole(stream, 18) is None:
                return
            stream.sendall(bytes([0, 9, 2, 0, 0, 0, 0, 0, 0, 0, 0]))
            while (length := whole(stream, 2)) is not None:
                body = whole(stream, int.from_bytes(length, "big"))
                if body is None:
                    return
                # one statement, or behind their count several, each as a frame of its own
                if body[0] == 3:
                    self.said += length + body
                elif body[0] == 4:
                    self.said += b"".join(b"\0\x08\x03" + body[at : at + 7] for at in range(2, len(body), 7))
        except OSError:
            pass

    def send(self):
        """All that decides, over a link of its own, which stays open."""
        try:
            self.stream = socket.create_connection(("127.0.0.1", self.ports))
            self.stream.sendall(bytes([0, 16, 1, 1, *(7).to_bytes(8, "big"), N, 1, 0, 16, self.me, 0]))
            if whole(self.stream, 11) is not None:
                self.stream.sendall(all_that_decides(self.me))
        except OSError:
            pass

    def close(self):
        """Ends what waits for the member too."""
        self.door.shutdown(socket.SHUT_RDWR)
        self.door.close()
        if self.stream:
            self.stream.close()


class Run:
    """One life of the member, with what its peers read and its client was told."""

    def __init__(self, words, folder, ports, environment=None):
        self.peers = [Peer(me, ports) for me in range(1, N)]
        for peer in self.peers:
            peer.start()
        self.desk, self.told = ports + 10, {}
        pipe = subprocess.PIPE
        self.process = subprocess.Popen(words, cwd=folder, env=environment, stdin=pipe, stdout=pipe, stderr=subprocess.DEVNULL)
        self.ready = self.process.stdout.readline() == b"member 0 ready\n"

    def ask(self, line):
        try:
            with socket.create_connection(("127.0.0.1", self.desk)) as stream:
                stream.sendall(line + b"\n")
                return stream.makefile("rb").readline().decode("ascii").strip()
        except OSError:
            return ""

    def go(self):
        """Proposes, lets the peers speak, and waits until both are decided or the member is gone. Its status."""
        if self.ready:
            for question, bit in BITS.items():
                self.told["propose", question] = self.ask(b"PROPOSE %d %d" % (question, bit))
            for peer in self.peers:
                peer.send()
            until = time.monotonic() + 20
            for question in BITS:
                while self.process.poll() is None and time.monotonic() < until:
                    said = self.ask(b"ASK %d" % question)
                    self.told["ask", question] = said or self.told.get(("ask", question), "")
                    if said.startswith("DECIDED"):
                        break
                    time.sleep(0.002)
        try:
            self.process.stdin.close()
        except OSError:
            pass
        status = self.process.wait(timeout=30)
        self.process.stdout.close()
        for peer in self.peers:
            peer.join(timeout=1)
            peer.close()
        return status


def dumped(program, journal):
    """The statements of a journal as frames, and its decisions."""
    shown = subprocess.run([program, "dump", journal], capture_output=True, text=True)
    check(shown.returncode == 0, f"dump: {shown.stderr.strip()}")
    said, decided = [], {}
    for words in map(str.split, shown.stdout.splitlines()[1:]):
        if words[0] == "decided":
            check(words[1] not in decided, "decided twice")
            decided[int(words[1])] = int(words[3])
        else:
            question, origin, round_, step = map(int, words[1:5])
            said.append(bytes([0, 8, 3, KINDS[words[0]], 0, question, origin, round_, step, VALUES[words[5]]]))
    return said, decided


def settings_in(folder, ports):
    peers = ", ".join(f'"127.0.0.1:{ports + it}"' for it in range(N))
    with open(f"{folder}/member.toml", "w", encoding="ascii") as file:
        file.write(f'cluster = 7\nn = {N}\nt = 1\nquestions = 16\nme = 0\njournal = "journal"\npeers = [{peers}]\n'
                   f'desk = "127.0.0.1:{ports + 10}"\nseed = "{"5a" * 32}"\n')


def killed(tools, at, words, folder):
    tracer, program = tools
    return [tracer, str(at), program, *words], {**os.environ, "KILL_AT_SAYS": f"{folder}/calls"}


def init_killed(tools, at, folder, ports):
    """Whether `init` came to its end, killed at a call of its."""
    settings_in(folder, ports)
    words, environment = killed(tools, at, ["init", "member.toml"], folder)
    status = subprocess.run(words, cwd=folder, env=environment).returncode
    check(status in (0, KILLED), f"status {status}")
    journal, program = f"{folder}/journal", tools[1]
    there = os.path.exists(journal) and os.path.getsize(journal) > 0
    if there:
        check(dumped(program, journal) == ([], {}), "the journal has records")
    again = subprocess.run([program, "init", "member.toml"], cwd=folder, capture_output=True, text=True)
    check(again.returncode == (1 if there else 0), f"init again: {again.stderr.strip()}")
    check(dumped(program, journal) == ([], {}), "the journal has records")
    return status == 0


def check_told(run, said, decided):
    for peer in run.peers:
        check(b"".join(said).startswith(peer.said), f"peer {peer.me} read what the journal hasn't")
    for question, bit in BITS.items():
        if run.told.get(("propose", question)) == "OK":
            check(any(it[3] == 1 and it[5] == question and it[7:9] == b"\1\1" for it in said), f"the proposal of {question} is gone")
        words = run.told.get(("ask", question), "")
        if words.startswith("DECIDED"):
            check(words == f"DECIDED {bit}" and decided.get(question) == bit, f"the decision of {question} is gone")


def run_killed(tools, at, folder, ports):
    """Whether `run` came to its end, killed at a call of its."""
    settings_in(folder, ports)
    program = tools[1]
    subprocess.run([program, "init", "member.toml"], cwd=folder, check=True)
    words, environment = killed(tools, at, ["run", "member.toml"], folder)
    first = Run(words, folder, ports, environment)
    status = first.go()
    check(status in (0, KILLED), f"status {status}")
    opens = subprocess.run([program, "check", "member.toml"], cwd=folder, capture_output=True, text=True)
    check(opens.returncode == 0, f"check: {opens.stderr.strip()}")
    said, decided = dumped(program, f"{folder}/journal")
    check_told(first, said, decided)
    second = Run([program, "run", "member.toml"], folder, ports)
    check(second.ready, "it doesn't start again")
    check(second.go() == 0, "it doesn't end well")
    at_last, decided = dumped(program, f"{folder}/journal")
    check(at_last[:len(said)] == said, "what was said is said otherwise")
    check(decided == BITS, f"decided {decided}")
    check_told(second, at_last, decided)
    return status == 0


SLOTS = {slot: slot // 2 % 2 ^ slot % 2 for slot in range(8)}


class ChainRun:
    """One life of a chain's only member, with what its client was told."""

    def __init__(self, words, folder, desk, environment=None):
        pipe = subprocess.PIPE
        self.process = subprocess.Popen(words, cwd=folder, env=environment, stdin=pipe, stdout=pipe, stderr=subprocess.DEVNULL)
        self.ready, self.desk = self.process.stdout.readline() == b"member 0 ready\n", desk
        self.taken, self.decided = set(), {}

    def go(self):
        """Proposes slot by slot, waits for the decision of each, and ends the input. Its status."""
        try:
            if self.ready:
                self.ask_all()
            self.process.stdin.close()
        except OSError:
            pass
        status = self.process.wait(timeout=30)
        self.process.stdout.close()
        return status

    def ask_all(self):
        with socket.create_connection(("127.0.0.1", self.desk), timeout=20) as stream:
            lines = stream.makefile("rb")
            for slot, bit in SLOTS.items():
                stream.sendall(b"PROPOSE %d %d\n" % (slot, bit))
                if lines.readline() == b"OK\n":
                    self.taken.add(slot)
                stream.sendall(b"AWAIT %d\n" % slot)
                said = lines.readline()
                if said.startswith(b"DECIDED "):
                    self.decided[slot] = int(said[8:])


def noted(folder):
    """The newest epoch of which the folder has had a journal, as is noted, or -1."""
    try:
        with open(f"{folder}/epochs/newest", encoding="ascii") as file:
            return int(file.read())
    except FileNotFoundError:
        return -1


def chain_killed(tools, at, folder, ports):
    """Whether `run` of a chain came to its end, killed at a call of its."""
    program, desk = tools[1], ports + 10
    with open(f"{folder}/member.toml", "w", encoding="ascii") as file:
        file.write(f'cluster = 7\nn = 1\nt = 0\nquestions = 2\nme = 0\njournal = "journal"\nepochs = "epochs"\n'
                   f'peers = ["127.0.0.1:{ports}"]\ndesk = "127.0.0.1:{desk}"\nseed = "{"5a" * 32}"\n')
    subprocess.run([program, "init", "member.toml"], cwd=folder, check=True)
    words, environment = killed(tools, at, ["run", "member.toml"], folder)
    first = ChainRun(words, folder, desk, environment)
    status = first.go()
    check(status in (0, KILLED), f"status {status}")
    names = [name for name in os.listdir(f"{folder}/epochs") if name.endswith(".journal")]
    check(sorted(names) == [f"{epoch}.journal" for epoch in range(len(names))], f"journals {sorted(names)}")
    told, newest = {}, noted(folder)
    for epoch in range(len(names)):
        said, decided = dumped(program, f"{folder}/epochs/{epoch}.journal")
        check(not said or epoch <= newest, f"something is said in epoch {epoch}, and {newest} is noted")
        told.update({2 * epoch + question: bit for question, bit in decided.items()})
        proposed = {2 * epoch + it[5] for it in said if it[3] == 1 and it[7:9] == b"\1\1"}
        check({slot for slot in first.taken if slot // 2 == epoch} <= proposed, f"a proposal in epoch {epoch} is gone")
    check(all(told.get(slot) == bit == SLOTS[slot] for slot, bit in first.decided.items()), "a decision is gone")
    second = ChainRun([program, "run", "member.toml"], folder, desk)
    check(second.ready, "it doesn't start again")
    check(second.go() == 0, "it doesn't end well")
    check(second.decided == SLOTS, f"decided {second.decided}")
    check(not [name for name in os.listdir(f"{folder}/epochs") if name.endswith(".new")], "a journal is left half made")
    check(noted(folder) == len(os.listdir(f"{folder}/epochs")) - 2, f"{noted(folder)} is noted")
    return status == 0


def tries(how, tools, at, room, ports):
    """An answer: whether the program came to its end, or what is wrong."""
    try:
        with tempfile.TemporaryDirectory(dir=room) as folder:
            return how(tools, at, folder, ports), None
    except (Wrong, subprocess.SubprocessError, OSError) as trouble:
        return False, f"{how.__name__.removesuffix('_killed')} at call {at}: {trouble}"


def sweep(how, tools, room, step, jobs):
    """Kills at each call until the program comes to its end more than a few times: how many passed, and what is wrong."""
    free = queue.Queue()
    for it in range(jobs):
        free.put(PORTS + 20 * it)

    def one(at):
        ports = free.get()
        try:
            return tries(how, tools, at, room, ports)
        finally:
            free.put(ports)

    passed, troubles, ended, at = 0, [], 0, 1
    with concurrent.futures.ThreadPoolExecutor(jobs) as pool:
        while ended < 2 * jobs and len(troubles) < 20:
            batch = [at + step * it for it in range(4 * jobs)]
            for is_whole, trouble in pool.map(one, batch):
                if trouble:
                    troubles.append(trouble)
                    print(trouble, flush=True)
                elif is_whole:
                    ended += 1
                else:
                    passed += 1
            at = batch[-1] + step
    return passed, troubles


def main():
    parser = argparse.ArgumentParser(usage=__doc__)
    parser.add_argument("--step", type=int, default=1)
    parser.add_argument("--jobs", type=int, default=4)
    parser.add_argument("program", nargs="?", default=f"{TOP}/crates/bracha/out/bracha")
    words = parser.parse_args()
    passed, failed = 0, 0
    with tempfile.TemporaryDirectory(prefix="bracha-killed.") as room:
        tools = f"{room}/kill_at", os.path.realpath(words.program)
        subprocess.run([os.environ.get("CC", "cc"), "-O2", "-o", tools[0], f"{TOP}/tests/kill_at.c"], check=True)
        for how in (init_killed, run_killed, chain_killed):
            some, troubles = sweep(how, tools, room, words.step, words.jobs)
            print(f"{how.__name__.removesuffix('_killed')}: killed at {some} calls", flush=True)
            passed, failed = passed + some, failed + len(troubles)
    print(f"{passed} passed, {failed} failed")
    return 1 if failed else 0


if __name__ == "__main__":
    sys.exit(main())
