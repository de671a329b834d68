"""Members of a cluster that runs for a test, and desks of members that are faulty."""

import os
import random
import socket
import subprocess
import tempfile
import threading
import time
from pathlib import Path


class Fake:
    """A desk that answers each line by what a function of the line yields: texts, seconds to wait, and None to close the connection."""

    def __init__(self, answer):
        self._answer = answer
        self._listener = socket.create_server(("127.0.0.1", 0), backlog=64)
        self.desk = f"127.0.0.1:{self._listener.getsockname()[1]}"
        self.lines = []
        self.links, self.ended = [], 0
        self._closed = threading.Event()
        threading.Thread(target=self._accept, daemon=True).start()

    def _accept(self):
        while True:
            try:
                link, _ = self._listener.accept()
            except OSError:
                return
            self.links.append(link)
            threading.Thread(target=self._serve, args=(link,), daemon=True).start()

    def _serve(self, link):
        with link:
            try:
                with link.makefile("r") as lines:
                    for line in lines:
                        self.lines.append(line.strip())
                        for reply in self._answer(line.strip()):
                            if reply is None:
                                return
                            if not isinstance(reply, float):
                                link.sendall(reply.encode())
                            elif self._closed.wait(reply):
                                return
            except OSError:
                pass
            finally:
                self.ended += 1

    def close(self):
        self._closed.set()
        for end in (self._listener, *self.links):
            try:
                end.shutdown(socket.SHUT_RDWR)
            except OSError:
                pass
        self._listener.close()


def says(reply):
    """What a desk does that gives this reply to each line."""
    return lambda line: [reply + "\n"]


def silent(line):
    """What a desk does that never replies."""
    yield 60.0


def comes(holds):
    """Waits until this holds, for ten seconds at most, and returns whether it does."""
    end = time.monotonic() + 10
    while not holds() and time.monotonic() < end:
        time.sleep(0.05)
    return holds()


def closed_port():
    """Returns a desk at which nobody listens."""
    with socket.create_server(("127.0.0.1", 0)) as listener:
        return f"127.0.0.1:{listener.getsockname()[1]}"


def links_to(fakes):
    """Returns how many connections to these desks this process has open."""
    ports, count = {int(fake.desk.rpartition(":")[2]) for fake in fakes}, 0
    for file in os.listdir("/proc/self/fd"):
        try:
            if os.readlink(f"/proc/self/fd/{file}").startswith("socket:"):
                with socket.socket(fileno=os.dup(int(file))) as link:
                    count += link.getpeername()[1] in ports
        except (OSError, TypeError, IndexError):
            pass
    return count


def free_ports():
    """Returns a port below 32768 that is free, as the next three are, and the four from ten above it."""
    while True:
        first = random.randrange(10000, 32700)
        try:
            for port in (*range(first, first + 4), *range(first + 10, first + 14)):
                socket.create_server(("127.0.0.1", port)).close()
        except OSError:
            continue
        return first


class Members:
    """Four members of the program, in a folder of their own."""

    def __init__(self, program, questions, *more):
        self._program = program
        self._more = more  # options of new-cluster
        self._room = tempfile.TemporaryDirectory()
        self._running = {}
        for _ in range(20):
            try:
                self._begin(questions)
                return
            except RuntimeError:  # another process took a port meanwhile
                self._kill_all()
        raise RuntimeError("no free ports")

    def _begin(self, questions):
        first = free_ports()
        self.path = Path(self._room.name) / str(first)
        size = ("--cluster", "7", "--n", "4", "--t", "1", "--questions", str(questions))
        self._do("new-cluster", *self._more, *size, "--port", str(first), str(self.path))
        for member in range(4):
            self._do("init", f"member-{member}.toml", cwd=self.path)
            self.start(member)

    def _do(self, *arguments, cwd=None):
        subprocess.run([self._program, *arguments], check=True, capture_output=True, cwd=cwd)

    @property
    def client(self):
        return self.path / "client.toml"

    def start(self, member):
        process = subprocess.Popen([self._program, "run", "--stay", f"member-{member}.toml"], cwd=self.path, stdin=subprocess.DEVNULL,
                                   stdout=subprocess.PIPE, stderr=subprocess.DEVNULL)
        self._running[member] = process
        if b"ready" not in process.stdout.readline():
            raise RuntimeError(f"member {member} isn't ready")

    def kill(self, member):
        process = self._running.pop(member)
        process.kill()
        process.wait()
        process.stdout.close()

    def restart(self, member):
        """Kills a member, and starts it again."""
        self.kill(member)
        for _ in range(20):
            try:
                return self.start(member)
            except RuntimeError:  # another process had the port for a moment
                self.kill(member)
                time.sleep(0.2)

    def put_away(self, member, epochs):
        """Kills a member of a chain, puts the journals of its first epochs away, and starts it again."""
        self.kill(member)
        for epoch in range(epochs):
            (self.path / f"member-{member}.epochs" / f"{epoch}.journal").unlink()
        self.start(member)

    def _kill_all(self):
        for member in list(self._running):
            self.kill(member)

    def close(self):
        self._kill_all()
        self._room.cleanup()


class Kills:
    """Kills one of these members after the other, and starts it again, until `close`."""

    def __init__(self, members, which):
        self._members, self._which = members, which
        self._stop = threading.Event()
        self._thread = threading.Thread(target=self._kill)
        self._thread.start()

    def _kill(self):
        # A member that was started again has its links within a second or so: more kills would leave no time for decisions.
        while not self._stop.wait(0.2):
            member = random.choice(self._which)
            self._members.kill(member)
            self._stop.wait(0.1)
            for _ in range(20):
                try:
                    self._members.start(member)
                    break
                except RuntimeError:  # another process had the port for a moment
                    self._members.kill(member)
                    time.sleep(0.2)
            self._stop.wait(1.5)

    def close(self):
        self._stop.set()
        self._thread.join()


PROGRAM = os.environ.get("BRACHA")
