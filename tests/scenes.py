#!/usr/bin/env python3
"""tests/scenes.py [PROGRAM [SCENE..]]

Plays the scenes of tests/scenes.txt: members that run, peers and clients that this script plays, and what each has to see. PROGRAM is
crates/bracha/out/bracha unless another is named. It takes ports from 26000 on, two for each member of a scene, and half a minute, with all
scenes side by side.
Prints what is wrong, and in its last line `N passed, M failed`; the status is 1 where M isn't 0.

A scene is a line `scene NAME` and lines of steps up to the next one; `#` begins a comment. M is a member, P one that this script plays,
L a connection's name (c1..c9 are nine), S seconds, HEX bytes.

    cluster N T [QUESTIONS] [elsewhere]   the size; elsewhere: the other members' addresses are of another host
    seed BYTE              the seeds are of this byte in two digits
    start M [OPTION..]     runs a member, until `end`; `full`: its files may have no byte more
    end M STATUS           ends it: it has the status within five seconds
    ends M STATUS S        it ends by itself within that time
    kill M
    ask M LINE -> REPLY    a new client is told so, within 15 seconds
    client L M [COUNT]     clients of a desk: L, or L1 to LCOUNT
    say L LINE -> REPLY    on its connection
    late L LINE -> REPLY   not in the first two seconds, but within 15
    listen P               at its address
    accept L P             the next link that a member dials to it, within ten seconds
    dial L M [COUNT]       links to a member
    write L HEX            bytes; {hello P M V C} is the Hello of P to M, in version V and cluster C
    read L HEX             these bytes come
    hear L HEX             this frame comes, perhaps behind Idles
    close L, closed L S, open L S   closes it; the other side closes it within that time; doesn't
    idle L                 says an Idle a second from now on
    refused M COUNT HEX    links that begin so are closed, one after the other
    strangers M COUNT      so are links that begin as no Hello does, each of another host
    come M P COUNT         links from members P, P + 1 .. 63 and from 1 on again: each is welcomed, and leaves
    soon L S HEX           the same, within that time
    log M LINE             the next line of its log, but lines on peers that can't be reached
    log M LINE | LINE      these two, in either order
    told M WORDS           a line of its log begins so, soon; few M COUNT WORDS: at most that many do (both are regular expressions)
    lines M COUNT          so many lines are told, soon
    saved M HEX            its journal has these bytes behind its header
    held M, freed M        nobody reads its log meanwhile; it is read again
    coin L L L             the member at whose other end these links are, the first one dialled by it, comes to a coin: its seed's
    files M                it has as many files open as at the last such step, or not twenty more
    asks M COUNT LINE -> REPLY   so many new clients, one after the other, are told so
    wait S
"""
import concurrent.futures
import contextlib
import fcntl
import json
import os
import re
import resource
import shutil
import signal
import socket
import struct
import subprocess
import sys
import tempfile
import threading
import time

TOP = os.path.dirname(os.path.dirname(os.path.realpath(__file__)))
sys.path.insert(0, f"{TOP}/tests/reference")

from rounds import block  # noqa: E402  # pylint: disable=wrong-import-position,wrong-import-order

PROGRAM = os.path.realpath(sys.argv[1] if len(sys.argv) > 1 else f"{TOP}/crates/bracha/out/bracha")
IDLE = bytes.fromhex("000100")
WELCOME = 11


class Wrong(Exception):
    """A step that isn't as the scene says."""


def expect(holds, what):
    if not holds:
        raise Wrong(what)


def soon(tries, seconds):
    end = time.monotonic() + seconds
    while time.monotonic() < end:
        if tries():
            return True
        time.sleep(0.02)
    return bool(tries())


def hello(me, to, version, cluster, size):
    n, t, questions = size
    return struct.pack(">HBBQBBHBB", 16, 1, version, cluster, n, t, questions, me, to)


def toss_of(seed, number):
    """A toss of stream 0 of a seed: two words of ChaCha20, the low half first."""
    words = block(struct.unpack("<8I", seed), number // 8, 0)
    return words[number % 8 * 2] | words[number % 8 * 2 + 1] << 32


def full():
    """Lets the process write no byte behind what its files have."""
    signal.signal(signal.SIGXFSZ, signal.SIG_IGN)
    resource.setrlimit(resource.RLIMIT_FSIZE, (25, 25))


class Member:
    """A member that runs, and the lines of its log."""

    def __init__(self, path, options):
        words = [it for it in options if it != "full"]
        self.process = subprocess.Popen([PROGRAM, "run", "--log", *words, path], stdin=subprocess.PIPE, stdout=subprocess.PIPE,
                                        stderr=subprocess.PIPE, preexec_fn=full if "full" in options else None)
        fcntl.fcntl(self.process.stderr, fcntl.F_SETPIPE_SZ, 4096)
        self.lines, self.seen, self.reading = [], 0, threading.Event()
        self.reading.set()
        threading.Thread(target=self.read, daemon=True).start()
        line = self.process.stdout.readline()
        expect(b"ready" in line, f"{path} isn't ready")
        self.files = 0

    def read(self):
        for line in self.process.stderr:
            self.reading.wait()
            told = re.fullmatch(r"\d{4}-\d\d-\d\dT[\d:.]+Z (.*)\n", line.decode())
            if told and not re.match(r"link-to \d+ unreachable", told[1]):
                self.lines.append(told[1])

    def next_line(self):
        expect(soon(lambda: len(self.lines) > self.seen, 12), f"no line behind {self.lines[-3:]}")
        self.seen += 1
        return self.lines[self.seen - 1]

    def open_files(self):
        return len(os.listdir(f"/proc/{self.process.pid}/fd"))

    def close(self):
        self.process.kill()
        self.process.wait()
        for stream in (self.process.stdin, self.process.stdout, self.process.stderr):
            with contextlib.suppress(OSError):
                stream.close()


class Scene:
    """The state of a scene: its members, connections and listeners."""

    def __init__(self, folder, port):
        self.folder, self.port, self.members, self.links, self.listeners, self.idling = folder, port, {}, {}, {}, []
        self.seed = None

    # What the lines of a scene do: each is a method of its first word.

    def cluster(self, n, t, questions="1", elsewhere=None):
        if questions == "elsewhere":
            questions, elsewhere = "1", "elsewhere"
        self.size = int(n), int(t), int(questions)
        self.elsewhere = elsewhere is not None

    def do_seed(self, byte):
        self.seed = byte

    def address(self, member):
        return "127.0.0.1", self.port + int(member)

    def desk(self, member):
        return "127.0.0.1", self.port + self.size[0] + int(member)

    def path(self, me):
        return f"{self.folder}/member-{me}.toml"

    def start(self, me, *options):
        n, t, questions = self.size
        peers = [f"127.0.0.{2 if self.elsewhere and it != int(me) else 1}:{self.port + it}" for it in range(n)]
        seed = self.seed * 32 if self.seed else f"{int(me) + 1:064x}"
        with open(self.path(me), "w", encoding="ascii") as file:
            file.write(f'cluster = 7\nn = {n}\nt = {t}\nquestions = {questions}\nme = {me}\njournal = "{self.folder}/member-{me}.journal"\n'
                       f'peers = {json.dumps(peers)}\ndesk = "127.0.0.1:{self.desk(me)[1]}"\nseed = "{seed}"\n')
        if not os.path.exists(f"{self.folder}/member-{me}.journal"):
            subprocess.run([PROGRAM, "init", self.path(me)], check=True)
        self.members[me] = Member(self.path(me), options)

    def end(self, me, status):
        self.members[me].process.stdin.close()
        self.ends(me, status, 5)

    def ends(self, me, status, seconds):
        process = self.members[me].process
        try:
            is_so = process.wait(float(seconds))
        except subprocess.TimeoutExpired:
            is_so = "runs on"
        expect(str(is_so) == status, f"ends with {is_so}")

    def kill(self, me):
        self.members[me].close()

    def ask(self, me, line, reply):
        said = []

        def tries():
            with contextlib.suppress(OSError), socket.create_connection(self.desk(me), timeout=5) as link:
                link.sendall(line.encode() + b"\n")
                said.append(link.makefile("r").readline().strip())
            return said[-1:] == [reply]

        expect(soon(tries, 15), f"is told {said[-1:]}")

    def asks(self, me, counted, reply):
        count, _, line = counted.partition(" ")
        for _ in range(int(count)):
            self.ask(me, line, reply)

    def connect(self, address, name, count):
        names = [name] if count is None else [f"{name}{it + 1}" for it in range(int(count))]
        for it in names:
            self.links[it] = socket.create_connection(address, timeout=5)

    def client(self, name, me, count=None):
        self.connect(self.desk(me), name, count)

    def dial(self, name, me, count=None):
        self.connect(self.address(me), name, count)

    def reply(self, name, line, seconds):
        link = self.links[name]
        link.settimeout(seconds)
        if line:
            link.sendall(line.encode() + b"\n")
        got = b""
        with contextlib.suppress(TimeoutError):
            while not got.endswith(b"\n") and (piece := link.recv(1)):
                got += piece
        return got.decode().strip()

    def named(self, name):
        """The connections of a name, or of names such as c1..c32."""
        first = re.fullmatch(r"([a-z]+)(\d+)\.\.\1(\d+)", name)
        return [f"{first[1]}{it}" for it in range(int(first[2]), int(first[3]) + 1)] if first else [name]

    def say(self, name, line, reply):
        for it in self.named(name):
            is_so = self.reply(it, line, 5)
            expect(is_so == reply, f"{it} is told {is_so!r}")

    def late(self, name, line, reply):
        is_so = self.reply(name, line, 2)
        expect(is_so == "", f"is told {is_so!r} at once")
        is_so = self.reply(name, "", 15)
        expect(is_so == reply, f"is told {is_so!r}")

    def listen(self, peer):
        self.listeners[peer] = socket.create_server(self.address(peer))

    def accept(self, name, peer):
        self.listeners[peer].settimeout(10)
        self.links[name], _ = self.listeners[peer].accept()
        self.links[name].settimeout(5)

    def bytes_of(self, words):
        text = re.sub(r"\{hello (\d+) (\d+) (\d+) (\d+)\}", lambda m: hello(*(int(it) for it in m.groups()), self.size).hex(), " ".join(words))
        return bytes.fromhex(text.replace(" ", ""))

    def write(self, name, *words):
        for it in self.named(name):
            self.links[it].sendall(self.bytes_of(words))

    def exactly(self, name, count):
        got = b""
        while len(got) < count:
            piece = self.links[name].recv(count - len(got))
            expect(piece, f"{name} is closed behind {got.hex()}")
            got += piece
        return got

    def read(self, name, *words):
        wanted = self.bytes_of(words)
        is_so = self.exactly(name, len(wanted))
        expect(is_so == wanted, f"reads {is_so.hex()}")

    def next_frame(self, name):
        """The next frame that is no Idle, perhaps behind some of them."""
        for _ in range(100):
            head = self.exactly(name, 2)
            frame = head + self.exactly(name, int.from_bytes(head, "big"))
            if frame != IDLE:
                return frame
        raise Wrong("Idles alone")

    def hear(self, name, *words):
        is_so, wanted = self.next_frame(name), self.bytes_of(words)
        expect(is_so == wanted, f"hears {is_so.hex()}")

    def soon(self, name, seconds, *words):
        begun = time.monotonic()
        self.hear(name, *words)
        expect(time.monotonic() - begun < float(seconds), f"hears it after {time.monotonic() - begun:.2f} s")

    def close(self, name):
        for it in self.named(name):
            self.links[it].close()

    def is_closed(self, name, seconds):
        link = self.links[name]
        end = time.monotonic() + seconds
        while (left := end - time.monotonic()) > 0:
            link.settimeout(left)
            try:
                if not link.recv(4096):
                    return True
            except TimeoutError:
                return False
            except OSError:
                return True
        return False

    def closed(self, name, seconds):
        for it in self.named(name):
            expect(self.is_closed(it, float(seconds)), f"{it} stays open")

    def open(self, name, seconds):
        for it in self.named(name):
            expect(not self.is_closed(it, float(seconds)), f"{it} is closed")

    def idle(self, name):
        link = self.links[name]

        def say_idles():
            with contextlib.suppress(OSError):
                while True:
                    link.sendall(IDLE)
                    time.sleep(1)

        threading.Thread(target=say_idles, daemon=True).start()

    def refused(self, me, count, *words):
        for _ in range(int(count)):
            self.connect(self.address(me), "refused", None)
            self.write("refused", *words)
            self.closed("refused", 5)
            self.links.pop("refused").close()

    def strangers(self, me, count):
        for number in range(int(count)):
            host = f"127.1.{number >> 8}.{number & 255}"
            with socket.create_connection(self.address(me), timeout=5, source_address=(host, 0)) as link:
                link.sendall(b"GET /")
                with contextlib.suppress(ConnectionResetError):
                    expect(not link.recv(1), f"{host} is answered")

    def come(self, me, first, count):
        came, peer = 0, int(first)
        for _ in range(int(count)):
            with contextlib.suppress(OSError), socket.create_connection(self.address(me), timeout=5) as link:
                link.sendall(hello(peer, int(me), 2, 7, self.size))
                came += len(link.recv(WELCOME)) == WELCOME
            peer = peer % (self.size[0] - 1) + 1
        expect(came > int(count) * 9 // 10, f"came {came} times")

    def log(self, me, line):
        wanted = line.split(" | ")
        is_so = [self.members[me].next_line() for _ in wanted]
        expect(sorted(is_so) == sorted(wanted), f"tells {is_so}")

    def few(self, me, count, pattern):
        told = [it for it in self.members[me].lines if re.match(pattern, it)]
        expect(len(told) <= int(count), f"tells {told}")

    def told(self, me, pattern):
        lines = self.members[me].lines
        expect(soon(lambda: any(re.match(pattern, it) for it in lines), 12), f"tells {lines[-5:]}")

    def lines(self, me, count):
        lines = self.members[me].lines
        expect(soon(lambda: len(lines) >= int(count), 12), f"tells {lines}")

    def saved(self, me, *words):
        with open(f"{self.folder}/member-{me}.journal", "rb") as file:
            is_so = file.read()[24:]
        expect(is_so == self.bytes_of(words), f"has saved {is_so.hex()}")

    def held(self, me):
        self.members[me].reading.clear()

    def freed(self, me):
        self.members[me].reading.set()

    def files(self, me):
        member = self.members[me]
        before, member.files = member.files, member.open_files()
        if before:
            expect(soon(lambda: member.open_files() < before + 20, 10), f"has {member.open_files()} files open, and {before} before")

    def wait(self, seconds):
        time.sleep(float(seconds))

    # The Readys that lead a member that proposes 0 to a coin: origin, step and value. The first votes are two for 0 and two for 1, the
    # second ones one and two, and the third ones are for neither.
    READYS = ((0, 1, 0), (1, 1, 0), (2, 1, 1), (3, 1, 1), (1, 2, 0), (2, 2, 1), (3, 2, 1), (1, 3, 4), (2, 3, 4), (3, 3, 4))

    def coin(self, name, first, second):
        """The toss with which a member heard its last Ready, on the link to itself, is its coin: that of stream 0 of its seed."""
        for origin, step, value in self.READYS:
            frame = bytes((0, 8, 3, 3, 0, 0, origin, 1, step, value))
            for link in (first, second):
                self.links[link].sendall(frame)
                time.sleep(0.1)
        last = 0
        for count in range(1, 100):
            frame = self.next_frame(name)
            kind, _, _, origin, round_, step, value = frame[3:]
            if (kind, origin, round_, step) == (3, 3, 1, 3):
                last = count
            if (kind, origin, round_, step) == (1, 0, 2, 1):
                expect(value == toss_of(bytes.fromhex(self.seed * 32), last) % 2, f"says {value} by toss {last}")
                return
        raise Wrong("no Initial of round 2")

    def leave(self):
        for member in self.members.values():
            member.close()
        for end in (*self.links.values(), *self.listeners.values()):
            end.close()


def parts_of(step):
    """The method of a step, and its words. What stands behind `->` or is a line of a log is one word."""
    if step.startswith(("log ", "told ")):
        return step.split(" ", 2)[0], step.split(" ", 2)[1:]
    if step.startswith("few "):
        return "few", step.split(" ", 3)[1:]
    if " -> " in step:
        said, _, reply = step.partition(" -> ")
        words = said.split(" ", 2)
        return words[0], [*words[1:], *([""] if len(words) == 2 else []), reply]
    words = step.split(" ")
    return {"seed": "do_seed"}.get(words[0], words[0]), words[1:]


def play(folder, port, steps):
    """What is wrong with a scene: the first step that isn't as it says."""
    scene = Scene(folder, port)
    try:
        for number, step in steps:
            name, words = parts_of(step)
            try:
                getattr(scene, name)(*words)
            except (Wrong, OSError) as error:
                return [f"{number}: {step}: {error}"]
        rest = {me: it.lines[it.seen:] for me, it in scene.members.items() if it.seen and it.lines[it.seen:]}
        return [f"a log tells more: {rest}"] if rest else []
    finally:
        scene.leave()


def scenes_of(path):
    """The scenes of a file: a name, and the steps with the numbers of their lines."""
    found = {}
    with open(path, encoding="ascii") as file:
        for number, line in enumerate(file, 1):
            step = line.rstrip("\n")
            if step.startswith("scene "):
                name = step.removeprefix("scene ")
                found[name] = []
            elif step and not step.startswith("#"):
                found[name].append((number, step))
    return found


def main():
    hard = resource.getrlimit(resource.RLIMIT_NOFILE)[1]
    resource.setrlimit(resource.RLIMIT_NOFILE, (min(4096, hard), hard))
    room = tempfile.mkdtemp(prefix="bracha-scenes-")
    scenes = {name: steps for name, steps in scenes_of(f"{TOP}/tests/scenes.txt").items() if not sys.argv[2:] or name in sys.argv[2:]}
    failed = 0
    with concurrent.futures.ThreadPoolExecutor(6) as pool:
        waiting, port = {}, 26000
        for number, (name, steps) in enumerate(scenes.items()):
            os.makedirs(f"{room}/{number}")
            waiting[name] = pool.submit(play, f"{room}/{number}", port, steps)
            # Two ports a member, those of its links and its desk, which no other scene has: a member dials all of its peers.
            port += 2 * next(int(step.split(" ")[1]) for _, step in steps if step.startswith("cluster "))
        for name, found in waiting.items():
            wrong = found.result()
            failed += 1 if wrong else 0
            for line in wrong:
                print(f"{name}: {line}"[:500])
    shutil.rmtree(room)
    print(f"{len(scenes) - failed} passed, {failed} failed")
    sys.exit(1 if failed else 0)


if __name__ == "__main__":
    main()
