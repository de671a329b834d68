#!/usr/bin/env python3
"""tests/epochs.py [--long] [PROGRAM]

Chains of epochs: four members of 16 questions an epoch, run as their users run them. PROGRAM is crates/bracha/out/bracha unless
another is named. It takes the ports 27000 to 27999 and about a minute; with --long it decides 100,000 slots with 200 kills and a
liar, and 16,000 over a thousand epochs, which takes a quarter of an hour. Prints each check that fails, and in its last line
`N passed, M failed`; the status is 1 if M isn't 0.

What members tell of slots is compared with what was proposed to them.
"""
import concurrent.futures
import contextlib
import fcntl
import os
import random
import re
import signal
import socket
import struct
import subprocess
import sys
import tempfile
import threading
import time

TOP = os.path.dirname(os.path.dirname(os.path.realpath(__file__)))
LONG = "--long" in sys.argv
WORDS = [word for word in sys.argv[1:] if word != "--long"]
PROGRAM = os.path.realpath(WORDS[0] if WORDS else f"{TOP}/crates/bracha/out/bracha")
CLUSTER = 1000


class Wrong(Exception):
    """What isn't as it has to be."""


def expect(holds, what):
    if not holds:
        raise Wrong(what)


class Desk:
    """A connection to a member's desk, made again if it is cut."""

    def __init__(self, port):
        self.port = port
        self.stream = None

    def connect(self, limit=20.0):
        end = time.monotonic() + limit
        while True:
            try:
                self.stream = socket.create_connection(("127.0.0.1", self.port), timeout=30)
                self.stream.setsockopt(socket.IPPROTO_TCP, socket.TCP_NODELAY, 1)
                self.lines = self.stream.makefile("rb")
                return
            except OSError:
                if time.monotonic() > end:
                    raise
                time.sleep(0.05)

    def ask(self, *lines):
        """The replies to the lines; all of them are said again if the connection is cut, for half a minute."""
        end = time.monotonic() + 30.0
        while time.monotonic() < end:
            try:
                if self.stream is None:
                    self.connect()
                self.stream.sendall("".join(f"{line}\n" for line in lines).encode())
                replies = [self.lines.readline().decode() for _ in lines]
                if all(reply.endswith("\n") for reply in replies):
                    return [reply[:-1] for reply in replies]
            except OSError:
                pass
            self.close()
            time.sleep(0.1)
        raise Wrong(f"the desk at {self.port} doesn't answer {lines[0]}")

    def close(self):
        if self.stream is not None:
            with contextlib.suppress(OSError):
                self.stream.close()
        self.stream = None


class Chain:
    """A cluster of members of a chain."""

    def __init__(self, port, questions=16, n=4, t=1, hosts=None):
        self.port, self.questions, self.n, self.t = port, questions, n, t
        self.hosts = hosts or ["127.0.0.1"] * n
        self.folder = tempfile.mkdtemp(prefix="epochs-")
        self.runs = {}
        self.seeds = [os.urandom(32) for _ in range(n)]
        for me in range(n):
            self.write_settings(me)
            done = subprocess.run([PROGRAM, "init", self.settings(me)], capture_output=True, check=False)
            expect(done.returncode == 0, f"init ends with {done.returncode}: {done.stderr}")

    def settings(self, me):
        return f"{self.folder}/member-{me}.toml"

    def journals(self, me):
        return f"{self.folder}/{me}.epochs"

    def epochs(self, me):
        """The epochs of which the member has a journal."""
        return sorted(int(name.removesuffix(".journal")) for name in os.listdir(self.journals(me)) if name.endswith(".journal"))

    def client(self):
        """The path of the client's settings."""
        path = f"{self.folder}/client.toml"
        write_client(path, [self.port + 50 + me for me in range(self.n)], self.t, self.questions)
        return path

    def write_settings(self, me):
        peers = ", ".join(f'"{host}:{self.port + peer}"' for peer, host in enumerate(self.hosts))
        with open(self.settings(me), "w", encoding="ascii") as file:
            file.write(
                f'cluster = {CLUSTER}\nn = {self.n}\nt = {self.t}\nquestions = {self.questions}\nme = {me}\n'
                f'journal = "{self.folder}/{me}.journal"\nepochs = "{self.journals(me)}"\npeers = [{peers}]\n'
                f'desk = "127.0.0.1:{self.port + 50 + me}"\nseed = "{self.seeds[me].hex()}"\n'
            )

    def start(self, me, limit=20.0):
        out = open(f"{self.folder}/{me}.out", "wb")
        log = open(f"{self.folder}/{me}.log", "ab")
        run = subprocess.Popen([PROGRAM, "run", "--stay", "--log", self.settings(me)], stdout=out, stderr=log)
        self.runs[me] = run
        end = time.monotonic() + limit
        while time.monotonic() < end:
            if run.poll() is not None:
                raise Wrong(f"member {me} ends with {run.returncode}: {self.log(me)[-300:]}")
            with open(f"{self.folder}/{me}.out", encoding="ascii") as file:
                if file.read() == f"member {me} ready\n":
                    # Who is ready listens.
                    for port in (self.port + me, self.port + 50 + me):
                        socket.create_connection((self.hosts[me], port) if port < self.port + 50 else ("127.0.0.1", port), timeout=5).close()
                    return
            time.sleep(0.01)
        raise Wrong(f"member {me} isn't ready")

    def log(self, me):
        with open(f"{self.folder}/{me}.log", encoding="utf-8") as file:
            return file.read()

    def kill(self, me):
        self.runs[me].send_signal(signal.SIGKILL)
        self.runs[me].wait()
        del self.runs[me]

    def desk(self, me):
        return Desk(self.port + 50 + me)

    def end(self):
        for me in list(self.runs):
            with contextlib.suppress(KeyError):
                self.kill(me)

    def status(self, me, key):
        with open(f"/proc/{self.runs[me].pid}/status", encoding="ascii") as file:
            return int(re.search(rf"^{key}:\s+(\d+)", file.read(), re.M).group(1))


def write_client(path, ports, t, questions):
    desks = ", ".join(f'"127.0.0.1:{port}"' for port in ports)
    with open(path, "w", encoding="ascii") as file:
        file.write(f"cluster = {CLUSTER}\nn = {len(ports)}\nt = {t}\nquestions = {questions}\ndesks = [{desks}]\nchain = true\n")


def told_epochs(client, *words):
    """What `bracha epochs` prints, its status, and the seconds that it takes."""
    begun = time.monotonic()
    done = subprocess.run([PROGRAM, "epochs", *words, client], capture_output=True, text=True, check=False, timeout=60)
    return done.stdout + done.stderr, done.returncode, time.monotonic() - begun


def decide(desks, bits, slots, width=16):
    """Proposes to all of these desks, and waits for each slot at each of them."""
    for begin in range(0, len(slots), width):
        part = slots[begin:begin + width]
        for desk in desks:
            for slot, reply in zip(part, desk.ask(*[f"PROPOSE {slot} {bits[slot]}" for slot in part])):
                expect(reply in ("OK", f"HAVE {bits[slot]}"), f"PROPOSE {slot}: {reply}")
        for desk in desks:
            await_all(desk, bits, part)


def await_all(desk, bits, slots, limit=60.0):
    end = time.monotonic() + limit
    left = list(slots)
    while left:
        replies = desk.ask(*[f"AWAIT {slot}" for slot in left])
        for slot, reply in zip(left, replies):
            expect(reply in ("UNDECIDED", f"DECIDED {bits[slot]}"), f"AWAIT {slot}: {reply}")
        left = [slot for slot, reply in zip(left, replies) if reply == "UNDECIDED"]
        expect(not left or time.monotonic() < end, f"{left[:3]} aren't decided at {desk.port}")


def drawn(count):
    return [random.getrandbits(1) for _ in range(count)]


@contextlib.contextmanager
def chain(port, starts=4, **words):
    it = Chain(port, **words)
    try:
        for me in range(starts):
            it.start(me)
        yield it
    finally:
        it.end()


def slots_over_many_epochs():
    """Slots are decided over ten epochs, each desk tells them, and the words of a desk are as they are to be."""
    with chain(27000) as it:
        bits = drawn(160)
        desks = [it.desk(me) for me in range(4)]
        decide(desks, bits, range(160))
        for desk in desks:
            replies = desk.ask(*[f"ASK {slot}" for slot in range(160)])
            expect(replies == [f"DECIDED {bit}" for bit in bits], f"ASK: {replies}")
            replies = desk.ask("STATE 3", "ASK 160", "STATE 160", "ASK 100000", "PROPOSE 18446744073709551615 1",
                               "ASK 18446744073709551616", "ASK 99999999999999999999", "ASK 123456789012345678901",
                               "PROPOSE 160 2", "ASK", "ASK  5", "PROPOSE 5", "HELLO", "PROPOSE 0 1\r")
            expect(replies[:5] == [f"DECIDED {bits[3]}", "UNDECIDED", "UNPROPOSED", "UNDECIDED", "ERR 2 question"], f"{replies}")
            expect(replies[5:8] == ["ERR 2 question", "ERR 2 question", "ERR 1 line"], f"{replies}")
            expect(replies[8:13] == ["ERR 3 bit", "ERR 1 line", "ERR 1 line", "ERR 1 line", "ERR 1 line"], f"{replies}")
            expect(replies[13] in (f"HAVE {bits[0]}", "OK"), f"{replies}")
            # Slots past the epoch in front, and slots of epochs that have ended, in lines that aren't as they are to be.
            replies = desk.ask("PROPOSE 700 2", "PROPOSE 701", "PROPOSE 702 1 1", "ASK 700 1", "STATE 3 x", "AWAIT 3 ", "STATE 700", "ASK 3")
            expect(replies == ["ERR 3 bit", *["ERR 1 line"] * 5, "UNPROPOSED", f"DECIDED {bits[3]}"], f"{replies}")
            # What is wrong first of slots that there are not, and lines that no slot makes so long.
            replies = desk.ask("ASK 99999999999999999999 x", "PROPOSE 99999999999999999999", "PROPOSE 18446744073709551615 2",
                               "x" * 1024 + "ASK 400", "x" * 3000, "ASK 19")
            expect(replies == ["ERR 1 line", "ERR 1 line", "ERR 2 question", "ERR 1 line", "ERR 1 line", f"DECIDED {bits[19]}"], f"{replies}")
        # A link that an epoch refuses before it runs is of version 2 all the same.
        old = [line for me in range(4) for line in it.log(me).splitlines() if "version 1" in line]
        expect(old == [], f"{len(old)} links of version 1: {old[:2]}")
        expect(it.epochs(0)[:11] == list(range(11)), f"{it.epochs(0)}")


def dumps_name_their_clusters():
    """Each epoch's journal is one of a cluster of its own, and no two epochs toss the same coins: the seeds are by hash."""
    with chain(27100) as it:
        bits = drawn(48)
        decide([it.desk(me) for me in range(4)], bits, range(48))
        it.end()
        for epoch in range(3):
            done = subprocess.run([PROGRAM, "dump", f"{it.journals(1)}/{epoch}.journal"], capture_output=True, check=False)
            expect(done.returncode == 0, f"dump: {done.stderr}")
            expect(f"cluster {CLUSTER + epoch}".encode() in done.stdout.split(b"\n")[0], f"{done.stdout[:80]}")


def restarts():
    """Members that are killed in turn come back, tell what was decided before, and decide on."""
    with chain(27200) as it:
        bits = drawn(128)
        desks = [it.desk(me) for me in range(4)]
        for begin in range(0, 128, 16):
            decide(desks, bits, range(begin, begin + 16), 8)
            me = (begin // 16) % 4
            it.kill(me)
            it.start(me)
        for desk in desks:
            replies = desk.ask(*[f"ASK {slot}" for slot in range(128)])
            expect(replies == [f"DECIDED {bit}" for bit in bits], f"ASK: {replies}")


def comeback():
    """A member that was down for ten epochs comes back and answers for all of them, though nobody proposes anything more."""
    with chain(27300, starts=3) as it:
        bits = drawn(176)
        decide([it.desk(me) for me in range(3)], bits, range(170))
        it.start(3)
        begun = time.monotonic()
        await_all(it.desk(3), bits, range(160), 120.0)
        print(f"  caught up with ten epochs in {time.monotonic() - begun:.1f} s")
        decide([it.desk(me) for me in range(4)], bits, range(170, 176))


def told_by(follower, count, limit=20.0):
    """The slots that a follower is told until it knows so many, or nothing comes for as long."""
    told, end = [], time.monotonic() + limit
    while len(told) < count and time.monotonic() < end:
        words = follower.lines.readline().split()
        told += [int(words[1])] if words else []
    return told


def followers():
    """A follower is told each slot once, epoch by epoch, over kills of its member."""
    with chain(27400) as it:
        bits = drawn(96)
        told = []

        def follow():
            number = 0
            while number < 96:
                try:
                    desk = it.desk(2)
                    desk.connect()
                    desk.stream.sendall(f"FOLLOW {number}\n".encode())
                    while number < 96:
                        line = desk.lines.readline().decode()
                        if not line.endswith("\n"):
                            break
                        if line != "\n":
                            told.append(line[:-1])
                            number += 1
                except OSError:
                    time.sleep(0.05)

        thread = threading.Thread(target=follow, daemon=True)
        thread.start()
        desks = [it.desk(me) for me in range(4)]
        decide(desks, bits, range(40))
        it.kill(2)
        it.start(2)
        decide(desks, bits, range(40, 96))
        thread.join(30)
        expect(len(told) == 96, f"{len(told)} lines")
        expect(sorted(told) == sorted(f"DECIDED {slot} {bit}" for slot, bit in enumerate(bits)), "other lines")
        epochs = [int(line.split()[1]) // 16 for line in told]
        expect(epochs == sorted(epochs), f"{epochs}")


def quiet():
    """Epochs behind end: two in front are left, with their threads; and a client that stays is handed on."""
    with chain(27500) as it:
        bits = drawn(640)
        stays = it.desk(0)
        stays.ask("ASK 0")
        decide([it.desk(me) for me in range(4)], bits, range(640))
        end = time.monotonic() + 40
        while it.status(0, "Threads") > 36 and time.monotonic() < end:
            time.sleep(0.5)
        expect(it.status(0, "Threads") <= 36, f"{it.status(0, 'Threads')} threads")
        stream = stays.stream
        expect(stays.ask("ASK 5", "ASK 639") == [f"DECIDED {bits[5]}", f"DECIDED {bits[639]}"], "another decision")
        expect(stays.stream is stream, "its connection was cut")


def ends():
    """A chain ends by SIGTERM and by itself as one member does, and says what is missing."""
    it = Chain(27600)
    try:
        it.start(0)
        it.runs[0].send_signal(signal.SIGTERM)
        expect(it.runs[0].wait(5) in (0, -signal.SIGTERM), f"ends with {it.runs[0].returncode}")
        del it.runs[0]
        # Nor does a link or a client that says nothing hold it up: SIGTERM is blocked from the start, as a supervisor may have it.
        blocked = ["env", "--block-signal=TERM,INT", PROGRAM, "run", "--stay", it.settings(0)]
        with subprocess.Popen(blocked, stdout=subprocess.PIPE) as run:
            expect(run.stdout.readline() == b"member 0 ready\n", "isn't ready")
            silent = [socket.create_connection(("127.0.0.1", port)) for port in (it.port, it.port, it.port + 50)]
            time.sleep(0.5)
            run.terminate()
            try:
                expect(run.wait(4) == 0, f"ends with {run.returncode}")
            except subprocess.TimeoutExpired:
                run.kill()
                raise Wrong("a silent link holds its end up") from None
            for stream in silent:
                stream.close()
        os.remove(f"{it.journals(0)}/0.journal")
        for name in os.listdir(it.journals(0)):
            os.remove(f"{it.journals(0)}/{name}")
        done = subprocess.run([PROGRAM, "run", "--stay", it.settings(0)], capture_output=True, check=False, timeout=10)
        expect(done.returncode == 1 and b"bracha init" in done.stderr, f"{done.returncode} {done.stderr}")
        it.start(1)
        with open(f"{it.journals(1)}/1.journal.new", "wb") as file:
            file.write(b"half")
        expect(it.runs[1].poll() is None, "it ended")
    finally:
        it.end()


def put_away():
    """Slots of journals that were put away are gone; one that is missing among the others ends the member, and names it."""
    with chain(27800) as it:
        bits = drawn(80)
        desks = [it.desk(me) for me in range(4)]
        decide(desks, bits, range(80))
        it.kill(1)
        for epoch in (0, 1):
            os.remove(f"{it.journals(1)}/{epoch}.journal")
        it.start(1)
        desks[1].close()
        replies = desks[1].ask("ASK 0", "AWAIT 31", "PROPOSE 16 1", "TRANSCRIPT 3", "STATE 5", "ASK 32", "ASK 79")
        expect(replies == ["ERR 5 gone"] * 5 + [f"DECIDED {bits[32]}", f"DECIDED {bits[79]}"], f"{replies}")
        it.kill(1)
        os.rename(f"{it.journals(1)}/3.journal", f"{it.folder}/3.journal")
        done = subprocess.run([PROGRAM, "run", "--stay", it.settings(1)], capture_output=True, check=False, timeout=20)
        expect(done.returncode == 1 and b"3.journal" in done.stderr, f"{done.returncode} {done.stderr}")


@contextlib.contextmanager
def made_up_desks(port, replies):
    """The path of the settings of a client of desks that reply so to `EPOCHS`. One that replies None says nothing."""
    listeners = [socket.create_server(("127.0.0.1", port + me)) for me in range(len(replies))]
    held = []

    def answers(listener, reply):
        with contextlib.suppress(OSError):
            while True:
                stream, _ = listener.accept()
                held.append(stream)
                if stream.makefile("rb").readline() == b"EPOCHS\n" and reply is not None:
                    stream.sendall(reply)

    for listener, reply in zip(listeners, replies):
        threading.Thread(target=answers, args=(listener, reply), daemon=True).start()
    with tempfile.TemporaryDirectory(prefix="epochs-") as folder:
        write_client(f"{folder}/client.toml", [port + me for me in range(len(replies))], 0, 16)
        try:
            yield f"{folder}/client.toml"
        finally:
            for it in listeners + held:
                with contextlib.suppress(OSError):
                    it.shutdown(socket.SHUT_RDWR)
                it.close()


def a_journal_that_is_gone():
    """A member whose journal is removed or replaced while its epoch runs is stopped within seconds; one behind the newest was put away."""
    with chain(27440) as it:
        desks = [it.desk(me) for me in range(4)]
        bits = drawn(40)
        decide(desks, bits, range(40))  # epoch 2 is the newest, and a slot of it is left
        await_closed(it.client(), 2)
        for me in (0, 1):
            path = f"{it.journals(me)}/2.journal"
            os.rename(path, f"{path}.aside")
            if me == 1:
                with open(f"{path}.aside", "rb") as file, open(path, "wb") as copy:
                    copy.write(file.read())
            expect(it.runs[me].wait(10) == 1, f"member {me} ends with {it.runs[me].returncode}")
            said = "bracha: stopped\n" + f"{path}: the file was removed or replaced while the member ran\n"
            expect(it.log(me).endswith(said), f"member {me} says {it.log(me)[-300:]}")
            del it.runs[me]
            os.rename(f"{path}.aside", path)
            it.start(me)
        # Epoch 2 goes on behind the newest, since one of its slots is open.
        for desk in desks:
            desk.close()
        desks[0].ask("PROPOSE 45 1")
        decide(desks, {50: 1}, [50])
        os.rename(f"{it.journals(0)}/2.journal", f"{it.folder}/2.journal")
        end = time.monotonic() + 10
        while desks[0].ask("ASK 45") != ["ERR 5 gone"]:
            expect(it.runs[0].poll() is None and time.monotonic() < end, f"it isn't put away: {it.log(0)[-300:]}")
            time.sleep(0.1)
        expect(desks[0].ask("ASK 50", "ASK 20") == ["DECIDED 1", f"DECIDED {bits[20]}"], "it lost the others")


def epochs_of_made_up_desks():
    """`bracha epochs` tells the least number if all tell one, `closed unknown` else, and ends with its time."""
    with made_up_desks(27960, [b"EPOCHS 41 43\n", b"EPOCHS 40 43\n", b"EPOCHS 18446744073709551615 18446744073709551615\n"]) as client:
        said, status, took = told_epochs(client)
        most = 2**64 - 1
        lines = f"member 0 closed 41 newest 43\nmember 1 closed 40 newest 43\nmember 2 closed {most} newest {most}\nclosed 40\n"
        expect((said, status) == (lines, 0) and took < 5, f"all told: {said} {status} {took}")
        said, status, _ = told_epochs(client, "--json")
        objects = f'{{"member":0,"closed":41,"newest":43}},{{"member":1,"closed":40,"newest":43}},{{"member":2,"closed":{most},"newest":{most}}}'
        expect((said, status) == (f'{{"members":[{objects}],"closed":40}}\n', 0), f"JSON: {said} {status}")
    # One is silent, others have a number of 21 digits, one that is missing, one too many, and no reply of a desk.
    strange = [b"EPOCHS 1 2\n", None, b"EPOCHS 123456789012345678901 5\n", b"EPOCHS 5\n", b"EPOCHS 5 6 7\n", b"ERR 1 line\n", b"\xff\x00\n", b"UP 5 1\n"]
    with made_up_desks(27970, strange) as client:
        said, status, took = told_epochs(client, "--timeout", "1.5")
        replies = ["closed 1 newest 2", *["no answer"] * 4, "ERR 1 line", "no answer", "UP 5 1"]
        lines = "".join(f"member {me} {reply}\n" for me, reply in enumerate(replies)) + "closed unknown\n"
        expect((said, status) == (lines, 1) and 1.2 < took < 4, f"strange replies: {said} {status} {took}")
        said, status, _ = told_epochs(client, "--json", "--timeout", "0.5")
        nothing = ",".join(f'{{"member":{me},"closed":null,"newest":null}}' for me in range(1, 8))
        expect((said, status) == (f'{{"members":[{{"member":0,"closed":1,"newest":2}},{nothing}],"closed":null}}\n', 1), f"JSON: {said} {status}")
    said, status, _ = told_epochs("/nowhere/client.toml")
    expect(status == 1 and said.startswith("bracha: file\n"), f"no file: {said} {status}")


def await_closed(client, least):
    """The number of epochs that all members have closed, once it is so great, and what is printed then."""
    begun = time.monotonic()
    said, status, closed = "", 1, 0
    while closed < least and time.monotonic() < begun + 60:
        time.sleep(0.5)
        said, status, _ = told_epochs(client)
        last = re.search(r"^closed (\d+)$", said, re.M)
        closed = int(last.group(1)) if last else 0
    expect(closed >= least and status == 0, f"too few are closed: {said} {status}")
    print(f"  closed {closed} after {time.monotonic() - begun:.1f} s")
    return closed, said


def put_away_while_it_runs():
    """Journals that are put away while their member runs end nothing, whoever asks for their epochs; their slots are gone then."""
    with chain(27800) as it:
        bits = drawn(96)
        decide([it.desk(me) for me in range(4)], bits, range(96))
        await_closed(it.client(), 3)
        for epoch in (0, 1):
            os.remove(f"{it.journals(0)}/{epoch}.journal")
        for epoch in (0, 1, 0, 1):
            with socket.create_connection(("127.0.0.1", it.port), timeout=5) as stream:
                stream.sendall(hello(it, epoch, 3, 0))
                time.sleep(0.5)
        desk = it.desk(0)
        replies = desk.ask("ASK 0", "PROPOSE 16 1", "TRANSCRIPT 3", f"ASK {95}", "ASK 17")
        expect(it.runs[0].poll() is None, f"it ends: {it.log(0)[-300:]}")
        expect(replies == ["ERR 5 gone"] * 3 + [f"DECIDED {bits[95]}", "ERR 5 gone"], f"{replies}")
        said = subprocess.run([PROGRAM, "ask", f"127.0.0.1:{desk.port}", "5"], capture_output=True, text=True, check=False)
        expect((said.stdout, said.returncode) == ("ERR 5 gone\n", 1), f"ask: {said}")
        await_closed(it.client(), 3)


def closed_epochs():
    """All members close old epochs, which `bracha epochs` tells; and not while one of them is down."""
    with chain(27900) as it:
        bits = drawn(96)
        decide([it.desk(me) for me in range(4)], bits, range(96))
        client = it.client()
        closed, said = await_closed(client, 1)
        told = re.findall(r"^member (\d) closed (\d+) newest (\d+)$", said, re.M)
        expect([int(me) for me, _, _ in told] == [0, 1, 2, 3] and closed == min(int(first) for _, first, _ in told), f"{said}")
        expect(all(int(newest) == 5 and int(first) <= 5 for _, first, newest in told), f"{said}")
        it.kill(2)
        said, status, _ = told_epochs(client, "--timeout", "5")
        expect(status == 1 and "\nmember 2 no answer\n" in said and said.endswith("\nclosed unknown\n"), f"one is down: {said} {status}")
        for epoch in range(closed):
            os.remove(f"{it.journals(2)}/{epoch}.journal")
        it.start(2)
        replies = it.desk(2).ask("ASK 0", f"ASK {16 * closed}")
        expect(replies == ["ERR 5 gone", f"DECIDED {bits[16 * closed]}" if 16 * closed < 96 else "UNDECIDED"], f"{replies}")
        # A proposal of a closed epoch's slot is answered by that epoch's member.
        replies = it.desk(3).ask("PROPOSE 0 0", "PROPOSE 1 1", "ASK 1")
        expect(replies == [f"HAVE {bits[0]}", f"HAVE {bits[1]}", f"DECIDED {bits[1]}"], f"{replies}")


def asks_for_closed_epochs():
    """A peer has two epochs at most run again that are closed, as long as it asks, and nobody has one run in the name of another host's
    member."""
    with chain(27020, starts=3, hosts=["127.0.0.1", "127.0.0.1", "127.0.0.1", "127.0.0.9"]) as it:
        bits = drawn(96)
        decide([it.desk(me) for me in range(3)], bits, range(96))
        desk = it.desk(0)

        def await_first(least):
            end = time.monotonic() + 40
            while int(desk.ask("EPOCHS")[0].split()[1]) < least:
                expect(time.monotonic() < end, f"{desk.ask('EPOCHS')} after 40 s")
                time.sleep(0.25)

        def ready():
            return [int(epoch) for epoch in re.findall(r"epoch (\d+) ready", it.log(0))]

        def asks(epochs, me):
            links = []
            for epoch in epochs:
                links.append(socket.create_connection(("127.0.0.1", it.port), timeout=5, source_address=("127.0.0.9", 0)))
                links[-1].sendall(hello(it, epoch, me, 0))
            time.sleep(2)
            for link in links:
                link.close()

        # The others may still have those run that ended last.
        await_first(4)
        before = len(ready())
        asks([0], 2)
        expect(0 not in ready()[before:], "in another's name epoch 0 runs again")
        asks([0, 1, 2], 3)
        again = set(ready()[before:]) & {0, 1, 2}
        expect(1 <= len(again) <= 2, f"for one peer {again} run again")
        await_first(4)
        # Epochs that never run, for which it asks no more after five seconds.
        asks([10**6, 10**6 + 1], 3)
        time.sleep(6)
        before = len(ready())
        asks([0], 3)
        expect(0 in ready()[before:], "a peer that asked for others has no epoch run again")


def half_decided_epochs_end():
    """Epochs in which slots were never proposed end and stay so, once newer ones are there: nobody keeps another one awake."""
    with chain(27120) as it:
        bits = drawn(64)
        slots = [slot for slot in range(64) if slot % 16 < 4]
        decide([it.desk(me) for me in range(4)], bits, slots)
        time.sleep(4)
        it.kill(2)
        it.start(2)
        closed, _ = await_closed(it.client(), 2)
        before = [len(re.findall(r"epoch [01] ready", it.log(me))) for me in range(4)]
        time.sleep(8)
        after = [len(re.findall(r"epoch [01] ready", it.log(me))) for me in range(4)]
        expect(after == before, f"epochs run again that {closed} say are closed: {before}, {after}")


def late_decisions_are_told_once():
    """A follower is told what is decided late in epochs that it passed, and nothing again; while there is nothing, an empty line."""
    with chain(27180, starts=1, n=1, t=0, questions=2) as it:
        bits, told, beats = drawn(6), [], []

        def wait(what, holds):
            end = time.monotonic() + 40
            while not holds():
                expect(time.monotonic() < end, f"{what}: {told}, {it.log(0)}")
                time.sleep(0.1)

        def decides(slots):
            decide([it.desk(0)], bits, slots)

        decides([0, 2, 4])
        wait("epochs 0 and 1 don't end", lambda: all(f"epoch {epoch} end" in it.log(0) for epoch in (0, 1)))
        # The client is at the desk of epoch 2 when it begins to follow, and stays there.
        follower = it.desk(0)
        follower.ask("ASK 4")
        follower.stream.sendall(b"FOLLOW 0\n")

        def listen():
            with contextlib.suppress(OSError):
                for line in map(bytes.decode, follower.lines):
                    (beats if line == "\n" else told).append(line)

        threading.Thread(target=listen, daemon=True).start()
        wait("what was decided isn't told", lambda: len(told) == 3)
        lines = {slot: f"DECIDED {slot} {bits[slot]}\n" for slot in range(6)}
        for slot in (3, 1):
            decides([slot])
            wait(f"slot {slot} isn't told", lambda: lines[slot] in told)
        time.sleep(4)
        decides([5])
        wait("slot 5 isn't told", lambda: lines[5] in told)
        wait("no empty line comes", lambda: beats)
        expect(told == [lines[slot] for slot in (0, 2, 4, 3, 1, 5)], f"{told}")


def epochs_that_run_on_are_told():
    """While a slot of each of two old epochs is open, since it was proposed to one member alone, followers of this one are told what was
    decided there, proposals in other old epochs are answered, and it tells how it stands in the newest."""
    with chain(27260, questions=2) as it:
        bits = drawn(8)
        desks = [it.desk(me) for me in range(4)]
        for slot in (0, 2, 4):
            decide(desks, bits, [slot])
            expect(slot == 4 or desks[0].ask(f"PROPOSE {slot + 1} 1") == ["OK"], "another reply")
        decide(desks, bits, [6, 7])
        time.sleep(14)
        expect("epoch 0 end" not in it.log(0) and "epoch 2 end" in it.log(0), f"other epochs end: {it.log(0)}")
        replies = desks[0].ask("STATE 1", "STATUS")
        expect(replies[0] != "UNPROPOSED" and replies[1].endswith(" 2"), f"it stands so in the newest: {replies}")
        follower = it.desk(0)
        follower.connect()
        follower.stream.sendall(b"FOLLOW 0\n")
        told = told_by(follower, 5)
        expect(told == [0, 2, 4, *told[3:]] and sorted(told[3:]) == [6, 7], f"{told}")
        begun = time.monotonic()
        expect(desks[0].ask("PROPOSE 5 1") == ["OK"] and time.monotonic() - begun < 8, f"a proposal takes {time.monotonic() - begun:.1f} s")


def a_burst_over_an_end_is_told():
    """Slots of two epochs that are proposed at once, after a rest in which followers could have passed the first, are told to all of them."""
    with chain(27280) as it:
        bits = drawn(34)
        desks, followers = [it.desk(me) for me in range(4)], [it.desk(me) for me in range(4)]
        for follower in followers:
            follower.connect()
            follower.stream.sendall(b"FOLLOW 0\n")
        told = [[] for _ in followers]
        for first, last in ((0, 18), (18, 34)):
            decide(desks, bits, range(first, last - 4))
            time.sleep(12)
            decide(desks, bits, range(last - 4, last))
            for slots, follower in zip(told, followers):
                slots += told_by(follower, last - first)
        for me, slots in enumerate(told):
            expect(sorted(slots) == list(range(34)), f"a follower of {me} isn't told {sorted(set(range(34)) - set(slots))}")


def an_await_ends_with_its_epoch():
    """Who waits for a slot far ahead is answered when the epoch at whose desk it waits ends, and keeps its connection."""
    with chain(27190, starts=1, n=1, t=0, questions=2) as it:
        bits = drawn(10)
        desk = it.desk(0)
        begun = time.monotonic()
        desk.connect()
        desk.stream.sendall(b"AWAIT 30\n")
        time.sleep(0.3)
        decide([it.desk(0)], bits, range(8))
        line = desk.lines.readline()
        took = time.monotonic() - begun
        expect(line == b"UNDECIDED\n" and took < 9, f"{line} after {took:.1f} s: {it.log(0)}")
        desk.stream.sendall(b"ASK 7\nAWAIT 9\n")
        expect(desk.lines.readline() == f"DECIDED {bits[7]}\n".encode(), "another reply behind it")
        decide([it.desk(0)], bits, [8, 9])
        expect(desk.lines.readline() == f"DECIDED {bits[9]}\n".encode(), "another reply to the next AWAIT")


def a_client_outlasts_its_epoch():
    """Who waits for an open slot of an epoch that ends is answered then, and asks on over the same connection. So do clients that ask three
    times a second."""
    with chain(27195, starts=1, n=1, t=0, questions=2) as it:
        bits = drawn(6)
        decide([it.desk(0)], bits, [0, 2, 4])
        polls, stop, cut = [it.desk(0) for _ in range(8)], threading.Event(), []

        def ask_often(poll):
            poll.connect()
            while not stop.wait(0.3):
                poll.stream.sendall(b"ASK 0\n")
                if poll.lines.readline() != f"DECIDED {bits[0]}\n".encode():
                    cut.append(poll)
                    return

        threads = [threading.Thread(target=ask_often, args=(poll,), daemon=True) for poll in polls]
        for thread in threads:
            thread.start()
        time.sleep(6)
        desk = it.desk(0)
        desk.connect()
        for lines, replies in (("AWAIT 1\nASK 0", ["UNDECIDED", f"DECIDED {bits[0]}"]), ("ASK 2", [f"DECIDED {bits[2]}"]), ("AWAIT 1", ["UNDECIDED"])):
            begun = time.monotonic()
            desk.stream.sendall(f"{lines}\n".encode())
            said = [desk.lines.readline().decode() for _ in replies]
            expect(said == [f"{reply}\n" for reply in replies], f"{lines!r}: {said} after {time.monotonic() - begun:.1f} s: {it.log(0)}")
        stop.set()
        for thread in threads:
            thread.join()
        expect(not cut, f"{len(cut)} that ask often are cut: {it.log(0)}")


def who_waits_for_a_place_outlasts_the_epoch():
    """A client that waits for a place at the desk of an epoch that ends has its reply all the same."""
    with chain(27198, starts=1, n=1, t=0, questions=2) as it:
        decide([it.desk(0)], drawn(6), [0, 2, 4])
        time.sleep(6)
        clients = [it.desk(0) for _ in range(33)]
        for client in clients:
            client.connect()
            client.stream.sendall(b"AWAIT 1\n")
        replies = [client.lines.readline() for client in clients]
        expect(replies == [b"UNDECIDED\n"] * 33, f"{replies}: {it.log(0)}")


def who_waits_for_too_long_is_closed():
    """While sixteen epochs run in which nothing can be decided, a client of another old one is closed after half a minute. One that says
    nothing meanwhile, as it may for ten minutes, isn't."""
    with chain(27210, starts=1, questions=2) as it:
        idle = it.desk(0)
        idle.ask("STATUS")
        stream = idle.stream
        clients = [it.desk(0) for _ in range(18)]
        for client, slot in zip(clients, [*range(0, 32, 2), 80, 50]):
            client.connect()
            client.stream.settimeout(60)
            client.stream.sendall(f"PROPOSE {slot} 1\n".encode())
            time.sleep(0.3)
        begun = time.monotonic()
        replies = [client.lines.readline() for client in clients]
        took = time.monotonic() - begun
        expect(replies == [b"OK\n"] * 17 + [b""] and 25 < took < 45, f"{replies} after {took:.1f} s")
        expect(it.desk(0).ask("ASK 0", "EPOCHS") == ["UNDECIDED", "EPOCHS 0 40"], "other replies")
        expect(idle.ask("ASK 0") == ["UNDECIDED"] and idle.stream is stream, "a client that said nothing is cut")


def epochs_of_which_nobody_was_heard_stay_open():
    """A member that comes back while all others are down closes none of the epochs that it missed, however long nothing happens: what the
    others decided in them is still to be heard."""
    with chain(27240, starts=1, questions=2) as it:
        desk = it.desk(0)
        expect(desk.ask("PROPOSE 6 1") == ["OK"], "another reply")
        begun = time.monotonic()
        while time.monotonic() < begun + 13:
            said = desk.ask("EPOCHS")
            expect(said == ["EPOCHS 0 3"], f"{said} after {time.monotonic() - begun:.1f} s: {it.log(0)}")
            time.sleep(0.5)


def missed_epochs_are_made_up_for():
    """A member that was down for eleven epochs, and to which slots of the newest are proposed as soon as it is back, learns all that was
    decided meanwhile, tells its followers all of it, and calls no epoch closed before."""
    with chain(27220, starts=3) as it:
        bits = drawn(180)
        decide([it.desk(me) for me in range(3)], bits, range(176))
        end = time.monotonic() + 40
        while int(it.desk(0).ask("EPOCHS")[0].split()[1]) < 10 and time.monotonic() < end:
            time.sleep(0.25)
        it.start(3)
        desk, follower = it.desk(3), it.desk(3)
        follower.connect()
        follower.stream.sendall(b"FOLLOW 0\n")
        decide([it.desk(me) for me in range(4)], bits, range(176, 180))
        end = time.monotonic() + 90
        while left := [slot for slot, reply in enumerate(desk.ask(*[f"ASK {slot}" for slot in range(176)])) if reply != f"DECIDED {bits[slot]}"]:
            first = int(desk.ask("EPOCHS")[0].split()[1])
            expect(left[0] >= 16 * first, f"epochs before {first} are closed, and {len(left)} slots from {left[0]} on are unknown")
            expect(time.monotonic() < end, f"{len(left)} slots from {left[0]} on aren't made up for")
            time.sleep(0.5)
        told = told_by(follower, 180)
        expect(sorted(told) == list(range(180)), f"a follower isn't told {sorted(set(range(180)) - set(told))[:9]}")


def new_cluster():
    """`new-cluster --epochs` writes settings of chains, `init` makes the first journal of each, and `check` names the folder."""
    folder = tempfile.mkdtemp(prefix="epochs-")
    words = ["--epochs", "--n", "4", "--t", "1", "--questions", "8", "--cluster", "5", "--port", "27900", "."]
    done = subprocess.run([PROGRAM, "new-cluster", *words], capture_output=True, check=False, cwd=folder)
    expect(done.returncode == 0, f"new-cluster: {done.stderr}")
    for me in range(4):
        done = subprocess.run([PROGRAM, "init", f"member-{me}.toml"], capture_output=True, check=False, cwd=folder)
        expect(done.returncode == 0 and os.listdir(f"{folder}/member-{me}.epochs") == ["0.journal"], f"init: {done.stderr}")
    done = subprocess.run([PROGRAM, "init", "member-0.toml"], capture_output=True, check=False, cwd=folder)
    expect(done.returncode == 1, "a second init has status 0")
    done = subprocess.run([PROGRAM, "check", "member-1.toml"], capture_output=True, check=False, cwd=folder)
    expect(done.returncode == 0 and b"\nepochs member-1.epochs\nrecords 0\n" in done.stdout, f"check: {done.stdout} {done.stderr}")
    with open(f"{folder}/client.toml", encoding="ascii") as file:
        expect("chain = true\n" in file.read(), "client.toml isn't one of a chain")


def ends_so(it, command, status, *parts):
    """Expects that a command with the settings of member 0 ends with this status, and says all of these words."""
    done = subprocess.run([PROGRAM, *command.split(), it.settings(0)], capture_output=True, check=False, timeout=10)
    said = done.stdout + done.stderr
    expect(done.returncode == status and all(part.encode() in said for part in parts), f"{command}: {done.returncode} {said}")


def a_newest_journal_that_is_lost():
    """The newest journal that a chain's folder has had isn't made anew: `run` and `check` name it, and `init` begins no chain there."""
    with chain(27460, starts=1, n=1, t=0) as it:
        folder = it.journals(0)

        def noted():
            with open(f"{folder}/newest", "rb") as file:
                return file.read()

        def is_refused(*words):
            for command in ("check", "run --stay"):
                ends_so(it, command, 1, "bracha: file\n", *words)

        def move(epochs, ending, other):
            for epoch in epochs:
                os.rename(f"{folder}/{epoch}{ending}", f"{folder}/{epoch}{other}")

        decide([it.desk(0)], [1] * 20, range(20))
        await_journal(f"{folder}/2.journal")
        expect(noted() == b"2\n", f"noted: {noted()}")
        it.kill(0)
        lost = f"{folder}/2.journal: open: no such file: put this journal back"
        move([2], ".journal", ".aside")
        is_refused(lost)
        move([0, 1], ".journal", ".aside")
        is_refused(lost)
        ends_so(it, "init", 1, "bracha: journal NotEmpty\n", f"{folder}: the member has run on journals of this folder, which are gone")
        expect(not os.path.exists(f"{folder}/0.journal"), "init made a journal")
        move([0, 1, 2], ".aside", ".journal")
        it.start(0)
        decide([it.desk(0)], [0] * 36, range(32, 36))
        await_journal(f"{folder}/3.journal")
        # The supervisor of a member whose newest journal goes while it runs starts it in vain.
        move([3], ".journal", ".aside")
        expect(it.runs[0].wait(10) == 1, f"it ends with {it.runs[0].returncode}")
        is_refused(f"{folder}/3.journal")
        move([3], ".aside", ".journal")
        for text in (b"", b"3", b"-3\n", b"3\n\n", b"\xff\n", b"18446744073709551616\n"):
            with open(f"{folder}/newest", "wb") as file:
                file.write(text)
            is_refused(f"{folder}/newest: no number of an epoch")
        # Nothing is noted in a folder of an earlier version. What can't be noted isn't run on.
        os.remove(f"{folder}/newest")
        ends_so(it, "check", 0, "\nrecords 0\n")
        os.mkdir(f"{folder}/newest.new")
        ends_so(it, "run --stay", 1, "bracha: file\n", f"{folder}/newest: write: Is a directory")
        os.rmdir(f"{folder}/newest.new")
        with open(f"{folder}/newest.new", "wb") as file:
            file.write(b"a run ended while it wrote this")
        it.start(0)
        expect(noted() == b"3\n", f"noted at the start: {noted()}")


def await_journal(path):
    """Waits until this journal is there, and noted."""
    end = time.monotonic() + 10
    while not os.path.exists(path) or os.path.exists(f"{os.path.dirname(path)}/newest.new"):
        expect(time.monotonic() < end, f"{path} isn't made")
        time.sleep(0.05)
    time.sleep(0.2)


def all_journals_are_looked_at():
    """`check` reads all journals of a chain, as `run` does, and `init` begins no chain beside later journals or one that was put aside."""
    it = Chain(27340)
    folder = it.journals(0)

    def ends(command, status, *parts):
        ends_so(it, command, status, *parts)

    def write(epoch, records=b"", cluster=None):
        number = CLUSTER + (epoch if cluster is None else cluster)
        batch = struct.pack(">BH", 1, len(records) // 6) + records if records else b""
        with open(f"{folder}/{epoch}.journal", "wb") as file:
            file.write(b"BRACHAJ2" + struct.pack(">QBBHB", number, it.n, it.t, it.questions, 0) + bytes(3) + batch + b"\0")

    ends("check", 0, "\nrecords 0\n")
    write(1)
    os.rename(f"{folder}/0.journal", f"{folder}/0.aside")
    ends("init", 1, "journal NotEmpty", "journals up to that of epoch 1")
    os.rename(f"{folder}/0.aside", f"{folder}/0.journal")
    write(2, bytes((1, 0, 0, 0, 1, 0x10, 1, 0, 1, 0, 1, 0x11)))
    ends("check", 0, "\nrecords 2\n")
    ends("check --json", 0, '"records":2', f'"cluster":{CLUSTER}')
    # The first was put away, as the epochs that are closed may be.
    os.remove(f"{folder}/0.journal")
    ends("check", 0, "\nrecords 2\n")
    ends("init", 1, "journal NotEmpty", "journals up to that of epoch 2")
    expect(not os.path.exists(f"{folder}/0.journal"), "init made a journal")
    write(1, cluster=0)
    ends("check", 1, "journal OtherHeader", "1.journal")
    ends("run --stay", 1, "journal OtherHeader", "1.journal")
    write(0)
    os.remove(f"{folder}/1.journal")
    ends("check", 1, "bracha: file", "1.journal", "put this journal back")
    ends("run --stay", 1, "bracha: file", "1.journal", "put this journal back")
    write(1)
    os.symlink(boot_id(), f"{folder}/1.journal.unsynced")
    for command in ("check", "run --stay"):
        ends(command, 1, "journal Device", "1.journal.unsynced")
    os.remove(f"{folder}/1.journal.unsynced")
    # One process has the folder.
    held = os.open(folder, os.O_RDONLY)
    try:
        fcntl.flock(held, fcntl.LOCK_EX | fcntl.LOCK_NB)
        ends("run --stay", 1, "bracha: file", f"{folder}: open: another process has it")
    finally:
        os.close(held)
    os.rename(f"{folder}/2.journal", f"{folder}/2.journal.forgotten")
    for command in ("check", "init", "run --stay"):
        ends(command, 1, "bracha: forgotten", "2.journal.forgotten")


def boot_id():
    with open("/proc/sys/kernel/random/boot_id", encoding="ascii") as file:
        return file.read().strip()


def few_files_are_told():
    """A member of a chain says so if it may open few files, and has the folder for as long as it runs."""
    it = Chain(27350)
    words = [PROGRAM, "run", "--stay", it.settings(0)]
    with subprocess.Popen(["prlimit", "--nofile=60", *words], stdout=subprocess.PIPE, stderr=subprocess.PIPE) as run:
        ready, held = run.stdout.readline(), os.open(it.journals(0), os.O_RDONLY)
        try:
            fcntl.flock(held, fcntl.LOCK_EX | fcntl.LOCK_NB)
            is_held = False
        except BlockingIOError:
            is_held = True
        os.close(held)
        run.kill()
        said = run.stderr.read()
        expect(ready == b"member 0 ready\n", f"isn't ready: {said}")
        expect(is_held, "while it runs it doesn't have the folder")
        expect(said.startswith(b"bracha: 60 open files are enough for 15 of 32 clients"), f"{said}")


def hello(it, epoch, me, to, version=2):
    return struct.pack(">HBBQBBHBB", 16, 1, version, CLUSTER + epoch, it.n, it.t, it.questions, me, to)


def lies(it, stop, count):
    """Member 3 is a liar: it greets for old, new and far epochs, and says both bits of everything."""
    while not stop.is_set():
        epoch = random.choice([0, count[0] // it.questions, count[0] // it.questions + 1, count[0] // it.questions + 2, 10**6, 2**60])
        try:
            with socket.create_connection(("127.0.0.1", it.port + random.randrange(3)), timeout=5) as stream:
                stream.settimeout(2)
                to = stream.getpeername()[1] - it.port
                stream.sendall(hello(it, epoch, 3, to))
                if stream.recv(11):
                    said = b"".join(
                        struct.pack(">BHBBBB", kind, question, 3 if kind == 1 else random.randrange(4), 1, step, random.getrandbits(1))
                        for kind in (1, 2, 3) for question in random.sample(range(it.questions), 16) for step in (1, 2, 3)
                    )
                    for begin in range(0, len(said), 7 * 90):
                        part = said[begin:begin + 7 * 90]
                        stream.sendall(struct.pack(">HBB", 2 + len(part), 4, len(part) // 7) + part)
                    stop.wait(0.2)
        except OSError:
            stop.wait(0.02)


def liar_and_kills(slots=400, kills=6, port=27700, questions=16, width=16):
    """Three members and a liar decide, over kills; the liar opens no epoch."""
    with chain(port, starts=3, questions=questions) as it:
        bits = drawn(slots)
        count, stop = [0], threading.Event()
        threads = [threading.Thread(target=lies, args=(it, stop, count), daemon=True) for _ in range(2)]
        for thread in threads:
            thread.start()
        desks = [it.desk(me) for me in range(3)]
        begun = time.monotonic()
        every = max(width, slots // (kills + 1) // width * width)
        for begin in range(0, slots, width):
            count[0] = begin
            part = range(begin, min(begin + width, slots))
            decide(desks, bits, part, width)
            if begin and begin % every == 0:
                me = random.randrange(3)
                it.kill(me)
                it.start(me, 60)
        stop.set()
        print(f"  {slots} slots in {time.monotonic() - begun:.0f} s")
        for desk in desks:
            for begin in range(0, slots, 64):
                part = range(begin, min(begin + 64, slots))
                replies = desk.ask(*[f"ASK {slot}" for slot in part])
                expect(replies == [f"DECIDED {bits[slot]}" for slot in part], f"ASK at {desk.port}: {replies}")
        newest = slots // it.questions
        for me in range(3):
            expect(len(it.epochs(me)) <= newest + 2, f"{len(it.epochs(me))} journals")


def thousand_epochs():
    """With a thousand epochs behind, a member starts in seconds, and at rest has two in front: 100 MB and 4n + 20 threads at most."""
    with chain(27800) as it:
        bits = drawn(16_000)
        decide([it.desk(me) for me in range(4)], bits, range(16_000))
        it.kill(0)
        begun = time.monotonic()
        it.start(0, 60)
        print(f"  started in {time.monotonic() - begun:.1f} s")
        time.sleep(10)  # epochs in front, and what others ask for, run by then
        end = time.monotonic() + 60
        while it.status(0, "Threads") > 36 and time.monotonic() < end:
            time.sleep(0.5)
        threads, memory = it.status(0, "Threads"), it.status(0, "VmRSS")
        print(f"  {threads} threads, {memory // 1024} MB")
        expect(threads <= 36 and memory < 100 * 1024, f"{threads} threads, {memory} KB")
        replies = it.desk(0).ask("ASK 0", "ASK 7777", "ASK 15999")
        expect(replies == [f"DECIDED {bits[slot]}" for slot in (0, 7777, 15999)], f"{replies}")


def play(check):
    """Whether the check fails, which is told."""
    begun = time.monotonic()
    name = getattr(check, "__name__", "long")
    try:
        check()
        print(f"{name}: {time.monotonic() - begun:.1f} s", flush=True)
        return False
    except (Wrong, OSError, subprocess.TimeoutExpired) as error:
        print(f"{name}: {error}", flush=True)
        return True


def main():
    checks = [slots_over_many_epochs, dumps_name_their_clusters, restarts, comeback, followers, quiet, ends, put_away,
              put_away_while_it_runs, a_journal_that_is_gone, epochs_of_made_up_desks, closed_epochs, new_cluster, all_journals_are_looked_at, a_newest_journal_that_is_lost, few_files_are_told, liar_and_kills]
    # These wait for epochs to end, beside the others.
    waiting = [asks_for_closed_epochs, half_decided_epochs_end, late_decisions_are_told_once, epochs_that_run_on_are_told, a_burst_over_an_end_is_told,
               an_await_ends_with_its_epoch, a_client_outlasts_its_epoch, who_waits_for_a_place_outlasts_the_epoch, who_waits_for_too_long_is_closed,
               epochs_of_which_nobody_was_heard_stay_open, missed_epochs_are_made_up_for]
    if LONG:
        checks, waiting = [lambda: liar_and_kills(100_000, 200, questions=1024, width=256), thousand_epochs], []
    # All folders of the checks are within this one, which goes with the script.
    with tempfile.TemporaryDirectory(prefix="epochs-") as room, concurrent.futures.ThreadPoolExecutor(4) as pool:
        tempfile.tempdir = room
        beside = [pool.submit(play, check) for check in waiting]
        failed = sum(play(check) for check in checks) + sum(it.result() for it in beside)
    print(f"{len(checks) + len(waiting) - failed} passed, {failed} failed")
    return 1 if failed else 0


if __name__ == "__main__":
    sys.exit(main())
