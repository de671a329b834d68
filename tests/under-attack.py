#!/usr/bin/env python3
"""tests/under-attack.py [--n N] [--questions Q] [--scene SCENE]... [--program PROGRAM]

What a decision takes while liars keep the rules, and while clients ask for much. A cluster of N members (4) over Q questions
(1,024 and no more than 4,096), in turns quiet and under each SCENE, which are all of these unless some are named:

- initials: each of the t liars says its own Initial at every question, round and step;
- comeback: members decide half of the questions; t of them are killed, and one of the others is killed and started again:
  what the first decision takes in which it is needed;
- transcripts: eight clients at each member ask for a transcript of the same question, one behind the other;
- status: eight clients at each member ask for STATUS, one behind the other;
- greetings: a liar's host greets every member as often as it can;
- versions: a liar begins each of its sessions in the other version;
- echoes: each liar says an Echo and a Ready of every Initial that there could be, its own value among them;
- halves: each liar says its own Initial of the first round at every question, one bit to some members, another to the rest;
- repeats: each liar says one Echo again and again, as fast as it goes;
- idles: each liar sends the shortest frame there is, as fast as it goes;
- rereads: a liar takes a member's link, asks for all that the member ever said, reads it, and closes;
- proposals: a client proposes at every question of one member, one line behind the other;
- asks: eight clients at each member ask for a decision and for links, as fast as they go.

PROGRAM is crates/bracha/out/bracha unless another is named. The ports are 27900 to 28099; a liar's host is this machine, so
`unshare -n sh -c 'ip link set lo up; tests/under-attack.py'` keeps all of it to itself. Prints for each scene the median and
the longest of 20 decisions before it and in it, and what came of it in the journals; the status is 1 where two members
disagree, where a question stays open, or where a decision in a scene took more than 3 seconds.
"""
import argparse
import contextlib
import os
import socket
import statistics
import struct
import subprocess
import sys
import tempfile
import threading
import time

TOP = os.path.dirname(os.path.dirname(os.path.realpath(__file__)))
PORT = 27900
CLUSTER = 7
IDLE = struct.pack(">HB", 1, 0)
DECISIONS = 20
LONGEST = 3.0


class Desk:
    """A client of a member."""

    def __init__(self, port):
        self.socket = socket.create_connection(("127.0.0.1", port), timeout=300)
        self.socket.setsockopt(socket.IPPROTO_TCP, socket.TCP_NODELAY, 1)
        self.replies = self.socket.makefile("rb")

    def say(self, lines):
        self.socket.sendall("".join(f"{it}\n" for it in lines).encode())

    def hear(self):
        return self.replies.readline().decode().strip()

    def ask(self, line):
        self.say([line])
        return self.hear()

    def transcript(self, question):
        count = int(self.ask(f"TRANSCRIPT {question}").split()[-1])
        for _ in range(count):
            self.replies.readline()


class Cluster:
    """Members that are processes, of which the last t may be played by liars."""

    def __init__(self, program, folder, n, questions):
        self.program, self.folder, self.n, self.t, self.questions = program, folder, n, (n - 1) // 3, questions
        self.running = {}
        for me in range(n):
            self.write_settings(me)

    def write_settings(self, me):
        peers = ", ".join(f'"127.0.0.1:{PORT + it}"' for it in range(self.n))
        with open(f"{self.folder}/member-{me}.toml", "w", encoding="ascii") as file:
            file.write(f'cluster = {CLUSTER}\nn = {self.n}\nt = {self.t}\nquestions = {self.questions}\nme = {me}\n'
                       f'journal = "{self.folder}/member-{me}.journal"\npeers = [{peers}]\n'
                       f'desk = "127.0.0.1:{self.desk(me)}"\nseed = "{me + 1:064x}"\n')
        subprocess.run([self.program, "init", f"{self.folder}/member-{me}.toml"], check=True)

    def desk(self, me):
        return PORT + 100 + me

    def start(self, me):
        with open(f"{self.folder}/log-{me}", "ab") as log:
            process = subprocess.Popen([self.program, "run", "--stay", "--log", f"{self.folder}/member-{me}.toml"],
                                       stdin=subprocess.DEVNULL, stdout=subprocess.PIPE, stderr=log)
        assert process.stdout.readline() == b"member %d ready\n" % me, f"member {me} isn't ready"
        self.running[me] = process

    def kill(self, me):
        process = self.running.pop(me)
        process.kill()
        process.wait()
        process.stdout.close()

    def desks(self, members):
        return [Desk(self.desk(me)) for me in members]

    def decide(self, members, questions, limit=300.0):
        """Proposes these at the members, and waits until each has decided them. The seconds that took."""
        desks, begun = self.desks(members), time.monotonic()
        questions = list(questions)
        for desk in desks:
            desk.say([f"PROPOSE {it} {it % 2}" for it in questions])
        for desk in desks:
            for _ in questions:
                desk.hear()
        for desk in desks:
            self.await_decided(desk, questions, begun + limit)
        for desk in desks:
            desk.socket.close()
        return time.monotonic() - begun

    @staticmethod
    def await_decided(desk, questions, end):
        while questions:
            desk.say([f"ASK {it}" for it in questions])
            replies = [desk.hear() for _ in questions]
            questions = [it for it, reply in zip(questions, replies) if reply != f"DECIDED {it % 2}"]
            if time.monotonic() > end:
                sys.exit(f"questions {questions[:10]} aren't decided; {desk.ask('STATUS')}")
            time.sleep(0.002)

    def faults(self, members):
        """What is wrong with the journals: members that differ, and statements that are in one twice."""
        decided, found = {}, []
        for me in members:
            dump = subprocess.run([self.program, "dump", f"{self.folder}/member-{me}.journal"], capture_output=True, text=True)
            said = set()
            for line in dump.stdout.splitlines()[1:]:
                words = line.split()
                key = tuple(words[:2]) if words[0] == "decided" else tuple(words[:5])
                if key in said:
                    found.append(f"member {me} has twice: {line}")
                said.add(key)
                if words[0] == "decided" and decided.setdefault(words[1], words[3]) != words[3]:
                    found.append(f"member {me} differs: {line}")
        return found


@contextlib.contextmanager
def cluster(program, n, questions):
    with tempfile.TemporaryDirectory(prefix="bracha-attack.") as folder:
        it = Cluster(program, folder, n, questions)
        try:
            yield it
        finally:
            for me in list(it.running):
                it.kill(me)


# What liars say.

def hello(it, me, to, version=2):
    return struct.pack(">HBBQBBHBB", 16, 1, version, CLUSTER, it.n, it.t, it.questions, me, to)


def statement(kind, question, origin, rnd, step, value):
    return struct.pack(">BHBBBB", kind, question, origin, rnd, step, value)


def frames(statements):
    """The statements in frames of version 2, at most 99 each."""
    for at in range(0, len(statements), 99):
        part = statements[at:at + 99]
        yield struct.pack(">HBB", 2 + 7 * len(part), 4, len(part)) + b"".join(part)


class Liars:
    """Threads that do harm until they are told to stop."""

    def __init__(self):
        self.stopped, self.threads = threading.Event(), []

    def begin(self, does, *words):
        thread = threading.Thread(target=self.goes_on, args=(does, *words), daemon=True)
        thread.start()
        self.threads.append(thread)

    def goes_on(self, does, *words):
        while not self.stopped.is_set():
            with contextlib.suppress(OSError, ValueError, IndexError):
                does(*words)
            time.sleep(0.01)

    def end(self):
        self.stopped.set()
        for thread in self.threads:
            thread.join(5)


def greeted(it, me, to, version=2):
    stream = socket.create_connection(("127.0.0.1", PORT + to), timeout=30)
    stream.sendall(hello(it, me, to, version))
    if len(stream.recv(11)) != 11:
        raise OSError("no welcome")
    return stream


def says(it, liars, me, to, statements):
    """One session that says these, and then goes on with idles."""
    with greeted(it, me, to) as stream:
        for frame in frames(statements):
            stream.sendall(frame)
        while not liars.stopped.is_set():
            stream.sendall(IDLE)
            time.sleep(1)


def places(it):
    """Every question that no decision of a scene is on, with every round and step, the last first."""
    return [(question, rnd, step) for rnd in range(32, 0, -1) for step in (1, 2, 3)
            for question in range(it.questions - 1, 4 * DECISIONS, -1)]


def value_at(step):
    return 2 if step == 3 else 0


def initials(it, liars, honest):
    for me in range(it.n - it.t, it.n):
        said = [statement(1, question, me, rnd, step, value_at(step)) for question, rnd, step in places(it)]
        for to in honest:
            liars.begin(says, it, liars, me, to, said)


def echoes(it, liars, honest):
    for me in range(it.n - it.t, it.n):
        said = [statement(kind, question, origin, rnd, step, value_at(step)) for question, rnd, step in places(it)[:4000]
                for origin in range(it.n) for kind in (2, 3)]
        for to in honest:
            liars.begin(says, it, liars, me, to, said)


def greetings(it, liars, honest):
    def greets(to):
        greeted(it, it.n - 1, to).close()
    for to in honest:
        liars.begin(greets, to)


def versions(it, liars, honest):
    def session(to, turn):
        turn[0] += 1
        with greeted(it, it.n - 1, to, 1 + turn[0] % 2) as stream:
            stream.sendall(IDLE)
            time.sleep(0.3)
    for to in honest:
        liars.begin(session, to, [to])


def halves(it, liars, honest):
    for me in range(it.n - it.t, it.n):
        for to in honest:
            said = [statement(1, question, me, 1, step, value_at(step) if step == 3 else to % 2)
                    for question in range(4 * DECISIONS + 1, it.questions) for step in (1, 2, 3)]
            liars.begin(says, it, liars, me, to, said)


def pours(it, liars, me, to, frame):
    """One session that sends this frame as fast as it goes."""
    with greeted(it, me, to) as stream:
        while not liars.stopped.is_set():
            stream.sendall(frame * 200)


def repeats(it, liars, honest):
    for me in range(it.n - it.t, it.n):
        frame = b"".join(frames([statement(2, it.questions - 1, 0, 1, 1, 0)] * 50))
        for to in honest:
            liars.begin(pours, it, liars, me, to, frame)


def idles(it, liars, honest):
    for me in range(it.n - it.t, it.n):
        for to in honest:
            liars.begin(pours, it, liars, me, to, IDLE)


def rereads(it, liars, _honest):
    def listens(listener):
        stream, _ = listener.accept()
        with stream:
            stream.recv(18)
            stream.sendall(struct.pack(">HBQ", 9, 2, 0))
            stream.settimeout(0.5)
            while stream.recv(1 << 16):
                pass
    for me in range(it.n - it.t, it.n):
        listener = socket.create_server(("127.0.0.1", PORT + me), reuse_port=False)
        listener.settimeout(1)
        for _ in range(4):
            liars.begin(listens, listener)


def clients(it, liars, many, does):
    def goes_on(member):
        desk = Desk(it.desk(member))
        while not liars.stopped.is_set():
            does(desk)
    for member in it.running:
        for _ in range(many):
            liars.begin(goes_on, member)


def transcripts(it, liars, _honest):
    clients(it, liars, 8, lambda desk: desk.transcript(0))


def status(it, liars, _honest):
    clients(it, liars, 8, lambda desk: desk.ask("STATUS"))


def asks(it, liars, _honest):
    clients(it, liars, 8, lambda desk: [desk.say(["ASK 0", "LINKS"]), desk.hear(), desk.hear()])


def proposals(it, liars, _honest):
    def proposes():
        desk = Desk(it.desk(0))
        for question in range(4 * DECISIONS + 1, it.questions):
            desk.ask(f"PROPOSE {question} 1")
        liars.stopped.wait()
    liars.begin(proposes)


OF_CLIENTS = {"transcripts": transcripts, "status": status, "asks": asks, "proposals": proposals}
OF_LIARS = {"initials": initials, "greetings": greetings, "versions": versions, "echoes": echoes, "halves": halves,
            "repeats": repeats, "idles": idles, "rereads": rereads}
SCENES = OF_LIARS | OF_CLIENTS


def spread(took):
    return f"median {statistics.median(took) * 1e3:.0f} ms, longest {max(took) * 1e3:.0f}"


def play(program, n, questions, name):
    """Plays a scene in which liars do harm, or clients; what went wrong."""
    with cluster(program, n, questions) as it:
        lies = name in OF_LIARS
        honest = range(n - it.t) if lies else range(n)
        for me in honest:
            it.start(me)
        time.sleep(2.5)
        quiet = [it.decide(honest, [question]) for question in range(DECISIONS)]
        if name in ("transcripts", "status", "asks"):
            # so that the history is long
            it.decide(honest, range(4 * DECISIONS + 1, questions))
        liars = Liars()
        SCENES[name](it, liars, honest)
        time.sleep(2)
        loud = [it.decide(honest, [question]) for question in range(DECISIONS, 2 * DECISIONS)]
        liars.end()
        print(f"{name}, n {n}: quiet {spread(quiet)}; under it {spread(loud)}", flush=True)
        found = it.faults(honest)
        return found + [f"{name}: a decision took {max(loud):.1f} s"] * (max(loud) > LONGEST)


def comeback(program, n, questions):
    """A member that is needed starts again; what went wrong."""
    with cluster(program, n, questions) as it:
        for me in range(n):
            it.start(me)
        time.sleep(2.5)
        half = questions // 2
        for first in range(0, half, 64):
            it.decide(range(n), range(first, min(half, first + 64)))
        left = range(n - it.t)
        for me in range(n - it.t, n):
            it.kill(me)
        it.kill(0)
        begun = time.monotonic()
        it.start(0)
        ready = time.monotonic() - begun
        it.decide(left, [half])
        took = time.monotonic() - begun
        print(f"comeback, n {n}: after {half} questions ready in {ready * 1e3:.0f} ms, takes part in {took:.2f} s", flush=True)
        return it.faults(left) + [f"comeback: took {took:.1f} s"] * (took > LONGEST)


def main():
    parser = argparse.ArgumentParser(usage=__doc__, add_help=True)
    parser.add_argument("--n", type=int, default=4)
    parser.add_argument("--questions", type=int, default=1024)
    parser.add_argument("--scene", action="append", choices=[*SCENES, "comeback"])
    parser.add_argument("--program", default=f"{TOP}/crates/bracha/out/bracha")
    words = parser.parse_args()
    found = []
    for name in words.scene or [*SCENES, "comeback"]:
        if name == "comeback":
            found += comeback(words.program, words.n, words.questions)
        else:
            found += play(words.program, words.n, words.questions, name)
    for line in found:
        print(line)
    sys.exit(1 if found else 0)


if __name__ == "__main__":
    main()
