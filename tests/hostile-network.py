#!/usr/bin/env python3
"""tests/hostile-network.py [--seconds S] [PROGRAM]

Members of a cluster of four, as processes, on a network that means them no good, and one on a disk that stalls:

- 64 connections that don't greet, and one more; 32 clients, and one more, which waits until they have been silent for ten
  seconds, and takes the place of the one that was silent longest; a place that is given back is given again; 64 clients
  that say nothing, who hold up the next for twice ten seconds and those after it for none;
- greetings that aren't, of which each is closed with nothing said; a second link of a peer whose first one goes on; a peer
  that comes and goes 200 times, of which the log tells some lines and then how many there were; one Initial 10,000 times,
  which is one record;
- a member that may open 24 files: its doors come back once others go; one that may open 31, which are enough for three
  clients: the fourth waits, and takes the place of the one that was silent longest;
- a client and a peer that read nothing, a peer that sends a byte a second, and a client that reads a transcript a byte a
  second: the others are served, and decide;
- garbage at both doors of each member, as fast as it goes, for S seconds (60), while four members decide 256 questions:
  they decide all, each as proposed, and when it is over a member has as many threads and files open as before, and no
  more memory than what it heard takes;
- a sync of member 0 that takes 15 seconds (tests/stall.c, which is no part of the product): no link goes down.

It wants a C compiler. PROGRAM is crates/bracha/out/bracha unless another is named. The ports are 27800 to 27899. The last
line is `N passed, M failed`.
"""
import argparse
import contextlib
import os
import random
import resource
import socket
import subprocess
import sys
import tempfile
import threading
import time

TOP = os.path.dirname(os.path.dirname(os.path.realpath(__file__)))
N, QUESTIONS, PORTS = 4, 256, 27800


class Member:
    """A member that runs, whatever its peers do."""

    def __init__(self, program, folder, me, ports, files=None, stalls=None):
        self.me, self.door, self.desk = me, ports + me, ports + 10 + me
        settings, self.journal = f"{folder}/member-{me}.toml", f"{folder}/journal-{me}"
        peers = ", ".join(f'"127.0.0.1:{ports + it}"' for it in range(N))
        with open(settings, "w", encoding="ascii") as file:
            file.write(f'cluster = 7\nn = {N}\nt = 1\nquestions = {QUESTIONS}\nme = {me}\njournal = "{self.journal}"\n'
                       f'peers = [{peers}]\ndesk = "127.0.0.1:{self.desk}"\nseed = "{me:02x}{"5a" * 31}"\n')
        subprocess.run([program, "init", settings], check=True)
        limit = (lambda: resource.setrlimit(resource.RLIMIT_NOFILE, (files, files))) if files else None
        environment = {**os.environ, **stalls} if stalls and me == 0 else None
        self.log = open(f"{folder}/log-{me}", "w+", encoding="utf-8")
        self.process = subprocess.Popen([program, "run", "--stay", "--log", settings], stdout=subprocess.PIPE, stderr=self.log,
                                        env=environment, preexec_fn=limit)
        assert self.process.stdout.readline() == b"member %d ready\n" % me

    def ask(self, line):
        """The first line of the reply; nothing where the connection is closed before one."""
        try:
            with connect(self.desk) as stream:
                stream.sendall(line + b"\n")
                return stream.makefile("rb").readline().decode("ascii").strip()
        except OSError:
            return ""

    def told(self):
        """Its log."""
        with open(self.log.name, encoding="utf-8") as log:
            return log.read().splitlines()

    def state(self):
        """How many threads and open files it has, and its bytes of memory."""
        at = f"/proc/{self.process.pid}"
        with open(f"{at}/statm", encoding="ascii") as sizes:
            memory = int(sizes.read().split()[1]) * resource.getpagesize()
        return len(os.listdir(f"{at}/task")), len(os.listdir(f"{at}/fd")), memory


def connect(port):
    return socket.create_connection(("127.0.0.1", port), timeout=10)


@contextlib.contextmanager
def cluster(program, ports, members=range(N), files=None, stalls=None):
    """Members in a new folder, which are killed in the end."""
    with tempfile.TemporaryDirectory(prefix="bracha-hostile.") as folder:
        running = []
        try:
            for me in members:
                running.append(Member(program, folder, me, ports, files, stalls))
            yield running
        finally:
            for member in running:
                member.process.kill()
                member.process.wait()
                member.log.close()


def is_closed(stream, within=1.0):
    """Whether the other end closes, with nothing said."""
    stream.settimeout(within)
    try:
        return stream.recv(1) == b""
    except socket.timeout:
        return False
    except OSError:
        return True


def until(holds, seconds=30):
    end = time.monotonic() + seconds
    while not holds():
        if time.monotonic() > end:
            return False
        time.sleep(0.05)
    return True


def greets(me, to, cluster_number=7):
    return bytes([0, 16, 1, 1, *cluster_number.to_bytes(8, "big"), N, 1, *QUESTIONS.to_bytes(2, "big"), me, to])


def is_let_in(member):
    """Whether a greeting of member 1 has its answer."""
    try:
        with connect(member.door) as stream:
            stream.sendall(greets(1, member.me))
            return stream.recv(11) != b""
    except OSError:
        return False


def too_many_that_do_not_greet(program):
    with cluster(program, PORTS, [0]) as [member]:
        # the link from the member to itself takes a place until it has greeted
        time.sleep(1)
        silent = [connect(member.door) for _ in range(64)]
        time.sleep(0.3)
        assert not any(is_closed(it, 0.01) for it in silent), "one of 64 was closed"
        assert is_closed(connect(member.door)), "the 65th wasn't closed"
        for stream in silent[:3]:
            stream.close()
        assert until(lambda: is_let_in(member)), "a place that was given back isn't given again"


def is_answered(client):
    """Whether a client's STATUS has its reply."""
    try:
        client.sendall(b"STATUS\n")
        return client.makefile("rb").readline().startswith(b"UP ")
    except OSError:
        return False


def too_many_clients(program):
    with cluster(program, PORTS + 20, [0]) as [member]:
        clients = []
        for _ in range(32):
            clients.append(connect(member.desk))
            assert is_answered(clients[-1]), "a client has no reply"
        time.sleep(2)
        assert is_answered(clients[0]), "a client has no second reply"
        begun = time.monotonic()
        one_more = connect(member.desk)
        one_more.settimeout(20)
        assert is_answered(one_more), "the 33rd has no reply"
        assert 6 < time.monotonic() - begun < 12, "the 33rd didn't wait"
        assert is_closed(clients[1]), "the one that was silent longest wasn't closed"
        assert all(is_answered(it) for it in [clients[0], *clients[2:], one_more]), "another one was closed"
        clients[7].close()
        one_more = connect(member.desk)
        assert is_answered(one_more), "a place that was given back isn't given again"
        assert all(is_answered(it) for it in [clients[0], *clients[2:7], *clients[8:]]), "it wasn't that place"


def clients_that_say_nothing(program):
    """64 connections of which none says anything hold a client up for some twenty seconds, and those after it for none."""
    with cluster(program, PORTS + 20, [0]) as [member]:
        silent = [connect(member.desk) for _ in range(64)]
        begun = time.monotonic()
        for _ in range(3):
            with connect(member.desk) as client:
                client.settimeout(40)
                assert is_answered(client), "a client has no reply"
        assert time.monotonic() - begun < 26, f"clients waited for {time.monotonic() - begun:.0f} seconds"
        assert until(lambda: sum("closed for another" in it for it in member.told()) >= 32, 2), "it isn't told"
        assert is_closed(silent[0]), "a silent one wasn't closed"


def said(kind, origin, value):
    """The frame of a statement on question 0, round 1 and step 1."""
    return bytes([0, 8, 3, kind, 0, 0, origin, 1, 1, value])


def false_greetings(program):
    """To member 0: what is no greeting of a peer to it is closed, with nothing said, and the next peer is let in."""
    of_five = bytearray(greets(1, 0))
    of_five[12] = 5
    with cluster(program, PORTS, [0]) as [member]:
        for bytes_ in (b"\0\1\0", b"\0\x09\2" + bytes(8), said(2, 0, 1), greets(1, 0, 8), greets(1, 2), bytes(of_five), greets(7, 0),
                       b"\0\x10\4\2" + said(2, 0, 1)[3:] + said(3, 0, 1)[3:], b"\xff", b"GET / HTTP/1.1\r\n\r\n"):
            with connect(member.door) as stream:
                stream.sendall(bytes_)
                assert is_closed(stream), f"{bytes_.hex()} isn't closed, or answered"
        with connect(member.door) as stream:
            stream.sendall(greets(1, 0)[:9])
            stream.shutdown(socket.SHUT_WR)
            assert is_closed(stream), "nine bytes and the end"
        assert until(lambda: is_let_in(member)), "a peer isn't let in"


def welcomed(member, peer):
    """A link of that peer that was welcomed, and the number that the Welcome names, once its seat is free."""
    end = time.monotonic() + 10
    while time.monotonic() < end:
        stream = connect(member.door)
        stream.sendall(greets(peer, member.me))
        welcome = b""
        with contextlib.suppress(OSError):
            while len(welcome) < 11 and (piece := stream.recv(11 - len(welcome))):
                welcome += piece
        if len(welcome) == 11:
            assert welcome[:3] == b"\0\x09\2", welcome.hex()
            return stream, int.from_bytes(welcome[3:], "big")
        stream.close()
        time.sleep(0.1)
    raise AssertionError("no Welcome comes")


def a_peer_that_comes_and_goes(program):
    with cluster(program, PORTS + 20, [0]) as [member]:
        for _ in range(200):
            welcomed(member, 1)[0].close()
        assert until(lambda: any("links of 1 come and go" in line for line in member.told()), 5), "it isn't told"
        lines = [line for line in member.told() if "link-up from 1" in line or "link-down from 1" in line]
        assert len(lines) == 20, f"{len(lines)} lines"


def two_links_of_a_peer(program):
    with cluster(program, PORTS + 20, [0]) as [member]:
        first, number = welcomed(member, 1)
        assert number == 0
        for _ in range(3):
            with connect(member.door) as second:
                second.sendall(greets(1, 0))
                assert is_closed(second), "a second link isn't closed"
        first.sendall(said(1, 1, 1))
        assert until(lambda: member.ask(b"STATUS") == "UP 1 0"), "what the first one said behind it isn't taken"
        first.close()
        third, number = welcomed(member, 1)
        assert number == 1, number
        third.close()


def one_statement_many_times(program):
    with cluster(program, PORTS + 20, [0]) as [member]:
        link, _ = welcomed(member, 1)
        link.sendall(said(1, 1, 1) * 10_000)
        link.close()
        link, number = welcomed(member, 1)
        assert number == 10_000, number
        link.close()
        assert member.ask(b"STATUS") == "UP 1 0"
        # the header, the gates, a count and a record
        assert os.path.getsize(member.journal) == 34, os.path.getsize(member.journal)


def few_files(program):
    with cluster(program, PORTS + 20, [0], files=24) as [member]:
        streams = []
        for it in range(40):
            with contextlib.suppress(OSError):
                streams.append(connect(member.desk if it % 2 else member.door))
        time.sleep(1)
        for stream in streams:
            stream.close()
        assert until(lambda: member.ask(b"STATUS").startswith("UP ")), "its desk doesn't come back"
        assert until(lambda: is_let_in(member)), "its door for peers doesn't come back"


def few_clients(program):
    """Of 35 files its links want 29, so there are 6 for three clients. All links are up."""
    with cluster(program, PORTS + 20, range(4), files=35) as [member, *_others]:
        assert until(lambda: sum("link-up" in it for it in member.told()) >= 6), "its links aren't up"
        said = "bracha: 35 open files are enough for 3 of 32 clients: the links want 29, and each client 2"
        assert said in member.told(), member.told()
        clients = [connect(member.desk) for _ in range(3)]
        assert all(is_answered(it) for it in clients), "a client has no reply"
        fourth = connect(member.desk)
        fourth.settimeout(20)
        assert is_answered(fourth), "the fourth has no reply"
        assert is_closed(clients[0]), "the one that was silent longest wasn't closed"
        assert all(is_answered(it) for it in [*clients[1:], fourth]), "another one was closed"


def propose(member, question, bit):
    return member.ask(b"PROPOSE %d %d" % (question, bit)) == "OK"


def decides(members, question, bit):
    return all(until(lambda it=it: it.ask(b"ASK %d" % question) == f"DECIDED {bit}") for it in members)


def trickles(member, stop):
    """A peer that greets and sends a byte a second of what is a statement at last."""
    stream = connect(member.door)
    stream.sendall(greets(3, member.me))
    for byte in bytes.fromhex("00080302000100010101"):
        if stop.wait(1):
            break
        with contextlib.suppress(OSError):
            stream.sendall(bytes([byte]))
    stream.close()


def sips(member, question, stop, got):
    """A client that asks for a transcript a hundred times, and reads a byte a second."""
    with connect(member.desk) as stream:
        stream.sendall(b"TRANSCRIPT %d\n" % question * 100)
        while not stop.wait(1):
            got.append(stream.recv(1))


def slow_ends(program):
    """Member 3 is this script: it takes the links to it and reads nothing, and sends a byte a second to member 0. A client
    of member 2 reads the transcript of the first question a byte a second while the second one is decided."""
    ports, stop = PORTS + 40, threading.Event()
    with socket.create_server(("127.0.0.1", ports + 3), backlog=16), cluster(program, ports, range(3)) as members:
        slow = threading.Thread(target=trickles, args=(members[0], stop))
        slow.start()
        deaf = connect(members[1].desk)
        deaf.sendall(b"STATUS\n" * 400)
        got, sipping = [], threading.Thread(target=lambda: sips(members[2], 3, stop, got))
        try:
            for question in (3, 4, 5, 6):
                if question == 4:
                    sipping.start()
                    assert until(lambda: got), "the transcript doesn't begin"
                for member in members:
                    assert until(lambda it=member: propose(it, question, question % 2)), "no proposal is taken"
                assert decides(members, question, question % 2), f"question {question} isn't decided"
            assert until(lambda: len(got) >= 4), "the transcript doesn't go on"
            assert b"".join(got[:4]) == b"tran", got
        finally:
            stop.set()
            slow.join()
            if sipping.is_alive():
                sipping.join()
            deaf.close()


def linked(members):
    """Whether each member has its links to and from all others."""
    return all(sum("link-up" in line for line in member.told()) >= 2 * (N - 1) for member in members)


def floods(port, begins, end, sent):
    """Sends garbage behind what it begins with, over one connection after the other."""
    dice = random.Random(port)
    while time.monotonic() < end:
        with contextlib.suppress(OSError), connect(port) as stream:
            stream.sendall(begins)
            for _ in range(50):
                stream.sendall(dice.randbytes(4096))
                sent[port] = sent.get(port, 0) + 4096


def flood(program, seconds):
    with cluster(program, PORTS + 60) as members:
        assert until(lambda: linked(members)), "the members aren't linked"
        assert all(propose(it, 255, 0) for it in members)
        assert decides(members, 255, 0)
        before = [it.state() for it in members]
        begun, sent, threads = time.monotonic(), {}, []
        end = begun + seconds
        for member in members:
            for port, begins in ((member.door, b""), (member.door, greets(1, member.me, 8)), (member.desk, b"")):
                threads.append(threading.Thread(target=floods, args=(port, begins, end, sent)))
        for thread in threads:
            thread.start()
        for question in range(255):
            for member in members:
                assert until(lambda it=member: propose(it, question, question % 2)), f"no proposal is taken on {question}"
        for question in range(255):
            assert decides(members, question, question % 2), f"question {question} isn't decided"
        decided = time.monotonic()
        for thread in threads:
            thread.join()
        print(f"  {sum(sent.values()) // 1_000_000} MB of garbage in {seconds} s; all decided after {decided - begun:.0f} s")
        for member, (tasks, files, memory) in zip(members, before):
            assert until(lambda it=member: it.state()[0] <= tasks and it.state()[1] <= files), "threads or files are left over"
            # 255 questions of a round or two at 4 members: some 200 statements each, at 25 bytes, and the tables
            assert member.state()[2] - memory < 8_000_000, f"memory grew by {member.state()[2] - memory}"


def stalled_disk(program, library):
    """The fourth sync of member 0 is the first one of its second batch."""
    with cluster(program, PORTS + 80, stalls={"LD_PRELOAD": library, "STALL_AT": "4", "STALL_SECONDS": "15"}) as members:
        assert until(lambda: linked(members)), "the members aren't linked"
        begun = time.monotonic()
        asking = [threading.Thread(target=propose, args=(it, 5, 1)) for it in members]
        for thread in asking:
            thread.start()
        assert decides(members, 5, 1), "it isn't decided"
        assert time.monotonic() - begun > 14, "no sync stalled"
        for thread in asking:
            thread.join()
        for member in members:
            downs = [line for line in member.told() if "link-down" in line]
            assert not downs, f"member {member.me}: {downs}"


def main():
    parser = argparse.ArgumentParser(usage=__doc__)
    parser.add_argument("--seconds", type=int, default=60)
    parser.add_argument("program", nargs="?", default=f"{TOP}/crates/bracha/out/bracha")
    words = parser.parse_args()
    program = os.path.realpath(words.program)
    failed = 0
    room = tempfile.TemporaryDirectory(prefix="bracha-stall.")
    library = f"{room.name}/stall.so"
    subprocess.run([os.environ.get("CC", "cc"), "-O2", "-shared", "-fPIC", "-o", library, f"{TOP}/tests/stall.c", "-ldl"], check=True)
    tests = {
        "too many that do not greet": lambda: too_many_that_do_not_greet(program),
        "too many clients": lambda: too_many_clients(program),
        "clients that say nothing": lambda: clients_that_say_nothing(program),
        "false greetings": lambda: false_greetings(program),
        "two links of a peer": lambda: two_links_of_a_peer(program),
        "a peer that comes and goes": lambda: a_peer_that_comes_and_goes(program),
        "one statement many times": lambda: one_statement_many_times(program),
        "few files": lambda: few_files(program),
        "few clients": lambda: few_clients(program),
        "slow ends": lambda: slow_ends(program),
        "a disk that stalls": lambda: stalled_disk(program, library),
        "flood": lambda: flood(program, words.seconds),
    }
    for name, test in tests.items():
        try:
            test()
            print(f"{name}: as it has to be", flush=True)
        except (AssertionError, OSError, subprocess.SubprocessError) as trouble:
            failed += 1
            print(f"{name}: {trouble!r}", flush=True)
    print(f"{len(tests) - failed} passed, {failed} failed")
    return 1 if failed else 0


if __name__ == "__main__":
    sys.exit(main())
