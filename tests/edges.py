#!/usr/bin/env python3
"""tests/edges.py [PROGRAM [CHECK..]]

Looks at the edges of the built program for what a user would suffer from and no contract says: how long a client waits, which
statuses commands end with, whose links a member takes, what it opens and says more often than it should, what a command leaves
behind. Plays the checks that are named, else all. PROGRAM is crates/bracha/out/bracha unless another is named. It takes the ports
28400 to 29779, a C compiler, and a minute and a half, with a process for each check and a dozen at a time. Prints what is wrong, and in
its last line `N passed, M failed`; the status is 1 where M isn't 0.
"""
import concurrent.futures
import contextlib
import ctypes
import errno
import fcntl
import itertools
import json
import multiprocessing
import os
import resource
import shutil
import signal
import socket
import struct
import subprocess
import sys
import tempfile
import threading
import time

TOP = os.path.dirname(os.path.dirname(os.path.realpath(__file__)))
PROGRAM = os.path.realpath(sys.argv[1] if len(sys.argv) > 1 else f"{TOP}/crates/bracha/out/bracha")
IDLE = b"\x00\x01\x00"
AT_ONCE = 12
CHECKS = []


def check(function):
    """A function that gives what is wrong, if anything is. It has a folder of its own, and a number for ports of its own."""
    CHECKS.append(function)
    return function


def say(words, folder, limit=12, **more):
    """What the program says on both streams, and its status; it has so many seconds."""
    try:
        ran = subprocess.run([PROGRAM, *words], cwd=folder, stdin=subprocess.DEVNULL, stdout=subprocess.PIPE, stderr=subprocess.STDOUT,
                             text=True, timeout=limit, **more)
    except subprocess.TimeoutExpired:
        return f"goes on for {limit} seconds", None
    return ran.stdout, ran.returncode


def apart(words, folder, **more):
    """What the program says on its standard output, what on its standard error, and its status."""
    ran = subprocess.run([PROGRAM, *words], cwd=folder, stdin=subprocess.DEVNULL, stdout=subprocess.PIPE, stderr=subprocess.PIPE, text=True,
                         timeout=20, check=False, **more)
    return ran.stdout, ran.stderr, ran.returncode


def differs(what, is_so, should):
    return [] if is_so == should else [f"{what}: {is_so!r}, and not {should!r}"]


def settings(folder, me, peers, desk, n, t, questions=64, cluster=7, more=""):
    path = f"{folder}/member-{me}.toml"
    with open(path, "w", encoding="ascii") as file:
        file.write(f'cluster = {cluster}\nn = {n}\nt = {t}\nquestions = {questions}\nme = {me}\njournal = "{folder}/member-{me}.journal"\n'
                   f'peers = {json.dumps(peers)}\ndesk = "{desk}"\nseed = "{me + 1:064x}"\n{more}')
    return path


@contextlib.contextmanager
def running(path, *options, new=True, stays=True, **more):
    """A member that runs until a signal, or until its input ends."""
    if new:
        subprocess.run([PROGRAM, "init", path], check=True)
    words, given = (["--stay"], subprocess.DEVNULL) if stays else ([], subprocess.PIPE)
    with open(f"{path}.log", "ab") as log:
        process = subprocess.Popen([PROGRAM, "run", *words, *options, path], stdin=given, stdout=subprocess.PIPE, stderr=log, **more)
    try:
        assert b"ready" in process.stdout.readline(), f"{path} isn't ready"
        yield process
    finally:
        process.kill()
        process.wait()
        process.stdout.close()


def hello(me, to, n=4, t=1, questions=64, cluster=7, version=2):
    return struct.pack(">HBBQBBHBB", 16, 1, version, cluster, n, t, questions, me, to)


def dial(port, host="127.0.0.1", timeout=5.0):
    return socket.create_connection(("127.0.0.1", port), timeout=timeout, source_address=(host, 0))


def is_welcomed(port, me, to, host="127.0.0.1", **size):
    """Greets in that member's name from that host: the link where it is welcomed, or none."""
    link = dial(port, host)
    try:
        link.sendall(hello(me, to, **size))
        if len(link.recv(11, socket.MSG_WAITALL)) == 11:
            return link
    except OSError:
        pass
    link.close()
    return None


def soon(tries, seconds=3):
    """What comes of one of some tries in so many seconds, if anything does."""
    for _ in range(10 * seconds):
        found = tries()
        if found:
            return found
        time.sleep(0.1)
    return None


def await_one(desk, replies, question):
    """Asks a desk until it has decided 1 on a question, for twenty seconds at most."""
    end = time.monotonic() + 20
    while time.monotonic() < end:
        desk.sendall(b"ASK %d\n" % question)
        if replies.readline() == b"DECIDED 1\n":
            return
        time.sleep(0.002)
    raise TimeoutError(f"question {question} is undecided for 20 seconds")


@contextlib.contextmanager
def serving(port, answer, listener=None):
    """Has a thread answer each connection to the port, by this socket where one is given."""
    if listener:
        listener.setsockopt(socket.SOL_SOCKET, socket.SO_REUSEADDR, 1)
        listener.bind(("127.0.0.1", port))
        listener.listen(64)
    else:
        listener = socket.create_server(("127.0.0.1", port), backlog=64)

    def accepts():
        while True:
            try:
                link, _ = listener.accept()
            except OSError:
                return
            threading.Thread(target=answers, args=(link,), daemon=True).start()

    def answers(link):
        with contextlib.suppress(OSError), link:
            answer(link)

    threading.Thread(target=accepts, daemon=True).start()
    try:
        yield
    finally:
        listener.shutdown(socket.SHUT_RDWR)
        listener.close()


def client_file(folder, ports):
    path = f"{folder}/client.toml"
    desks = ", ".join(f'"127.0.0.1:{it}"' for it in ports)
    with open(path, "w", encoding="ascii") as file:
        file.write(f"cluster = 7\nn = {len(ports)}\nt = 0\nquestions = 64\ndesks = [{desks}]\n")
    return path


@check
def clients_give_up(folder, port):
    """Each command that speaks to a desk ends with its time, whether the desk is silent, at an address or a path, or can't be connected
    to; one that is told no time waits half a minute for a reply."""
    full = socket.socket()
    full.bind(("127.0.0.1", port + 1))
    full.listen(0)
    fillers = [socket.socket() for _ in range(4)]
    for filler in fillers:
        filler.setblocking(False)
        filler.connect_ex(("127.0.0.1", port + 1))

    def late(words, least=0, most=3):
        begun = time.monotonic()
        said, status = say(["--quiet", *words], folder, most + 9)
        took = time.monotonic() - begun
        return differs(f"{' '.join(words)} ({took:.1f} s)", (said, status, least < took < most), ("bracha: no answer\n", 1, True))

    local = socket.socket(socket.AF_UNIX)
    local.bind(f"{folder}/desk")
    local.listen(16)
    with serving(port, lambda link: time.sleep(60)), concurrent.futures.ThreadPoolExecutor(32) as pool:
        found = [pool.submit(late, ["status", f"127.0.0.1:{port}"], 29, 40)]
        for desk in (f"127.0.0.1:{port}", f"127.0.0.1:{port + 1}", "unix:desk"):
            found += [pool.submit(late, words) for words in (
                ["ask", "--timeout", "1", desk, "0"], ["propose", "--timeout", "1", desk, "0", "1"],
                ["status", "--timeout", "1", desk], ["status", "--links", "--timeout", "1", desk],
                ["status", "--ready", "--timeout", "1", desk], ["status", "--question", "0", "--timeout", "1", desk],
                ["transcript", "--timeout", "1", desk, "0"])]
        result = [wrong for it in found for wrong in it.result()]
        path = client_file(folder, [port, port + 1, port + 2])

        def all_late(command, told, *more):
            begun = time.monotonic()
            said, status = say(["--quiet", *command.split(), "--timeout", "1", path, *more], folder)
            took = time.monotonic() - begun
            return differs(f"{command} ({took:.1f} s)", (status, 0.5 < took < 3, said.count(told)), (1, True, 3))

        found = [pool.submit(all_late, *words) for words in (
            ("propose --all", "no answer", "0", "1"), ("status --all", "no answer"), ("ask --all", "doesn't answer", "0"),
            ("ask --all --wait", "doesn't answer", "0"), ("decide --all", "doesn't answer", "0", "1"),
            ("transcript --all", "doesn't answer", "0"), ("audit --all", "doesn't answer", "0"), ("epochs", "no answer"))]
        result += [wrong for it in found for wrong in it.result()]
    for it in (full, local, *fillers):
        it.close()
    return result


@check
def waiting_rests_and_ends(folder, port):
    """A client that waits for a decision asks now and then, ends with its time, and prints JSON where it is asked to."""
    asked = []

    def undecided(link):
        for _ in link.makefile("rb"):
            asked.append(time.monotonic())
            link.sendall(b"UNDECIDED\n")

    decided = threading.Event()

    def late(link):
        for _ in link.makefile("rb"):
            link.sendall(b"DECIDED 1\n" if decided.is_set() else b"UNDECIDED\n")
            decided.set()

    def closes(_):
        asked.append(time.monotonic())

    desk = f"127.0.0.1:{port}"
    found = []
    with serving(port, undecided), serving(port + 1, late), serving(port + 2, closes):
        said, status = say(["ask", "--wait", "--timeout", "1.5", f"127.0.0.1:{port + 2}", "3"], folder)
        found += differs("ask --wait at a desk that closes", (status, 1 < len(asked) < 60), (1, True))
        for more, text in (([], "UNDECIDED\n"), (["--json"], None)):
            asked.clear()
            begun = time.monotonic()
            said, status = say(["ask", "--wait", "--timeout", "1.5", *more, desk, "3"], folder)
            took = time.monotonic() - begun
            found += differs("ask --wait", (status, 1 < took < 4, 1 < len(asked) < 60), (1, True, True))
            found += differs("ask --wait", said, text) if text else differs("its JSON", said, '{"undecided":true}\n')
        said, status = say(["ask", "--wait", "--json", "--timeout", "5", f"127.0.0.1:{port + 1}", "3"], folder)
        found += differs("a decision's JSON", (said, status), ('{"decided":1}\n', 0))
    return found


@check
def who_has_too_few_links_is_not_ready(folder, port):
    """`status --ready` has status 0 only if the member has as many links in and out as it needs; `status --links` has it anyway."""
    found = []
    for place, (reply, ready) in enumerate((("LINKS 3 3 4 3", 0), ("LINKS 2 4 4 3", 1), ("LINKS 4 2 4 3", 1))):
        with serving(port + place, lambda link, reply=reply: [link.sendall(f"{reply}\n".encode()) for _ in link.makefile("rb")]):
            for option, status in (("--ready", ready), ("--links", 0)):
                found += differs(f"{option}, {reply}", say(["status", option, f"127.0.0.1:{port + place}"], folder), (f"{reply}\n", status))
    return found


@check
def the_last_members_share_a_second(folder, port):
    """`ask --all` waits a second for the last t members together, and not for each of them."""

    def after(seconds):
        def undecided(link):
            link.recv(100)
            time.sleep(seconds)
            link.sendall(b"UNDECIDED\n")

        return undecided

    path = f"{folder}/client.toml"
    with open(path, "w", encoding="ascii") as file:
        desks = ", ".join(f'"127.0.0.1:{port + it}"' for it in range(16))
        file.write(f"cluster = 7\nn = 16\nt = 5\nquestions = 64\ndesks = [{desks}]\n")
    with contextlib.ExitStack() as stack:
        for member, seconds in enumerate([0] * 11 + [0.8, 1.6, 2.4, 3.2, 60]):
            stack.enter_context(serving(port + member, after(seconds)))
        begun = time.monotonic()
        said, status = say(["ask", "--all", "--timeout", "9", path, "0"], folder)
        took = time.monotonic() - begun
    return differs(f"ask --all ({took:.1f} s)", (said.split("\n")[0], status, 0.9 < took < 3), ("UNDECIDED", 1, True))


@check
def one_of_all_is_down(folder, port):
    """A proposal to all has the status of its worst reply, wherever the member stands that is down, in any folder."""

    def ok(link):
        for _ in link.makefile("rb"):
            link.sendall(b"OK\n")

    found = []
    with serving(port, ok), serving(port + 1, ok):
        for ports in ([port, port + 1, port + 2], [port + 2, port, port + 1], [port, port + 2, port + 1]):
            os.makedirs(f"{folder}/of", exist_ok=True)
            client_file(f"{folder}/of", ports)
            said, status = say(["--quiet", "propose", "--all", "--timeout", "2", "of/client.toml", "0", "1"], folder)
            found += differs(f"{ports}", (said.count("OK"), status), (2, 1))
        client_file(f"{folder}/of", [port, port + 1])
        found += differs("all up", say(["propose", "--all", "of/client.toml", "0", "1"], folder), ("member 0 OK\nmember 1 OK\n", 0))
    return found


@check
def a_new_journal_outlives_its_count(folder, port):
    """A migration whose count can't be printed leaves the new journal, which is whole by then; one that fails takes only its own file away."""
    old = b"BRACHAJ1\0\0\0\0\0\0\0\x07\x04\x01\0\x01\x01\0\0\0\x01\0\x01\x02\0\0\0\x01\x01\x01\0"
    with open(f"{folder}/old", "wb") as file:
        file.write(old)
    with open("/dev/full", "w", encoding="ascii") as full:
        ran = subprocess.run([PROGRAM, "--quiet", "migrate", "old", "new"], cwd=folder, stdout=full, stderr=subprocess.PIPE, text=True)
    found = differs("migrate >/dev/full", (ran.returncode, ran.stderr), (1, "bracha: stream\n"))
    said, status = say(["dump", "new"], folder)
    found += differs("the new journal", (said.splitlines()[1:], status), (["echo 0 0 1 1 one"], 0))
    with open(f"{folder}/damaged", "wb") as file:
        file.write(old[:-2])
    with open(f"{folder}/there", "wb"):
        pass
    os.symlink("far", f"{folder}/link")
    for new in ("there", "not-there", "link"):
        found += differs(f"a damaged journal into {new}", say(["--quiet", "migrate", "damaged", new], folder), ("bracha: migrate CutShort\n", 1))
    left = [os.path.lexists(f"{folder}/{new}") for new in ("there", "not-there", "link", "far")]
    return found + differs("what was there, what wasn't, a link, and what it leads to, are left", left, [True, False, True, False])


@check
def new_clusters(folder, port):
    """Seeds are random from end to end, what fails leaves no seed, and what comes next is told."""
    found = []
    said, status = say(["new-cluster", "--n", "16", "--t", "5", "--questions", "1", "--cluster", "7", "many"], folder)
    seeds = []
    for member in range(16):
        with open(f"{folder}/many/member-{member}.toml", encoding="ascii") as file:
            seeds += [line.split('"')[1] for line in file if line.startswith("seed")]
    quarters = {seed[at:at + 16] for seed in seeds for at in range(0, 64, 16)}
    found += differs("quarters of 16 seeds", (len(seeds), len(quarters)), (16, 64))
    found += differs("next steps", (status, "bracha init" in said, "bracha run" in said), (0, True, True))
    listens = [f"many/member-{it}.toml: member {it} at 127.0.0.1:{7100 + it}" for it in range(16)]
    found += differs("where the members listen", said.splitlines()[:16], listens)
    # On several hosts nobody reaches all desks at 127.0.0.1.
    apart_words, all_words = "  bracha propose DESK 0 1\n", "  bracha propose --all client.toml 0 1\n"
    for number, (words, one_reaches_all) in enumerate((([], True), (["--desk", "links"], True), ([], False))):
        hosts = ["10.0.0.1,10.0.0.1,10.0.0.1,10.0.0.1", "10.0.0.1,10.0.0.2,10.0.0.3,10.0.0.4", "10.0.0.1,10.0.0.1,10.0.0.1,10.0.0.2"][number]
        said, status = say(["new-cluster", "--n", "4", "--t", "1", "--questions", "1", "--cluster", "7", *words, f"hosts-{number}", hosts], folder)
        found += differs(f"desks of {hosts}", (status, all_words in said, apart_words in said), (0, one_reaches_all, not one_reaches_all))

    def no_room():
        signal.signal(signal.SIGXFSZ, signal.SIG_IGN)
        resource.setrlimit(resource.RLIMIT_FSIZE, (0, 0))

    said, status = say(["new-cluster", "--n", "4", "--t", "1", "--questions", "1", "--cluster", "7", "none"], folder, preexec_fn=no_room)
    left = os.listdir(f"{folder}/none") if os.path.isdir(f"{folder}/none") else []
    return found + differs("after a write that failed", (status, left), (1, []))


@check
def checks_of_settings(folder, port):
    """`check` has one status with --json and without, and knows a journal past 16 MiB."""
    peers = [f"127.0.0.1:{port + it}" for it in (0, 1, 2, 1)]
    path = settings(folder, 0, peers, f"127.0.0.1:{port + 5}", 4, 1)
    subprocess.run([PROGRAM, "init", path], check=True)
    words = f"bracha: listen\n127.0.0.1:{port + 1}: listen: members 1 and 3 have this address\n"
    found = []
    for more in ([], ["--json"]):
        said, status = say(["check", *more, path], folder)
        found += differs("two members at one address", (said.endswith(words), status), (True, 1))
    path = settings(folder, 2, [f"127.0.0.1:{port + it}" for it in range(2)] + ["203.0.113.9:7100"], f"127.0.0.1:{port + 5}", 3, 0)
    subprocess.run([PROGRAM, "init", path], check=True)
    found += [wrong for more in ([], ["--json"]) for wrong in differs("an own address of no host", say(["check", *more, path], folder)[1], 1)]
    path = settings(folder, 1, [f"127.0.0.1:{port + it}" for it in range(4)], f"127.0.0.1:{port + 5}", 4, 1)
    header = b"BRACHAJ2" + struct.pack(">QBBHB3x", 7, 4, 1, 64, 1)
    batch = b"\x01" + struct.pack(">H", 60000) + bytes.fromhex("020000000111") * 60000
    with open(f"{folder}/member-1.journal", "wb") as file:
        file.write(header + batch * 50 + b"\x00")
    said, status = say(["check", path], folder)
    return found + differs("a journal of 18 MB", ("3000000" in said, status), (True, 0))


@check
def a_folder_for_an_input(folder, port):
    """A run whose input can't be read ends with that fault, and so does what can't print all that it has to say."""
    path = settings(folder, 0, [f"127.0.0.1:{port}"], f"127.0.0.1:{port + 1}", 1, 0)
    subprocess.run([PROGRAM, "init", path], check=True)
    descriptor = os.open("/", os.O_RDONLY)
    ran = subprocess.run([PROGRAM, "--quiet", "run", path], stdin=descriptor, stdout=subprocess.PIPE, stderr=subprocess.STDOUT, text=True,
                         timeout=20)
    os.close(descriptor)
    found = differs("run </", (ran.returncode, ran.stdout), (1, "member 0 ready\nbracha: stream\n"))
    with open("/dev/full", "w", encoding="ascii") as full:
        for words in (["--quiet", "run", "--stay", path], ["--quiet", "new-cluster", "--n", "4", "--t", "1", "--questions", "1", "--cluster", "7", "many"]):
            ran = subprocess.run([PROGRAM, *words], cwd=folder, stdin=subprocess.DEVNULL, stdout=full, stderr=subprocess.PIPE, text=True, timeout=20,
                                 check=False)
            found += differs(f"{words[1]} >/dev/full", (ran.returncode, ran.stderr), (1, "bracha: stream\n"))
    return found + differs("the files of the cluster", len(os.listdir(f"{folder}/many")), 5)


@check
def a_proof_of_more_liars(folder, port):
    """`audit` heeds each of its numbers: what three of four members said is proof where one may lie, and none where all are heard."""
    path = settings(folder, 0, [f"127.0.0.1:{port + it}" for it in range(4)], f"127.0.0.1:{port + 10}", 4, 1)
    paths = [path] + [settings(folder, me, [f"127.0.0.1:{port + it}" for it in range(4)], f"127.0.0.1:{port + 10 + me}", 4, 1) for me in (1, 2)]
    with contextlib.ExitStack() as stack:
        for it in paths:
            stack.enter_context(running(it))
        for me in range(3):
            say(["propose", f"127.0.0.1:{port + 10 + me}", "2", "1"], folder)
        say(["ask", "--wait", "--timeout", "20", f"127.0.0.1:{port + 10}", "2"], folder)
        said, _ = say(["transcript", f"127.0.0.1:{port + 10}", "2"], folder)
        took = []
        for question in range(10, 20):
            links = [dial(port + 10 + me) for me in range(3)]
            begun = time.monotonic()
            for link in links:
                link.sendall(b"PROPOSE %d 1\n" % question)
            lines = [link.makefile("rb") for link in links]
            for line in lines:
                line.readline()
            for link, line in zip(links, lines):
                await_one(link, line, question)
            took.append(time.monotonic() - begun)
            for link in links:
                link.close()
    with open(f"{folder}/proof", "w", encoding="ascii") as file:
        file.write(said)
    found = differs("the fastest of ten decisions is within half a second", min(took) < 0.5, True)
    for size, answer in ((("4", "1", "64"), ("yes\n", 0)), (("7", "2", "64"), ("no\n", 1)), (("4", "0", "64"), ("no\n", 1))):
        found += differs(f"audit of {size}", say(["audit", "proof", "--n", size[0], "--t", size[1], "--questions", size[2]], folder), answer)
    return found


def lines_of(path):
    """The lines that the member of these settings has logged so far, without their times."""
    with open(f"{path}.log", encoding="utf-8") as log:
        return [line.split("Z ", 1)[-1].rstrip("\n") for line in log]


def lacks(path, heads):
    """Those of these beginnings with which no line of the member's log begins."""
    return sorted(head for head in heads if not any(line.startswith(head) for line in lines_of(path)))


def follows_another(port):
    """The link of a member that is welcomed though its Hello came a moment before the end of the one before."""
    before = soon(lambda: is_welcomed(port, 1, 0, "127.0.0.2"))
    link = dial(port, "127.0.0.2")
    link.sendall(hello(1, 0))
    time.sleep(0.1)
    if before:
        before.close()
    with contextlib.suppress(OSError):
        if len(link.recv(11, socket.MSG_WAITALL)) == 11:
            link.close()
            return link
    link.close()
    return None


@check
def links_of_a_member(folder, port):
    """Whose links are taken, with a log too; that a link which was lost is taken again, and greetings are given back."""
    peers = [f"127.0.0.1:{port}", f"127.0.0.2:{port + 1}", f"127.0.0.3:{port + 1}", f"127.0.0.3:{port + 2}"]
    path = settings(folder, 0, peers, f"127.0.0.1:{port + 9}", 4, 1)
    found = []
    with running(path, "--log") as process:
        descriptors = lambda: len(os.listdir(f"/proc/{process.pid}/fd"))
        time.sleep(0.5)
        before = descriptors()
        foreign = is_welcomed(port, 1, 0, "127.0.0.4")
        found += differs("a link from a host that is no member's", foreign, None)
        other = is_welcomed(port, 1, 0, "127.0.0.3")
        found += differs("a link from another member's host", other, None)
        for turn in range(3):
            link = soon(lambda: is_welcomed(port, 1, 0, "127.0.0.2"))
            if not link:
                found.append(f"a link that was lost {turn} times isn't taken again")
                break
            link.setsockopt(socket.SOL_SOCKET, socket.SO_LINGER, struct.pack("ii", 1, 0))
            link.close()
        found += differs("a link that greets while the one before ends is welcomed", soon(lambda: follows_another(port)) is not None, True)
        strangers = [dial(port, "127.0.0.9") for _ in range(70)]
        first, link = soon(lambda: is_welcomed(port, 1, 0, "127.0.0.2")), soon(lambda: is_welcomed(port, 2, 0, "127.0.0.3"))
        found += differs("members beside 70 silent strangers are welcomed", (first is not None, link is not None), (True, True))
        begun = time.monotonic()
        second, took = is_welcomed(port, 1, 0, "127.0.0.2"), time.monotonic() - begun
        found += differs(f"a second link is refused after half a second ({took:.1f} s)", (second, 0.4 < took < 1.8), (None, True))
        for it in strangers:
            it.close()
        silent = [dial(port, "127.0.0.2") for _ in range(110)]
        time.sleep(0.5)
        again = is_welcomed(port, 3, 0, "127.0.0.3")
        found += differs("a member is welcomed beside another's host that takes all its places", again is not None, True)
        for it in (first, link, again, *silent):
            if it:
                it.close()
        found += differs("descriptors come down", soon(lambda: descriptors() <= before + 4), True)
        wanted = ("link-up from 1", "link-down from 1 lost", "refused from 127.0.0.4 stranger", "refused from 127.0.0.3 stranger: member 1 from another host")
        found += differs("lines that the log lacks", soon(lambda: not lacks(path, wanted)) or lacks(path, wanted), True)
    own = [it for it in lines_of(path) if it.startswith("link") and (it.endswith(" 0") or " 0 " in it)]
    return found + differs("what is told of its own links", own, [])


@check
def dials_and_descriptors(folder, port):
    """A member whose dials are closed at once dials a few times a second at most, and keeps none of them."""
    dialled = []
    peers = [f"127.0.0.1:{port + it}" for it in range(4)]
    path = settings(folder, 0, peers, f"127.0.0.1:{port + 9}", 4, 1)
    with serving(port + 1, lambda link: dialled.append(time.monotonic())):
        with running(path) as process:
            time.sleep(2)
            before = len(os.listdir(f"/proc/{process.pid}/fd"))
            count = len(dialled)
            time.sleep(6)
            after = len(os.listdir(f"/proc/{process.pid}/fd"))
            count = len(dialled) - count
            with open(f"/proc/{process.pid}/stat", encoding="ascii") as file:
                ticks = sum(int(it) for it in file.read().rsplit(")", 1)[1].split()[11:13])
    return differs("dials in 6 seconds", 4 <= count <= 16, True) + differs("descriptors more than before", max(0, after - before - 3), 0) \
        + differs("ticks of a processor in 8 seconds", ticks < 60, True)


@check
def idles_of_a_writer(folder, port):
    """A writer with nothing to say says an Idle about once a second, however often its member is asked and decides."""
    idles = []

    def listens(link):
        if len(link.recv(18, socket.MSG_WAITALL)) < 18:
            return
        # A Welcome: all of it is to come.
        link.sendall(struct.pack(">HBQ", 9, 2, 0))
        while len(length := link.recv(2, socket.MSG_WAITALL)) == 2:
            if link.recv(struct.unpack(">H", length)[0], socket.MSG_WAITALL) == b"\0":
                idles.append(time.monotonic())

    peers = [f"127.0.0.1:{port + it}" for it in range(4)]
    with contextlib.ExitStack() as stack:
        stack.enter_context(serving(port + 3, listens))
        for me in range(3):
            stack.enter_context(running(settings(folder, me, peers, f"127.0.0.1:{port + 10 + me}", 4, 1)))
        time.sleep(2.5)
        desks = [stack.enter_context(dial(port + 10 + me)) for me in range(3)]
        lines = [desk.makefile("rb") for desk in desks]
        before, begun = len(idles), time.monotonic()
        for question in range(64):
            for desk in desks:
                desk.sendall(b"PROPOSE %d 1\n" % question)
            for desk, line in zip(desks, lines):
                line.readline()
                await_one(desk, line, question)
        count, took = len(idles) - before, time.monotonic() - begun
    return differs(f"{count} idles on three links in {took:.1f} seconds are few", count <= 3 * took + 6, True)


@check
def a_long_chart_takes_no_memory(folder, port):
    """A chart is written as it is made: within the memory of a run it draws a page that has no room in it."""
    with open(f"{folder}/long.script", "w", encoding="ascii") as file:
        file.write("n 4\nt 1\nquestions 256\nliars\nseed 1\n"
                   + "".join(f"propose {me} {question} 1\n" for question in range(256) for me in range(4)) + "rounds 14000\n")
    limit = 48000 * 1024
    said, status = say(["simulate", "long.script", "--chart", "chart.svg"], folder,
                       preexec_fn=lambda: resource.setrlimit(resource.RLIMIT_AS, (limit, limit)))
    drawn = os.path.getsize(f"{folder}/chart.svg") if os.path.exists(f"{folder}/chart.svg") else 0
    return differs("a chart of 45 MB within 48", (status, drawn > 45_000_000), (0, True)) or differs("what is said", "memory" in said, False)


@contextlib.contextmanager
def clusters(folder, port, n=4, t=1, questions=64):
    """A cluster whose members run: their settings, and a call that starts one of them again after it was killed."""
    peers = [f"127.0.0.1:{port + it}" for it in range(n)]
    paths = [settings(folder, it, peers, f"127.0.0.1:{port + n + it}", n, t, questions) for it in range(n)]
    with contextlib.ExitStack() as stack:
        members = [stack.enter_context(running(path)) for path in paths]

        def again(member):
            members[member].kill()
            members[member].wait()
            members[member] = stack.enter_context(running(paths[member], new=False))

        yield [port + n + it for it in range(n)], members, again


def told(port, line, timeout=15.0):
    """The reply of a desk to a line, and how long it took."""
    begun = time.monotonic()
    with dial(port, timeout=timeout) as link:
        link.sendall(line.encode() + b"\n")
        return link.makefile("r").readline().strip(), time.monotonic() - begun


def propose(desks, question, bit):
    for desk in desks:
        told(desk, f"PROPOSE {question} {bit}")


@check
def who_waits_is_told_at_once(folder, port):
    """AWAIT is answered as soon as its question is decided, holds nobody up meanwhile, and waits ten seconds for one that isn't."""
    with clusters(folder, port) as (desks, members, _), concurrent.futures.ThreadPoolExecutor(16) as pool:
        begun = time.monotonic()
        waiting = [pool.submit(told, desk, f"AWAIT {question}") for desk in desks for question in (1, 2)]
        vain = pool.submit(told, desks[0], "AWAIT 9")
        time.sleep(1)
        found = differs("ASK beside them", told(desks[0], "ASK 1")[0], "UNDECIDED")
        propose(desks, 1, 1)
        propose(desks, 2, 0)
        decided = time.monotonic() - begun
        for number, it in enumerate(waiting):
            reply, took = it.result()
            found += differs("AWAIT", (reply, 1 <= took < decided + 1), (f"DECIDED {1 - number % 2}", True))
        late = []
        for question in range(10, 21):
            waits = pool.submit(told, desks[0], f"AWAIT {question}")
            time.sleep(0.1)
            propose(desks, question, question % 2)
            begun = time.monotonic()
            found += differs("AWAIT, one by one", waits.result()[0], f"DECIDED {question % 2}")
            late.append(time.monotonic() - begun)
        found += differs(f"half of them at once ({sorted(late)[5]:.2f} s)", sorted(late)[5] < 0.3, True)
        reply, took = vain.result()
        found += differs("AWAIT in vain", (reply, 8.5 < took < 11.5), ("UNDECIDED", True))
        last = pool.submit(told, desks[3], "AWAIT 9")
        time.sleep(0.3)
        begun = time.monotonic()
        members[3].send_signal(signal.SIGKILL)
        last.result()
        return found + differs("AWAIT at a member's end", time.monotonic() - begun < 2, True)


def followed(port, number, lines, stop):
    """Reads a follower's lines from that number on, and connects again from behind the last one, until all are there."""
    while not stop.is_set():
        try:
            with dial(port, timeout=12.0) as link:
                link.sendall(f"FOLLOW {number + sum(1 for it in lines if it)}\n".encode())
                for line in link.makefile("r"):
                    lines.append(line.strip())
        except OSError:
            pass
        time.sleep(0.05)


@check
def who_follows_misses_nothing(folder, port):
    """A follower is told each decision once, in the order of the member's journal, over kills of the member, and an empty line
    where there is none for a while."""
    with clusters(folder, port) as (desks, members, again):
        stop, lines, later = threading.Event(), [], []
        for wanted, number in ((lines, 0), (later, 3)):
            threading.Thread(target=followed, args=(desks[1], number, wanted, stop), daemon=True).start()
        order = [7, 3, 40, 1, 63, 22]
        for number, question in enumerate(order):
            propose(desks, question, question % 2)
            told(desks[1], f"AWAIT {question}")
            if number == 2:
                again(1)
        soon(lambda: sum(1 for it in lines if it) == len(order))
        late = []
        for question in range(30, 39):
            order.append(question)
            propose(desks, question, question % 2)
            begun = time.monotonic()
            soon(lambda: sum(1 for it in lines if it) == len(order))
            late.append(time.monotonic() - begun)
        found = differs(f"half of them told at once ({sorted(late)[4]:.2f} s)", sorted(late)[4] < 0.3, True)
        # By now its journal has some four hundred records.
        again(1)
        before = len(lines)
        found += differs("a member that is started with all its records", told(desks[1], "AWAIT 38")[0], "DECIDED 0")
        soon(lambda: "" in lines[before:], 9)
        time.sleep(1)
        found += differs("empty lines in a second", lines[before:].count("") <= 2, True)
        members[1].send_signal(signal.SIGKILL)
        stop.set()
        members[1].wait()
        dumped, _ = say(["dump", "member-1.journal"], folder)
        saved = [line.split() for line in dumped.splitlines() if line.startswith("decided")]
        journal = [f"DECIDED {it[it.index('question') + 1] if 'question' in it else it[1]} {it[-1]}" for it in saved]
        heard = [it for it in lines if it]
        found += differs("the follower and the journal", heard, journal)
        found += differs("all questions", sorted(int(it.split()[1]) for it in heard), sorted(order))
        found += differs("the follower from number 3 on", [it for it in later if it], heard[3:])
        return found + differs("an empty line", "" in lines[before:], True)


def answer(reply):
    """A desk that answers each line with this reply."""
    return lambda link: [link.sendall(reply) for _ in link.makefile("rb")]


# Desks that a client must not wait for, or believe; the port of the one that is down has no listener.
FAULTY = {"lies": answer(b"DECIDED 0\n"),
          "is silent": lambda link: time.sleep(20),
          "drips": lambda link: [(link.sendall(b"D"), time.sleep(0.1)) for _ in range(200)],
          "talks": answer(b"HELLO\n"),
          "hangs up": lambda link: link.close(),
          "is down": None}


@contextlib.contextmanager
def desks_with(port, good):
    """Three desks that do so, at the first three ports, and one of each fault: the ports of all four, for a fault and its place."""
    with contextlib.ExitStack() as stack:
        for number in range(3):
            stack.enter_context(serving(port + number, good))
        for number, does in enumerate(FAULTY.values()):
            if does:
                stack.enter_context(serving(port + 3 + number, does))

        def ports(fault, place):
            found = [port, port + 1, port + 2]
            found.insert(place, port + 3 + list(FAULTY).index(fault))
            return found

        yield ports


def cluster_file(folder, name, ports, t=1):
    path = f"{folder}/{name.replace(' ', '-')}.toml"
    desks = ", ".join(f'"127.0.0.1:{it}"' for it in ports)
    with open(path, "w", encoding="ascii") as file:
        file.write(f"cluster = 7\nn = {len(ports)}\nt = {t}\nquestions = 64\ndesks = [{desks}]\n")
    return path


def timed(words, folder, limit=12):
    begun = time.monotonic()
    said, status = say(words, folder, limit)
    return said, status, time.monotonic() - begun


def beside_faults(folder, ports, words, should, within):
    """What is wrong with a command over four members of which one has each fault at each place. `should` gives what it prints."""
    found = []
    with concurrent.futures.ThreadPoolExecutor(24) as pool:
        asked = {(fault, place): pool.submit(timed, [words[0], "--all", *words[1:-1], cluster_file(folder, f"{words[0]}-{fault}-{place}", ports(fault, place)),
                                                     *words[-1]], folder)
                 for fault in FAULTY for place in range(4)}
        for (fault, place), it in asked.items():
            said, status, took = it.result()
            found += differs(f"{words[0]}: member {place} {fault}", (said, status, took < within), (*should(fault, place), True))
    return found


def unanswered(port, threads, times, end):
    """How many of these connections had no answer to their one line before they were closed or this time came: so many times in each of
    so many threads."""
    def ask():
        missing = 0
        for number in range(times):
            if time.time() > end:
                return missing + times - number
            try:
                with dial(port, timeout=15.0) as link:
                    link.sendall(b"ASK 0\n")
                    missing += link.recv(64) != b"UNDECIDED\n"
            except OSError:
                missing += 1
        return missing

    with concurrent.futures.ThreadPoolExecutor(threads) as pool:
        return sum(it.result() for it in [pool.submit(ask) for _ in range(threads)])


def first_reply(desk, lines):
    """What comes first for lines that are sent at once, if anything does in half a second."""
    desk.settimeout(0.5)
    desk.sendall(lines)
    try:
        return desk.recv(65536)
    except TimeoutError:
        return None


@check
def replies_come_together_and_are_not_held_back(folder, port):
    """The replies to lines that come at once are one write. None is held back while the client says nothing, while a line waits for a
    decision, or while a proposal waits for the member to speak."""
    path = settings(folder, 0, [f"127.0.0.1:{port + it}" for it in range(4)], f"127.0.0.1:{port + 9}", 4, 1)
    with running(path), contextlib.ExitStack() as stack:
        desks = [stack.enter_context(dial(port + 9)) for _ in range(4)]
        found = differs("before a proposal to one that listens", first_reply(desks[0], b"ASK 9\nPROPOSE 9 1\n"), b"UNDECIDED\n")
        found += differs("64 lines", first_reply(desks[1], b"ASK 9\n" * 64), b"UNDECIDED\n" * 64)
        found += differs("before a part of a line", first_reply(desks[2], b"ASK 9\nASK"), b"UNDECIDED\n")
        return found + differs("before one that waits", first_reply(desks[3], b"ASK 9\nAWAIT 9\n"), b"UNDECIDED\n")


@check
def twice_as_many_clients_as_places(folder, port):
    """64 clients come again and again, with a line each: each waits for a place in turn, none is closed unanswered, and they don't wait
    long."""
    path = settings(folder, 0, [f"127.0.0.1:{port}"], f"127.0.0.1:{port + 1}", 1, 0)
    with running(path), concurrent.futures.ProcessPoolExecutor(4, multiprocessing.get_context("spawn")) as pool:
        end = time.time() + 45
        waiting = [pool.submit(unanswered, port + 1, 16, 200, end) for _ in range(4)]
        return differs("unanswered in 45 seconds, of 12,800", sum(it.result() for it in waiting), 0)


def is_open(link):
    """Whether a client's line is answered yet."""
    try:
        link.sendall(b"STATUS\n")
        return link.makefile("rb").readline().startswith(b"UP ")
    except OSError:
        return False


@check
def who_is_silent_for_long_gives_its_place(folder, port):
    """Where 32 clients have the places a new one waits, until one leaves or the one that has been silent longest was so for ten
    seconds. Which is closed then the log says. Who speaks or is told something keeps its place."""
    path = settings(folder, 0, [f"127.0.0.1:{port}"], f"127.0.0.1:{port + 1}", 1, 0, more=f'desk-socket = "{folder}/desk"\n')
    with running(path, "--log"), contextlib.ExitStack() as stack:
        # Each has its place before the next one, at another door, comes. Who came first isn't silent.
        first = stack.enter_context(dial(port + 1, timeout=20.0))
        is_open(first)
        local = stack.enter_context(socket.socket(socket.AF_UNIX))
        local.settimeout(5)
        local.connect(f"{folder}/desk")
        is_open(local)
        places = [first, local, *(stack.enter_context(dial(port + 1, timeout=20.0)) for _ in range(30))]
        begun = time.monotonic()
        found = differs("32 clients", [is_open(it) for it in places], [True] * 32)
        leaves = stack.enter_context(dial(port + 1))
        places[31].close()
        found += differs("one leaves, and the next has its place", (is_open(leaves), time.monotonic() - begun < 3), (True, True))
        waits = stack.enter_context(dial(port + 1, timeout=20.0))
        waits.sendall(b"STATUS\n")
        time.sleep(max(0.0, begun + 5 - time.monotonic()))
        found += differs("those that speak", [is_open(it) for it in [first, *places[3:31]]], [True] * 29)
        found += differs("one more", waits.recv(64)[:3], b"UP ")
        found += differs("after ten seconds", 9.5 < time.monotonic() - begun < 13.5, True)
        found += differs("who was silent longest", local.recv(1), b"")
        found += differs("all others", [is_open(it) for it in [first, *places[2:31], leaves]], [True] * 31)
        def said():
            with open(f"{path}.log", encoding="utf-8") as log:
                return [line.split(" ", 1)[1].strip() for line in log if "closed for another" in line]

        return found + differs("the log", soon(said), ["client at place 1 closed for another: silent for 11 s"])


def takes_transcripts(port, clients, seconds):
    """So many clients that ask for transcripts without a pause, for so long, and read them as they come."""
    def take():
        with dial(port, timeout=1.0) as link:
            threading.Thread(target=asks, args=(link,), daemon=True).start()
            end = time.monotonic() + seconds
            while time.monotonic() < end:
                with contextlib.suppress(TimeoutError):
                    link.recv(1 << 16)

    def asks(link):
        with contextlib.suppress(OSError):
            link.sendall(b"TRANSCRIPT 0\n" * 50_000)

    with concurrent.futures.ThreadPoolExecutor(clients) as pool:
        for it in [pool.submit(take) for _ in range(clients)]:
            it.result()


def processor_time(process):
    """The seconds of a processor that a process has taken."""
    with open(f"/proc/{process.pid}/stat", encoding="ascii") as stat:
        user, system = stat.read().rsplit(")", 1)[1].split()[11:13]
    return (int(user) + int(system)) / os.sysconf("SC_CLK_TCK")


@check
def transcripts_hold_nobody_up(folder, port):
    """Eight clients that fetch transcripts without a pause take a sixteenth of a processor, and what it takes to write to them, and
    decisions don't wait for them."""
    with clusters(folder, port) as (desks, members, _), \
            concurrent.futures.ProcessPoolExecutor(2, multiprocessing.get_context("spawn")) as pool:
        for question in range(40):
            propose(desks, question, question % 2)
        told(desks[0], "AWAIT 39")
        taking = [pool.submit(takes_transcripts, desks[0], 4, 5) for _ in range(2)]
        time.sleep(1)
        begun, taken, late = time.monotonic(), processor_time(members[0]), []
        for question in range(40, 47):
            propose(desks, question, 1)
            asked = time.monotonic()
            told(desks[0], f"AWAIT {question}")
            late.append(time.monotonic() - asked)
            time.sleep(0.3)
        share = (processor_time(members[0]) - taken) / (time.monotonic() - begun)
        for it in taking:
            it.result()
        found = differs(f"the member's share of a processor ({share:.2f})", share < 0.4, True)
        return found + differs(f"half of the decisions at once ({sorted(late)[3]:.2f} s)", sorted(late)[3] < 0.3, True)


@check
def a_client_believes_more_than_t(folder, port):
    """`ask --all` prints what more than t members tell, whichever of them lies, is silent, is slow or is down, before it says who
    does; and waits neither for them nor for its time."""
    words = {fault: "bracha: member {} doesn't answer\n" for fault in FAULTY} | {"lies": "bracha: member {} says 0\n"}
    found = []
    with desks_with(port, answer(b"DECIDED 1\n")) as ports, serving(port + 10, answer(b"UNDECIDED\n")), serving(port + 11, answer(b"UNDECIDED\n")), \
            serving(port + 12, answer(b"STOPPED\n")), serving(port + 13, answer(b"UNDECIDED\n")), concurrent.futures.ThreadPoolExecutor(8) as pool:
        should = lambda fault, place: ("DECIDED 1\n" + words[fault].format(place), 0)
        found += beside_faults(folder, ports, ["ask", ["5"]], should, 3)
        # One tells another decision than two who tell one, or is the only one to tell any.
        liar = port + 3
        alone = pool.submit(timed, ["ask", "--all", cluster_file(folder, "alone", [port + 10, port, port + 11, port + 13]), "5"], folder)
        split = pool.submit(timed, ["ask", "--all", cluster_file(folder, "split", [port, liar, port + 10, port + 11]), "5"], folder)
        stopped = pool.submit(timed, ["ask", "--all", cluster_file(folder, "stopped", [port + 12, port, port + 1, port + 2]), "5"], folder)
        silent = pool.submit(timed, ["ask", "--all", cluster_file(folder, "silent", [port + 4, port + 10, port + 11, port + 13]), "5"], folder)
        waits = pool.submit(timed, ["ask", "--all", "--wait", "--timeout", "3", cluster_file(folder, "waits", [port + 10, port, port + 11, port + 13]), "5"], folder)
        json_one = pool.submit(timed, ["ask", "--all", "--json", cluster_file(folder, "json", [port, port + 1, liar, port + 2]), "5"], folder)
        past = pool.submit(timed, ["--quiet", "ask", "--all", cluster_file(folder, "past", [port, port + 1, port + 2, liar]), "64"], folder)
        found += differs("one alone", alone.result()[:2], ("UNDECIDED\nbracha: member 1 says 1\n", 1))
        both = apart(["ask", "--all", cluster_file(folder, "apart", [port, liar, port + 10, port + 11]), "5"], folder)
        found += differs("its two streams", both, ("UNDECIDED\n", "bracha: member 0 says 1\nbracha: member 1 says 0\n", 1))
        found += differs("one of each", split.result()[:2], ("UNDECIDED\nbracha: member 0 says 1\nbracha: member 1 says 0\n", 1))
        found += differs("one is stopped", stopped.result()[:2], ("DECIDED 1\nbracha: member 0 has another reply\n", 0))
        said, status, took = silent.result()
        found += differs("no decision, and one is silent", (said, status, 0.9 < took < 4), ("UNDECIDED\nbracha: member 0 doesn't answer\n", 1, True))
        said, status, took = waits.result()
        found += differs("a wait", (said, status, 2.5 < took < 5), ("UNDECIDED\nbracha: member 1 says 1\n", 1, True))
        found += differs("JSON", json_one.result()[:2], ('{"decided":1}\nbracha: member 2 says 0\n', 0))
        found += differs("past the last question", past.result()[:2], ("bracha: question\n", 2))
    return found


def states(link):
    """A desk at which question 7 is open, and no other was proposed."""
    for line in link.makefile("rb"):
        link.sendall(b"OPEN 2 3\n" if line == b"STATE 7\n" else b"UNPROPOSED\n")


@check
def all_are_spoken_to_at_once(folder, port):
    """`propose --all` and `status --all` print a line a member, in order, and take their time once, whatever one of them does."""
    reply = {"lies": "DECIDED 0"}

    def lines(good, bad, fault, place):
        said = [good] * 3
        said.insert(place, reply.get(fault, bad))
        return "".join(f"member {number} {it}\n" for number, it in enumerate(said))

    with desks_with(port, answer(b"OK\n")) as ports:
        should = lambda fault, place: (lines("OK", "no answer", fault, place), 0 if fault == "lies" else 1)
        found = beside_faults(folder, ports, ["propose", "--timeout", "2", ["5", "1"]], should, 5)
        path = cluster_file(folder, "two-are-silent", [port, port + 4, port + 1, port + 5])
        said, status, took = timed(["propose", "--all", "--timeout", "2", path, "5", "1"], folder)
        found += differs("two are silent", (said, status, 1.5 < took < 4), ("member 0 OK\nmember 1 no answer\nmember 2 OK\nmember 3 no answer\n", 1, True))
    with desks_with(port + 10, answer(b"UP 5 1\n")) as ports:
        found += beside_faults(folder, ports, ["status", "--timeout", "2", []], lambda fault, place: (lines("UP 5 1", "no answer", fault, place), 0 if fault == "lies" else 1), 5)
        path = cluster_file(folder, "json", [port + 10, port + 11, port + 12, port + 18])
        should = "".join(f'{{"member":{it},"reply":{{"up":true,"statements":5,"decided":1}}}}\n' for it in range(3)) + '{"member":3,"reply":null}\n'
        found += differs("JSON", say(["status", "--all", "--json", path], folder), (should, 1))
    with serving(port + 18, states), serving(port + 19, states):
        path = cluster_file(folder, "states", [port + 18, port + 19], 0)
        found += differs("a question", say(["status", "--all", "--question", "7", path], folder), ("member 0 OPEN 2 3\nmember 1 OPEN 2 3\n", 0))
        should = "".join(f'{{"member":{it},"reply":{{"open":true,"round":2,"step":3}}}}\n' for it in (0, 1))
        found += differs("its JSON", say(["status", "--all", "--question", "7", "--json", path], folder), (should, 0))
        should = '{"open":true,"round":2,"step":3}\n'
        found += differs("its JSON, of one", say(["status", "--question", "7", "--json", f"127.0.0.1:{port + 18}"], folder), (should, 0))
    return found


@check
def all_links_are_ready(folder, port):
    """`status --all --ready` has status 0 if the links of each member are enough."""
    with serving(port, answer(b"LINKS 3 3 4 3\n")), serving(port + 1, answer(b"LINKS 4 3 4 3\n")), serving(port + 2, answer(b"LINKS 2 4 4 3\n")):
        good = "member 0 LINKS 3 3 4 3\nmember 1 LINKS 4 3 4 3\n"
        found = differs("enough", say(["status", "--all", "--ready", cluster_file(folder, "enough", [port, port + 1], 0)], folder), (good, 0))
        three = cluster_file(folder, "three", [port, port + 1, port + 2], 0)
        found += differs("not enough", say(["status", "--all", "--ready", three], folder), (good + "member 2 LINKS 2 4 4 3\n", 1))
        return found + differs("only told", say(["status", "--all", "--links", three], folder), (good + "member 2 LINKS 2 4 4 3\n", 0))


@check
def proofs_of_more_than_t_are_wanted(folder, port):
    """`transcript --all` prints the transcript of one member that has one, and `audit --all` says yes to proofs of one bit that more
    than t members send, whichever member lies, is silent or is down; never to those of t."""
    texts = {}
    with clusters(folder, port) as (desks, _, _):
        for question, bit in ((5, 1), (6, 0)):
            propose(desks, question, bit)
            for desk in desks:
                told(desk, f"AWAIT {question}")
            for number in range(40):
                with dial(desks[0], timeout=15.0) as link:
                    link.sendall(f"TRANSCRIPT {question}\n".encode())
                    link.shutdown(socket.SHUT_WR)
                    texts[question] = link.makefile("rb").read()
                if texts[question].startswith(b"transcript"):
                    break
                time.sleep(0.25)
    good, other = texts[5], texts[6]
    found = differs("transcripts", (good[:18], other[:18]), (b"transcript 5 bit 1", b"transcript 6 bit 0"))
    lie = good.replace(b"bit 1", b"bit 0", 1)
    with desks_with(port + 8, answer(good)) as ports, serving(port + 17, answer(lie)), serving(port + 18, answer(other)), serving(port + 19, answer(b"THIN\n")):
        def no_proof(fault):
            return {"lies": "sends no transcript: DECIDED 0"}.get(fault, "doesn't answer")

        def is_yes(said, fault, place):
            lines = said.splitlines()
            rest = sorted(it for it in lines if it != "yes")
            proves = [f"bracha: member {it} proves 1" for it in range(4) if it != place]
            return "yes" in lines and rest == sorted([*proves, f"bracha: member {place} {no_proof(fault)}"])

        with concurrent.futures.ThreadPoolExecutor(24) as pool:
            asked = {(fault, place): pool.submit(timed, ["audit", "--all", cluster_file(folder, f"audit-{fault}-{place}", ports(fault, place)), "5"], folder)
                     for fault in FAULTY for place in range(4)}
            for (fault, place), it in asked.items():
                said, status, took = it.result()
                found += differs(f"audit: member {place} {fault} ({said})", (is_yes(said, fault, place), status, took < 5), (True, 0, True))
            fetched = {(fault, place): pool.submit(timed, ["transcript", "--all", cluster_file(folder, f"transcript-{fault}-{place}", ports(fault, place)), "5"], folder)
                       for fault in FAULTY for place in range(4)}
            for (fault, place), it in fetched.items():
                said, status, took = it.result()
                lines = [it for it in said.splitlines(True) if not it.startswith("bracha: ")]
                found += differs(f"transcript: member {place} {fault}", ("".join(lines), status, took < 5), (good.decode(), 0, True))
        # A liar's transcript of the other bit, of another question, and none: t of four prove nothing.
        for name, at, says in (("lie", port + 17, "sends a transcript that proves nothing"), ("other", port + 18, "sends no transcript: transcript 6 bit 0 count"),
                               ("thin", port + 19, "sends no transcript: THIN")):
            path = cluster_file(folder, f"one-{name}", [port + 8, at, port + 14, port + 14 + 1])
            said, status, took = timed(["audit", "--all", "--timeout", "2", path, "5"], folder)
            found += differs(f"one proves, one {name} ({said})", ("no\n" in said, says in said, status, took < 4), (True, True, 1, True))
        # What proves nothing is no transcript to show: it is told, and another one awaited.
        path = cluster_file(folder, "lies-first", [port + 17, port + 18, port + 19, port + 8])
        for _ in range(3):
            found += differs("a proof among lies", apart(["transcript", "--all", path, "5"], folder)[::2], (good.decode(), 0))
        path = cluster_file(folder, "lies-alone", [port + 17, port + 18, port + 19, port + 16])
        printed, said, status = apart(["transcript", "--all", "--timeout", "2", path, "5"], folder)
        found += differs(f"lies alone ({said})", (printed, "member 0 sends a transcript that proves nothing" in said, status), ("", True, 1))
        path = cluster_file(folder, "nobody", [port + 19, port + 12, port + 15, port + 16])
        said, status, took = timed(["transcript", "--all", "--timeout", "2", path, "5"], folder)
        found += differs("an output without a transcript", apart(["transcript", "--all", "--timeout", "1", path, "5"], folder)[0], "")
        path = cluster_file(folder, "one-of-them", [port + 8, port + 12, port + 15, port + 16])
        found += differs("a proof alone", apart(["audit", "--all", "--timeout", "1", path, "5"], folder)[::2], ("no\n", 1))
        words = ["member 0 sends no transcript: THIN", *(f"member {it} doesn't answer" for it in (1, 2, 3))]
        found += differs(f"nobody has one ({said})", ([it in said for it in words], status, took < 4), ([True] * 4, 1, True))
    return found


@check
def decide_brings_a_decision_about(folder, port):
    """`decide --all` proposes to all, also what another client left half proposed and to a member that comes back; it prints what
    more than t members tell, and ends with its time, one minute if none is told, where they don't."""
    found = []
    with clusters(folder, port) as (desks, members, again), concurrent.futures.ThreadPoolExecutor(4) as pool:
        path = cluster_file(folder, "all", desks)
        found += differs("a question", timed(["decide", "--all", path, "3", "1"], folder)[:2], ("DECIDED 1\n", 0))
        found += differs("once more", timed(["decide", "--all", "--json", path, "3", "0"], folder)[:2], ('{"decided":1}\n', 0))
        told(desks[1], "PROPOSE 4 0")
        told(desks[2], "PROPOSE 4 0")
        found += differs("half proposed", told(desks[0], "ASK 4")[0], "UNDECIDED")
        found += differs("repaired", timed(["decide", "--all", path, "4", "0"], folder)[:2], ("DECIDED 0\n", 0))
        for member in (2, 3):
            members[member].send_signal(signal.SIGKILL)
            members[member].wait()
        said, status, took = timed(["decide", "--all", "--timeout", "2", path, "5", "1"], folder)
        silent = "".join(f"bracha: member {it} doesn't answer\n" for it in (2, 3))
        found += differs("two are down", (said, status, 1.5 < took < 4), ("UNDECIDED\n" + silent, 1, True))
        waits = pool.submit(timed, ["decide", "--all", "--timeout", "10", path, "6", "0"], folder)
        time.sleep(1)
        again(2)
        said, status, took = waits.result()
        found += differs("one comes back", (said.splitlines()[0], status, took < 8), ("DECIDED 0", 0, True))
    words = {"two": ["decide", "--all", path, "5", "2"], "past": ["decide", "--all", path, "64", "1"]}
    found += differs("no bit", say(["--quiet", *words["two"]], folder), ("bracha: words\n", 2))
    found += differs("no question", say(["--quiet", *words["past"]], folder), ("bracha: question\n", 2))
    return found


@check
def decide_believes_more_than_t(folder, port):
    """`decide --all` beside each faulty desk at each place."""
    def takes_part(link):
        for line in link.makefile("rb"):
            link.sendall(b"HAVE 0\n" if line.startswith(b"PROPOSE") else b"DECIDED 1\n")

    words = {fault: "bracha: member {} doesn't answer\n" for fault in FAULTY} | {"lies": "bracha: member {} says 0\n"}
    def is_stopped(link):
        for line in link.makefile("rb"):
            link.sendall(b"STOPPED\n" if line.startswith(b"PROPOSE") else b"DECIDED 1\n")

    with desks_with(port, takes_part) as ports, serving(port + 10, is_stopped), serving(port + 11, is_stopped):
        found = beside_faults(folder, ports, ["decide", ["5", "0"]], lambda fault, place: ("DECIDED 1\n" + words[fault].format(place), 0), 4)
        # A member that is stopped still tells what it decided.
        path = cluster_file(folder, "stopped", [port + 10, port + 8, port + 11, port + 12])
        silent = "".join(f"bracha: member {it} doesn't answer\n" for it in (1, 3))
        said, status, took = timed(["decide", "--all", "--timeout", "5", path, "5", "0"], folder)
        found += differs("stopped members", (said, status, took < 3), ("DECIDED 1\n" + silent, 0, True))
    seen = []

    def comes_back(link):
        """A member that is stopped while its decision is waited for, and is there again when it is asked anew."""
        port_of = link.getsockname()[1]
        seen.append(port_of)
        for line in link.makefile("rb"):
            waits = b"DECIDED 1\n" if seen.count(port_of) > 1 else b"STOPPED\n"
            link.sendall(b"OK\n" if line.startswith(b"PROPOSE") else waits)

    with serving(port + 13, comes_back), serving(port + 14, comes_back):
        path = cluster_file(folder, "back", [port + 13, port + 8, port + 14, port + 12])
        said, status, took = timed(["decide", "--all", "--timeout", "5", path, "5", "1"], folder)
        return found + differs("members that come back", (said, status, took < 3), ("DECIDED 1\n" + silent, 0, True))


@check
def commands_over_a_cluster_have_an_end(folder, port):
    """Without --timeout `ask --all` ends after ten seconds and `decide --all` after a minute, where nobody says anything."""
    with serving(port, FAULTY["is silent"]), serving(port + 1, lambda link: time.sleep(90)), serving(port + 2, FAULTY["drips"]), \
            serving(port + 3, lambda link: time.sleep(90)):
        path = cluster_file(folder, "silent", [port, port + 1, port + 2, port + 3])
        silent = "".join(f"bracha: member {it} doesn't answer\n" for it in range(4))

        def ends(words, least):
            begun = time.monotonic()
            ran = subprocess.run([PROGRAM, *words], cwd=folder, stdin=subprocess.DEVNULL, stdout=subprocess.PIPE, stderr=subprocess.STDOUT, text=True,
                                 timeout=80, check=False)
            took = time.monotonic() - begun
            return differs(f"{words[0]} ({took:.1f} s)", (ran.stdout, ran.returncode, least - 1 < took < least + 4), ("UNDECIDED\n" + silent, 1, True))

        with concurrent.futures.ThreadPoolExecutor(2) as pool:
            asks = pool.submit(ends, ["ask", "--all", path, "5"], 10)
            decides = pool.submit(ends, ["decide", "--all", path, "5", "1"], 60)
            return asks.result() + decides.result()


@check
def a_desk_stands_once(folder, port):
    """A client's settings that name one desk twice are refused, so that no member is counted as two."""
    found = []
    with serving(port, answer(b"DECIDED 0\n")):
        for twice in ([f"127.0.0.1:{port}", f"127.0.0.1:{port}"], [f"127.0.0.1:{port}", f"localhost:{port}"], [f"localhost:{port}", f"127.0.0.1:0{port}"]):
            path = f"{folder}/twice.toml"
            with open(path, "w", encoding="ascii") as file:
                desks = ", ".join(f'"{it}"' for it in [*twice, f"127.0.0.1:{port + 1}", f"127.0.0.1:{port + 2}"])
                file.write(f"cluster = 7\nn = 4\nt = 1\nquestions = 64\ndesks = [{desks}]\n")
            said, status = say(["ask", "--all", path, "5"], folder)
            found += differs(f"{twice}", (said.startswith("bracha: settings desks\n"), f"127.0.0.1:{port} stands twice" in said, status), (True, True, 1))
    return found


@check
def all_are_asked_while_they_decide(folder, port):
    """`ask --all --wait` waits for a decision of a cluster that has none yet, with one of its members down."""
    with clusters(folder, port) as (desks, members, _), concurrent.futures.ThreadPoolExecutor(4) as pool:
        path = f"{folder}/client.toml"
        with open(path, "w", encoding="ascii") as file:
            file.write("cluster = 7\nn = 4\nt = 1\nquestions = 64\ndesks = [" + ", ".join(f'"127.0.0.1:{it}"' for it in desks) + "]\n")
        found = differs("before", say(["ask", "--all", path, "3"], folder), ("UNDECIDED\n", 1))
        members[2].send_signal(signal.SIGKILL)
        waiting = pool.submit(say, ["ask", "--all", "--wait", "--timeout", "10", path, "3"], folder)
        time.sleep(1)
        propose([desks[it] for it in (0, 1, 3)], 3, 0)
        return found + differs("behind the proposals", waiting.result(), ("DECIDED 0\nbracha: member 2 doesn't answer\n", 0))


def welcomes(link, until=None):
    """A peer that welcomes the link to it and reads it, until this event where one is given."""
    if (until and until.is_set()) or len(link.recv(18, socket.MSG_WAITALL)) < 18:
        return
    # A Welcome: all of it is to come.
    link.sendall(struct.pack(">HBQ", 9, 2, 0))
    link.settimeout(0.2)
    while not until or not until.is_set():
        with contextlib.suppress(TimeoutError):
            if not link.recv(4096):
                return


def is_closed(link, seconds):
    """Whether the other side closes the connection within this time, whatever it says before."""
    link.settimeout(seconds)
    try:
        while link.recv(4096):
            pass
    except TimeoutError:
        return False
    except OSError:
        pass
    return True


@check
def silence_has_an_end(folder, port):
    """Connections that are slow to greet are closed in ten seconds, and their places are free then; a link that falls silent is closed
    in three, and one that isn't welcomed is dialled again in five."""
    dialled = []

    def says_nothing(link):
        dialled.append(time.monotonic())
        time.sleep(30)

    peers = [f"127.0.0.1:{port}", f"127.0.0.2:{port + 1}", f"127.0.0.1:{port + 2}", f"127.0.0.1:{port + 3}"]
    path = settings(folder, 0, peers, f"127.0.0.1:{port + 9}", 4, 1)
    with serving(port + 2, says_nothing), running(path):
        begun = time.monotonic()
        slow = [dial(port, "127.0.0.2") for _ in range(40)]
        time.sleep(0.5)
        found = differs("a link beside as many as its host has places", is_welcomed(port, 1, 0, "127.0.0.2"), None)
        link, said = None, -1
        while not link and time.monotonic() < begun + 16:
            said += 1
            for it in slow:
                with contextlib.suppress(OSError):
                    it.sendall(hello(1, 0)[said:said + 1])
            time.sleep(1)
            link = is_welcomed(port, 1, 0, "127.0.0.2")
        took = time.monotonic() - begun
        found += differs(f"a link once they are closed ({took:.1f} s)", link is not None and 8.5 < took < 16, True)
        if link:
            begun = time.monotonic()
            is_closed(link, 9)
            took = time.monotonic() - begun
            found += differs(f"a link that falls silent is closed ({took:.1f} s)", 2 < took < 6, True)
        for it in slow:
            it.close()
    gaps = [later - it for it, later in zip(dialled, dialled[1:])]
    return found + differs(f"a peer that doesn't welcome is dialled again ({gaps})", bool(gaps) and min(gaps) < 8, True)


@check
def a_client_that_takes_nothing_is_closed(folder, port):
    """A client that asks on and reads no reply is closed once a write has waited for ten seconds."""
    path = settings(folder, 0, [f"127.0.0.1:{port}"], f"127.0.0.1:{port + 1}", 1, 0)
    with running(path), socket.socket() as link:
        # Segments and a window so small that replies have no room on the way.
        link.setsockopt(socket.IPPROTO_TCP, socket.TCP_MAXSEG, 88)
        link.setsockopt(socket.SOL_SOCKET, socket.SO_RCVBUF, 1024)
        link.settimeout(58)
        link.connect(("127.0.0.1", port + 1))
        begun = time.monotonic()
        with contextlib.suppress(OSError):
            while True:
                link.sendall(b"STATUS\n" * 4096)
        took = time.monotonic() - begun
        # Three times as long has been seen: a write of which the system took a part is made again for the rest.
        return differs(f"it is closed ({took:.1f} s)", 8 < took < 55, True)


def block_term():
    """Has SIGTERM wait, for a process that is to look for it."""
    signal.pthread_sigmask(signal.SIG_BLOCK, {signal.SIGTERM})


def connections_of(process):
    """The connections of a process, each as a copy of its descriptor while it is looked at; none where the system shows none."""
    libc, whose = ctypes.CDLL(None, use_errno=True), os.pidfd_open(process.pid)
    for number in os.listdir(f"/proc/{process.pid}/fd"):
        # pidfd_getfd: a copy of the descriptor, if it is there still.
        copy = libc.syscall(438, whose, int(number), 0)
        if copy < 0:
            continue
        if not os.readlink(f"/proc/self/fd/{copy}").startswith("socket:"):
            os.close(copy)
            continue
        with socket.socket(fileno=copy) as link:
            if not link.getsockopt(socket.SOL_SOCKET, socket.SO_ACCEPTCONN):
                yield link
    os.close(whose)


def waits_for_more(process):
    """The number of a process's TCP connections that wait before they send what is short."""
    return sum(link.family == socket.AF_INET and link.getsockopt(socket.IPPROTO_TCP, socket.TCP_NODELAY) == 0 for link in connections_of(process))


def limits_of(process):
    """How many seconds the reads and the writes of a process's connections wait: the pairs that there are."""
    def limit(link, which):
        seconds, micros = struct.unpack("ll", link.getsockopt(socket.SOL_SOCKET, which, 16))
        return seconds + micros / 1_000_000

    return {(limit(link, socket.SO_RCVTIMEO), limit(link, socket.SO_SNDTIMEO)) for link in connections_of(process)}


@check
def the_end_closes_all(folder, port):
    """A member that is ended ends in two seconds and with status 0, whoever is connected, and closes each connection. On each of them
    it sends at once what it says, and waits for the other side as long as for its kind and no longer."""
    peers = [f"127.0.0.1:{port + it}" for it in range(4)]
    path = settings(folder, 0, peers, f"127.0.0.1:{port + 9}", 4, 1, more=f'desk-socket = "{folder}/desk"\n')
    with serving(port + 1, welcomes), serving(port + 2, welcomes), running(path, preexec_fn=block_term) as process, \
            contextlib.ExitStack() as stack:
        local = stack.enter_context(socket.socket(socket.AF_UNIX))
        local.connect(f"{folder}/desk")
        found = differs("PROPOSE", told(port + 9, "PROPOSE 3 1")[0], "OK")
        links = {"a link": soon(lambda: is_welcomed(port, 3, 0)), "one that doesn't greet": dial(port), "a client": dial(port + 9), "one at the path": local}
        for name, line in (("one that waits", b"AWAIT 3\n"), ("one that follows", b"FOLLOW 0\n"), ("one that says half a line", b"STAT")):
            links[name] = dial(port + 9)
            links[name].sendall(line)
        waiting = [dial(port + 9) for _ in range(8)]
        for link in waiting:
            link.sendall(b"AWAIT 5\n")
        time.sleep(0.5)
        found += differs("connections on which it waits before it sends", waits_for_more(process), 0)
        # A link to a peer, one from a peer, one that is to greet, a client.
        limits = limits_of(process) - {(4, 10), (2.5, 10), (10, 10), (600, 10)}
        found += differs("other limits of reads and writes, in seconds", limits, set())
        begun = time.monotonic()
        process.send_signal(signal.SIGTERM)
        try:
            found += differs("its status", process.wait(8), 0)
        except subprocess.TimeoutExpired:
            found.append("it goes on for eight seconds")
        took = time.monotonic() - begun
        found += differs(f"its end comes at once ({took:.1f} s)", took < 4, True)
        found += differs("what those are told that wait", [link.recv(64) for link in waiting], [b"UNDECIDED\n"] * 8)
        links.update((f"number {number} of those that wait", link) for number, link in enumerate(waiting))
        for name, link in links.items():
            found += differs(f"{name} is closed", link is not None and is_closed(link, 1), True)
            if link:
                link.close()
    os.mkdir(f"{folder}/alone")
    path = settings(f"{folder}/alone", 0, [f"127.0.0.1:{port + 10 + it}" for it in range(4)], f"127.0.0.1:{port + 14}", 4, 1)
    with running(path, "--log", preexec_fn=block_term) as process:
        process.send_signal(signal.SIGTERM)
        found += differs("the status of one that listens still", process.wait(8), 0)
    return found + differs("what it tells of itself", [it for it in lines_of(path) if not it.startswith("link")], ["ready member 0", "end"])


@check
def the_last_lines_of_a_log(folder, port):
    """A log ends with what happened last: the decisions that a client was told right before the end, and the refusals that were counted
    and not told."""
    path = settings(folder, 0, [f"127.0.0.1:{port}"], f"127.0.0.1:{port + 1}", 1, 0)
    with running(path, "--log", stays=False) as process:
        for _ in range(3):
            is_closed(dial(port, "127.0.0.9"), 3)
        found = []
        for question in (5, 6):
            told(port + 1, f"PROPOSE {question} 1")
            found += differs("a decision", told(port + 1, f"AWAIT {question}")[0], "DECIDED 1")
        process.stdin.close()
        process.wait(8)
    lines = lines_of(path)
    found += differs("the end", lines[-1:], ["end"])
    found += differs("decisions", [it for it in lines if it.startswith("decided")], ["decided 5 1", "decided 6 1"])
    return found + differs("refusals", [it for it in lines if it.startswith("refused")], ["refused from 127.0.0.9 stranger", "refused from 127.0.0.9 stranger, x2"])


@check
def who_welcomes_a_member_counts(folder, port):
    """A member speaks at once where n - t members with itself welcome it, and listens for three seconds where fewer do; it counts the
    links that come and go, and no link that has ended."""
    few = settings(folder, 0, [f"127.0.0.1:{port + it}" for it in range(4)], f"127.0.0.1:{port + 4}", 4, 1)
    os.mkdir(f"{folder}/more")
    more = settings(f"{folder}/more", 0, [f"127.0.0.1:{port + 5 + it}" for it in range(4)], f"127.0.0.1:{port + 9}", 4, 1)
    over = threading.Event()
    peer = lambda link: welcomes(link, over)
    with serving(port + 1, peer), serving(port + 6, peer), serving(port + 7, peer), running(few), running(more, "--log"), \
            concurrent.futures.ThreadPoolExecutor(2) as pool:
        replies = [pool.submit(told, it, "PROPOSE 0 1") for it in (port + 4, port + 9)]
        (reply, took), (other, less) = [it.result() for it in replies]
        found = differs(f"one welcomes it ({took:.1f} s)", (reply, took > 1.5), ("OK", True))
        found += differs(f"two welcome it ({less:.1f} s)", (other, less < 1.5), ("OK", True))
        links = lambda wanted: soon(lambda: told(port + 9, "LINKS")[0] == wanted)
        found += differs("links to three are up, and its own from itself", links("LINKS 1 3 4 3"), True)
        link = is_welcomed(port + 5, 3, 0)
        found += differs("one comes in", link is not None and told(port + 9, "LINKS")[0], "LINKS 2 3 4 3")
        if link:
            link.close()
        over.set()
        found += differs("links that have ended don't count", links("LINKS 1 1 4 3"), True)
        wanted = {f"link-{way}" for way in ("up from 3", "down from 3", "up to 1", "up to 2", "down to 1", "down to 2")}
        return found + differs("lines that the log lacks", soon(lambda: not lacks(more, wanted)) or lacks(more, wanted), True)


@check
def any_host_and_another_address(folder, port):
    """With --any-host a link from any host is taken, which is warned of; with `listen` a member listens there and nowhere else."""
    peers = [f"127.0.0.1:{port + it}" for it in range(4)]
    path = settings(folder, 0, peers, f"127.0.0.1:{port + 9}", 4, 1, more=f'listen = "0.0.0.0:{port + 5}"\n')
    with running(path, "--any-host", "--log"):
        with socket.create_connection(("127.0.0.2", port + 5), timeout=5, source_address=("127.0.0.9", 0)) as link:
            link.sendall(hello(1, 0))
            found = differs("a link from any host, to any address of this one", len(link.recv(11, socket.MSG_WAITALL)), 11)
        with socket.socket() as other:
            found += differs("its entry of the peers", other.connect_ex(("127.0.0.1", port)), errno.ECONNREFUSED)
    chain = of_a_chain(folder, 1, peers, f"127.0.0.1:{port + 10}", 4, 1)
    with running(chain, "--any-host"), dial(port + 1, "127.0.0.9") as link:
        link.sendall(hello(2, 1, questions=4))
        found += differs("a link from any host to a member of a chain", len(link.recv(11, socket.MSG_WAITALL)), 11)
    return found + differs("the warning", lines_of(path)[:1], ["bracha: --any-host is unsafe: any host may speak for any member"])


@check
def desks_that_flood_and_hang_up(folder, port):
    """A desk that sends without an end is given up once it has sent more than any transcript has, and one that hangs up is asked a few
    times a second."""
    asked, sent = [], []

    def floods(link):
        link.recv(64)
        link.sendall(b"transcript 5 bit 1 count 4000000000\n")
        sent.append(0)
        while True:
            link.sendall(b"0 01000500010100\n" * 8192)
            sent[-1] += 17 * 8192

    with serving(port, floods), serving(port + 1, lambda link: asked.append(time.monotonic())):
        said, status, took = timed(["transcript", "--all", "--timeout", "30", cluster_file(folder, "floods", [port], 0), "5"], folder, 40)
        found = differs(f"a flood ({took:.1f} s)", (said, status, took < 25), ("bracha: member 0 doesn't answer\n", 1, True))
        said, status, took = timed(["transcript", "--quiet", "--timeout", "30", f"127.0.0.1:{port}", "5"], folder, 40)
        found += differs(f"a flood of one desk ({took:.1f} s)", (said, status, took < 25), ("bracha: no answer\n", 1, True))
        # 32 MB are read, and the sockets hold some.
        found += differs(f"what is taken ({sent})", [it >> 20 < 48 for it in sent], [True, True])
        say(["decide", "--all", "--timeout", "2", cluster_file(folder, "hangs-up", [port + 1], 0), "5", "1"], folder)
        return found + differs(f"asked {len(asked)} times in two seconds", 2 < len(asked) < 16, True)


@check
def a_stopped_member_takes_no_link(folder, port):
    """A member whose disk is full says so to clients and refuses links until its input ends."""
    def no_room():
        signal.signal(signal.SIGXFSZ, signal.SIG_IGN)
        resource.setrlimit(resource.RLIMIT_FSIZE, (0, 0))

    path = settings(folder, 0, [f"127.0.0.1:{port}", f"127.0.0.1:{port + 1}"], f"127.0.0.1:{port + 2}", 2, 0)
    subprocess.run([PROGRAM, "init", path], check=True)
    with serving(port + 1, welcomes), running(path, "--quiet", new=False, stays=False, preexec_fn=no_room) as process:
        link = soon(lambda: is_welcomed(port, 1, 0, n=2, t=0))
        found = differs("a link before", link is not None, True)
        found += differs("PROPOSE", told(port + 2, "PROPOSE 0 1")[0], "STOPPED")
        if link:
            link.close()
        time.sleep(0.3)
        found += differs("a link to a stopped member", is_welcomed(port, 1, 0, n=2, t=0), None)
        found += differs("what clients are told", [told(port + 2, line)[0] for line in ("STATUS", "LINKS", "AWAIT 1")], ["STOPPED"] * 3)
        process.stdin.close()
        return found + differs("its status", process.wait(8), 1)


@check
def a_stop_behind_a_burst(folder, port):
    """A member whose disk fills in a burst of more decisions than its log holds is stopped, and its log has all of them and the stop."""
    def little_room():
        signal.signal(signal.SIGXFSZ, signal.SIG_IGN)
        resource.setrlimit(resource.RLIMIT_FSIZE, (250_000, 250_000))

    if not os.path.isdir("/dev/shm"):
        return []
    # On a disk in memory each second has thousands of decisions.
    with tempfile.TemporaryDirectory(prefix="bracha-edges-", dir="/dev/shm") as room:
        path = settings(room, 0, [f"127.0.0.1:{port}"], f"127.0.0.1:{port + 1}", 1, 0, questions=4096)
        with running(path, "--log", preexec_fn=little_room) as process:
            with dial(port + 1, timeout=30.0) as desk, contextlib.suppress(OSError):
                desk.sendall(b"".join(b"PROPOSE %d %d\n" % (it, it % 2) for it in range(4096)))
                for reply in desk.makefile("rb"):
                    if reply == b"STOPPED\n":
                        break
            status = process.wait(20)
        made = subprocess.run([PROGRAM, "dump", f"{room}/member-0.journal"], capture_output=True, text=True, check=True).stdout
        decided = [it.split() for it in made.splitlines() if it.startswith("decided")]
        logged = [it for it in lines_of(path) if it.startswith(("decided", "missed", "stopped"))]
        found = differs("its status", status, 1)
        found += differs("the last line", logged[-1:], ["stopped device: File too large (os error 27)"])
        return found + differs("what is logged", sorted(logged[:-1]), sorted(f"decided {it[1]} {it[3]}" for it in decided))


@check
def a_stop_behind_a_late_reader(folder, port):
    """What a member decided before it was stopped is logged before its stop, also if the log's reader is late."""
    def little_room():
        signal.signal(signal.SIGXFSZ, signal.SIG_IGN)
        resource.setrlimit(resource.RLIMIT_FSIZE, (80_000, 80_000))

    if not os.path.isdir("/dev/shm"):
        return []
    with tempfile.TemporaryDirectory(prefix="bracha-edges-", dir="/dev/shm") as room:
        path = settings(room, 0, [f"127.0.0.1:{port}"], f"127.0.0.1:{port + 1}", 1, 0, questions=4096)
        subprocess.run([PROGRAM, "init", path], check=True)
        reads, writes = os.pipe()
        fcntl.fcntl(writes, fcntl.F_SETPIPE_SZ, 4096)
        with open(reads, "rb") as log:
            process = subprocess.Popen([PROGRAM, "run", "--stay", "--log", path], stdout=subprocess.PIPE, stderr=writes, preexec_fn=little_room)
            os.close(writes)
            try:
                process.stdout.readline()
                with dial(port + 1, timeout=20.0) as desk:
                    # The first of these fill the pipe; the others are decided, and the disk full, while nobody reads.
                    for first, last in ((0, 500), (500, 800)):
                        desk.sendall(b"".join(b"PROPOSE %d 1\n" % it for it in range(first, last)))
                        time.sleep(1.2)
                lines = [it.split(b"Z ", 1)[-1] for it in log.read().splitlines()]
                status = process.wait(20)
            finally:
                process.kill()
                process.wait()
                process.stdout.close()
    stops = [number for number, line in enumerate(lines) if line.startswith(b"stopped")]
    found = differs("its status, and the lines of its stop", (status, len(stops)), (1, 1))
    return found + differs("decisions behind the stop", [it for it in lines[stops[0]:] if it.startswith(b"decided")] if stops else None, [])


def stalling(folder, **words):
    """The environment of a program of which a sync takes longer, as tests/stall.c says."""
    library = f"{folder}/stall.so"
    subprocess.run([os.environ.get("CC", "cc"), "-O2", "-shared", "-fPIC", "-o", library, f"{TOP}/tests/stall.c", "-ldl"], check=True)
    return {**os.environ, "LD_PRELOAD": library, **words}


@check
def a_busy_client_holds_no_line_up(folder, port):
    """Decisions are logged at once while a client proposes one after the other, and a sync takes 20 milliseconds."""
    path = settings(folder, 0, [f"127.0.0.1:{port}"], f"127.0.0.1:{port + 1}", 1, 0, questions=4096)
    with running(path, "--log", env=stalling(folder, STALL_EACH="20000")):
        with dial(port + 1, timeout=30.0) as desk:
            replies, made, late, begun = desk.makefile("rb"), [], 0.0, time.monotonic()
            for question in itertools.count():
                desk.sendall(b"PROPOSE %d 1\nSTATUS\n" % question)
                replies.readline()
                decided, now = int(replies.readline().split()[2]), time.monotonic()
                if now > begun + 8:
                    break
                made += [now] * (decided - len(made))
                logged = sum(1 for line in lines_of(path) if line.startswith("decided"))
                late = max(late, now - made[logged] if logged < len(made) else 0.0)
    return differs(f"{len(made)} decisions, logged {late:.1f} seconds late at most", (len(made) > 20, late < 1.5), (True, True))


@check
def refusals_of_many_kinds_are_told_once(folder, port):
    """Six hosts that are refused for eleven causes each, beside eighteen members that can't be reached, are told once a minute."""
    peers = [f"127.0.0.{it + 1}:{port}" for it in range(19)]
    path = settings(folder, 0, peers, f"127.0.0.1:{port + 1}", 19, 6)
    greets = lambda **size: hello(3, 0, **{"n": 19, "t": 6, **size})
    openings = (b"\xff\xff", b"\0\1\7", b"\0\10\3\xff", b"\0\10\3\1\xff\xff", b"\0\10\3\1\0\0\0\1\1\t", b"\2\xb7\4\0", greets(version=9), b"\0\1\0", b"",
                greets(cluster=9), hello(1, 0, n=19, t=6) + b"\xff\xff")

    def refused(number):
        for opening in openings:
            with contextlib.suppress(OSError), dial(port, f"127.0.0.{number}") as link:
                link.sendall(opening)
                link.shutdown(socket.SHUT_WR)
                while link.recv(100):
                    pass

    with running(path, "--log"), concurrent.futures.ThreadPoolExecutor(6) as pool:
        counts = []
        for _ in range(3):
            list(pool.map(refused, range(14, 20)))
            time.sleep(1)
            counts.append(len([line for line in lines_of(path) if line.startswith(("refused", "link-to"))]))
    return differs("lines after each of three rounds", (counts[0] > 50, counts[1:]), (True, [counts[0]] * 2))


@check
def a_disk_that_stalls(folder, port):
    """While a sync takes six seconds, a member answers who asks for its state or for a decision, and no link goes down."""
    peers = [f"127.0.0.1:{port + it}" for it in range(4)]
    paths = [settings(folder, it, peers, f"127.0.0.1:{port + 4 + it}", 4, 1) for it in range(4)]
    stalls = stalling(folder, STALL_AT="8", STALL_SECONDS="6")
    with contextlib.ExitStack() as stack, concurrent.futures.ThreadPoolExecutor(4) as pool:
        for me, path in enumerate(paths):
            stack.enter_context(running(path, "--log", **({"env": stalls} if me == 0 else {})))
        for question in (0, 1):
            waits = [pool.submit(told, port + 4 + it, f"PROPOSE {question} 1") for it in range(4)]
            late = pool.submit(told, port + 4, f"AWAIT {question}")
            if question == 0:
                continue
        begun = time.monotonic()
        slowest = 0.0
        while time.monotonic() < begun + 4:
            for line in ("STATUS", "LINKS", "ASK 9"):
                slowest = max(slowest, told(port + 4, line)[1])
            time.sleep(0.1)
        for it in (*waits, late):
            it.result()
        took = time.monotonic() - begun
        found = differs(f"a sync has stalled ({took:.1f} s)", took > 4.5, True)
        found += differs(f"the slowest reply meanwhile ({slowest:.2f} s)", slowest < 1, True)
        downs = [f"member {me}: {line}" for me, path in enumerate(paths) for line in lines_of(path) if line.startswith("link-down")]
        return found + differs("links that went down", downs, [])


@check
def a_client_that_is_stopped_goes_on(folder, port):
    """A client that waits for a reply is stopped, as by Ctrl-Z, and let go on: it waits for what is left of its time."""
    def answers(link):
        link.recv(64)
        time.sleep(2)
        link.sendall(b"UP 3 0\n")

    path = client_file(folder, [port])
    found = []
    with serving(port, answers):
        for words in (["status", f"127.0.0.1:{port}"], ["status", "--all", path]):
            process = subprocess.Popen([PROGRAM, *words, "--timeout", "8"], stdout=subprocess.PIPE, text=True)
            time.sleep(0.7)
            process.send_signal(signal.SIGSTOP)
            time.sleep(0.3)
            process.send_signal(signal.SIGCONT)
            found += differs(f"{words}", process.communicate(timeout=20)[0].removeprefix("member 0 "), "UP 3 0\n")
    return found


@check
def threads_that_are_refused(folder, port):
    """While the system gives no thread, connections are closed, and none of their places is lost. It wants root."""
    if os.geteuid() != 0:
        return []

    def as_nobody():
        os.setgroups([])
        os.setgid(65534)
        os.setuid(65534)

    program = shutil.copy(PROGRAM, f"{folder}/bracha")
    path = settings(folder, 0, [f"127.0.0.1:{port}", f"127.0.0.1:{port + 1}"], f"127.0.0.1:{port + 2}", 2, 0)
    subprocess.run([PROGRAM, "init", path], check=True)
    os.chmod(os.path.dirname(folder), 0o755)
    os.chown(f"{folder}/member-0.journal", 65534, 65534)
    with serving(port + 1, welcomes), running(path, "--log", new=False, executable=program, preexec_fn=as_nobody) as process:
        limit = lambda words: subprocess.run(["prlimit", f"--pid={process.pid}", words], check=True, preexec_fn=as_nobody)
        found = differs("a client before", told(port + 2, "STATUS")[0], "UP 0 0")
        # Of its user's threads there are more than one already.
        limit("--nproc=1:")
        kept = next((it for it in range(160) if not is_closed(dial((port, port + 2)[it % 2]), 3)), None)
        found += differs("the first of 160 connections that isn't closed", kept, None)
        limit("--nproc=4096:")
        link = soon(lambda: is_welcomed(port, 1, 0, n=2, t=0))
        found += differs("a link behind them", link is not None, True)
        with dial(port + 2) as client:
            client.settimeout(4)
            found += differs("a client behind them", is_open(client), True)
        if link:
            link.close()
        found += differs("the log", soon(lambda: not lacks(path, ["thread refused"])), True)
    # In a chain another thread takes links in.
    os.mkdir(f"{folder}/chain")
    path = of_a_chain(f"{folder}/chain", 0, [f"127.0.0.1:{port + 4}", f"127.0.0.1:{port + 1}"], f"127.0.0.1:{port + 5}", 2, 0)
    subprocess.run([PROGRAM, "init", path], check=True)
    subprocess.run(["chown", "-R", "65534:65534", f"{folder}/chain"], check=True)
    good = lambda: is_welcomed(port + 4, 1, 0, n=2, t=0, questions=4)
    with running(path, "--log", new=False, executable=program, preexec_fn=as_nobody) as process:
        # A thread that is refused ends the start of an epoch, and all of them.
        found += differs("both epochs", soon(lambda: not lacks(path, ["epoch 0 ready", "epoch 1 ready"])), True)
        limit("--nproc=1:")
        kept = next((it for it in range(100) if not is_closed(dial(port + 4), 3)), None)
        found += differs("the first of 100 links to a chain that isn't closed", kept, None)
        limit("--nproc=4096:")
        link = soon(good)
        found += differs("a link to a chain behind them", link is not None, True)
        if link:
            link.close()
    return found


@check
def a_peer_that_does_not_answer(folder, port):
    """A dial that nobody answers is given up in a second, which the log says."""
    with socket.socket() as full, contextlib.ExitStack() as stack:
        full.bind(("127.0.0.1", port + 1))
        full.listen(0)
        for _ in range(4):
            filler = stack.enter_context(socket.socket())
            filler.setblocking(False)
            filler.connect_ex(("127.0.0.1", port + 1))
        path = settings(folder, 0, [f"127.0.0.1:{port}", f"127.0.0.1:{port + 1}"], f"127.0.0.1:{port + 2}", 2, 0)
        with running(path, "--log"):
            return differs("the log", soon(lambda: "link-to 1 unreachable: no answer" in lines_of(path)), True)


@check
def a_peer_that_takes_nothing(folder, port):
    """A link whose peer welcomes it and takes nothing more is closed once a write has waited for ten seconds, and dialled again."""
    welcomed = []

    def takes_nothing(link):
        welcomed.append(time.monotonic())
        link.recv(18, socket.MSG_WAITALL)
        link.sendall(struct.pack(">HBQ", 9, 2, 0))
        time.sleep(90)

    peers = [f"127.0.0.1:{port + it}" for it in range(4)]
    with contextlib.ExitStack() as stack:
        small = stack.enter_context(socket.socket())
        # Segments and a window so small that statements have no room on the way.
        small.setsockopt(socket.IPPROTO_TCP, socket.TCP_MAXSEG, 88)
        small.setsockopt(socket.SOL_SOCKET, socket.SO_RCVBUF, 1024)
        stack.enter_context(serving(port + 3, takes_nothing, small))
        for me in range(3):
            stack.enter_context(running(settings(folder, me, peers, f"127.0.0.1:{port + 4 + me}", 4, 1, questions=1024)))
        desks = [stack.enter_context(dial(port + 4 + me, timeout=20.0)) for me in range(3)]
        lines = [desk.makefile("rb") for desk in desks]
        for first in range(0, 1024, 64):
            for desk in desks:
                desk.sendall(b"".join(b"PROPOSE %d 1\n" % it for it in range(first, first + 64)))
            for line in lines:
                for _ in range(64):
                    line.readline()
        await_one(desks[0], lines[0], 1023)
        count, begun = len(welcomed), time.monotonic()
        again = soon(lambda: len(welcomed) >= count + 3, 48)
        took = time.monotonic() - begun
    return differs(f"each of three members dials it again ({took:.1f} s)", (again, took > 4), (True, True))


@check
def a_link_to_an_earlier_life(folder, port):
    """A member whose peer comes back dials it again, though the connection to the peer's earlier life looks alive."""
    dialled = []

    def forgets(link):
        dialled.append(time.monotonic())
        link.recv(18, socket.MSG_WAITALL)
        link.sendall(struct.pack(">HBQ", 9, 2, 0))
        time.sleep(20)

    path = settings(folder, 0, [f"127.0.0.1:{port}", f"127.0.0.1:{port + 1}"], f"127.0.0.1:{port + 2}", 2, 0)
    with serving(port + 1, forgets), running(path):
        time.sleep(4)
        found = differs("dials before", len(dialled), 1)
        link = is_welcomed(port, 1, 0, n=2, t=0)
        found += differs("a dial once it is back", soon(lambda: len(dialled) > 1, 2), True)
        if link:
            link.close()
        return found


@check
def connections_without_files(folder, port):
    """A member that has no file left for connections takes hardly any time of a processor, and goes on once they leave."""
    path = settings(folder, 0, [f"127.0.0.1:{port}"], f"127.0.0.1:{port + 1}", 1, 0)
    with running(path, preexec_fn=lambda: resource.setrlimit(resource.RLIMIT_NOFILE, (20, 20))) as process:
        silent = [dial(port) for _ in range(40)]
        time.sleep(0.5)
        begun = processor_time(process)
        time.sleep(3)
        took = processor_time(process) - begun
        found = differs(f"seconds of a processor in three ({took:.2f})", took < 0.6, True)
        for it in silent:
            it.close()
        return found + differs("a client behind them", soon(lambda: told(port + 1, "STATUS")[0].startswith("UP")), True)


@check
def refusals_are_told_each_minute(folder, port):
    """Refusals of one kind are told at once, and then once a minute with their number."""
    path = settings(folder, 0, [f"127.0.0.1:{port}"], f"127.0.0.1:{port + 1}", 1, 0)
    with running(path, "--log"):
        for _ in range(3):
            is_closed(dial(port, "127.0.0.9"), 3)
        found = differs("the first", soon(lambda: "refused from 127.0.0.9 stranger" in lines_of(path)), True)
        begun = time.monotonic()
        while "refused from 127.0.0.9 stranger, x2" not in lines_of(path) and time.monotonic() < begun + 80:
            time.sleep(0.25)
        took = time.monotonic() - begun
        return found + differs(f"the others ({took:.0f} s)", 55 < took < 75, True)


@check
def followers_that_leave_give_their_places(folder, port):
    """As many clients as may follow, and more, that leave before they are told anything take no place from the next one."""
    path = settings(folder, 0, [f"127.0.0.1:{port}"], f"127.0.0.1:{port + 1}", 1, 0)
    with running(path):
        told(port + 1, "PROPOSE 0 1")
        found = differs("a decision", told(port + 1, "AWAIT 0")[0], "DECIDED 1")
        for _ in range(3000):
            with dial(port + 1) as link:
                link.setsockopt(socket.SOL_SOCKET, socket.SO_LINGER, struct.pack("ii", 1, 0))
                link.sendall(b"FOLLOW 0\n")
        return found + differs("the next one", soon(lambda: told(port + 1, "FOLLOW 0")[0] == "DECIDED 0 1"), True)


def of_a_chain(folder, me, peers, desk, n, t, questions=4, more=""):
    return settings(folder, me, peers, desk, n, t, questions, more=f'epochs = "{folder}/{me}.epochs"\n{more}')


def is_refused(port):
    """Whether nobody listens at the port."""
    with socket.socket() as link:
        return link.connect_ex(("127.0.0.1", port)) != 0


@check
def clients_of_a_chain_keep_their_places(folder, port):
    """A client that goes from epoch to epoch takes no place with it; where 32 clients have the places of an epoch, who speaks keeps its
    own, and a new one gets that of one that was silent for ten seconds."""
    path = of_a_chain(folder, 0, [f"127.0.0.1:{port}"], f"127.0.0.1:{port + 1}", 1, 0)
    with running(path), contextlib.ExitStack() as stack:
        goes = dial(port + 1, timeout=20.0)
        lines = goes.makefile("rb")
        begun, replies = time.monotonic(), set()
        for number in range(80):
            # The newest epoch, and the one in front of it: both run.
            goes.sendall(b"ASK %d\n" % (number % 2 * 4))
            replies.add(lines.readline())
        took = time.monotonic() - begun
        found = differs(f"a client that goes to and fro ({took:.1f} s)", (replies, took < 8), ({b"UNDECIDED\n"}, True))
        goes.close()
        first = stack.enter_context(dial(port + 1, timeout=20.0))
        is_open(first)
        places = [first, *(stack.enter_context(dial(port + 1, timeout=20.0)) for _ in range(31))]
        begun = time.monotonic()
        found += differs("32 clients", [is_open(it) for it in places], [True] * 32)
        waits = stack.enter_context(dial(port + 1, timeout=20.0))
        waits.sendall(b"STATUS\n")
        time.sleep(5)
        found += differs("one that speaks", is_open(first), True)
        found += differs("one more", waits.recv(64)[:3], b"UP ")
        took = time.monotonic() - begun
        found += differs(f"after ten seconds ({took:.1f} s)", 9 < took < 15, True)
        return found + differs("who spoke", is_open(first), True)


@check
def who_waits_at_the_desk_of_an_epoch(folder, port):
    """While 32 clients have the places of a chain's newest epoch 64 more wait for one, and the next is closed. Those that wait are answered
    once the others leave."""
    path = of_a_chain(folder, 0, [f"127.0.0.1:{port}"], f"127.0.0.1:{port + 1}", 1, 0)
    with running(path), contextlib.ExitStack() as stack:
        # Each waits for a slot that isn't decided, and keeps its place for ten seconds by that.
        served = [stack.enter_context(dial(port + 1, timeout=20.0)) for _ in range(32)]
        found = differs("32 clients", [is_open(it) for it in served], [True] * 32)
        waiting = []
        # The first of them is taken out of those that wait, and waits by itself.
        for _ in range(70):
            waiting.append(stack.enter_context(dial(port + 1, timeout=20.0)))
            time.sleep(0.01)
        closed = [at for at, it in enumerate(waiting) if is_closed(it, 0.01)]
        found += differs("those that are closed", closed, [65, 66, 67, 68, 69])
        for link in served:
            link.close()
        for link in waiting[:65]:
            link.sendall(b"STATUS\n")
            found += differs("one that waited", link.recv(64)[:3], b"UP ")
            link.close()
    return found


@check
def a_chain_at_a_path(folder, port):
    """A member of a chain answers at the path of `desk-socket` too, and a client there, or nobody, doesn't hold its end up."""
    found = []
    for name in ("nobody", "silent", "speaks"):
        os.mkdir(f"{folder}/{name}")
        more = f'desk-socket = "{folder}/{name}/desk"\n'
        path = of_a_chain(f"{folder}/{name}", 0, [f"127.0.0.1:{port}"], f"127.0.0.1:{port + 1}", 1, 0, more=more)
        with running(path, preexec_fn=block_term) as process, contextlib.ExitStack() as stack:
            if name != "nobody":
                link = stack.enter_context(socket.socket(socket.AF_UNIX))
                link.settimeout(5)
                link.connect(f"{folder}/{name}/desk")
            if name == "speaks":
                link.sendall(b"PROPOSE 0 1\nAWAIT 0\n")
                with contextlib.suppress(OSError):
                    found += differs("the replies", link.makefile("rb").readlines(13), [b"OK\n", b"DECIDED 1\n"])
                found += differs("ask", say(["ask", f"unix:{folder}/{name}/desk", "0"], folder), ("DECIDED 1\n", 0))
                # A read of a client waits for a second at a time.
                time.sleep(1.5)
            process.send_signal(signal.SIGTERM)
            begun = time.monotonic()
            try:
                found += differs(f"the status, {name}", process.wait(8), 0)
            except subprocess.TimeoutExpired:
                found.append(f"{name}: it goes on for eight seconds")
            took = time.monotonic() - begun
            found += differs(f"the end comes at once ({name}, {took:.1f} s)", took < 1.6, True)
    return found


@check
def who_is_told_something_keeps_its_place(folder, port):
    """A client that says nothing while it waits for decisions, and is told that there are none, isn't one that was silent for long."""
    path = settings(folder, 0, [f"127.0.0.1:{port}"], f"127.0.0.1:{port + 1}", 1, 0)
    with running(path), contextlib.ExitStack() as stack:
        waits = stack.enter_context(dial(port + 1, timeout=30.0))
        lines, begun = waits.makefile("rb"), time.monotonic()
        waits.sendall(b"AWAIT 8\nAWAIT 9\n")
        others = [stack.enter_context(dial(port + 1, timeout=20.0)) for _ in range(31)]
        found = differs("the others", [is_open(it) for it in others], [True] * 31)
        found += differs("the first reply", lines.readline(), b"UNDECIDED\n")
        found += differs("the others", [is_open(it) for it in others], [True] * 31)
        # It goes away before anybody is silent for ten seconds.
        with dial(port + 1) as another:
            another.sendall(b"STATUS\n")
            time.sleep(5)
        found += differs("the second one", lines.readline(), b"UNDECIDED\n")
        return found + differs("its time", 18 < time.monotonic() - begun < 25, True)


@check
def an_epoch_waits_for_files(folder, port):
    """A chain has as many files as it wants, and 64 connections that say no Hello take the rest: the next epoch begins once they are closed."""
    path = of_a_chain(folder, 0, [f"127.0.0.1:{port}"], f"127.0.0.1:{port + 1}", 1, 0)
    limit = lambda: resource.setrlimit(resource.RLIMIT_NOFILE, (60, 60))
    with running(path, "--log", preexec_fn=limit) as process, dial(port + 1, timeout=25.0) as client, contextlib.ExitStack() as stack:
        client.sendall(b"STATUS\n")
        found = differs("a client before", client.recv(64), b"UP 0 0\n")
        for _ in range(64):
            with contextlib.suppress(OSError):
                stack.enter_context(dial(port))
        time.sleep(0.5)
        client.sendall(b"PROPOSE 5 1\n")
        found += differs("a proposal of the epoch that runs", client.recv(64), b"OK\n")
        time.sleep(2)
        found += differs("the process, which lacks files for the next one", process.poll(), None)
        stack.close()
        client.sendall(b"PROPOSE 9 1\n")
        return found + differs("a proposal of the next epoch", client.recv(64), b"OK\n")


@check
def who_is_told_something_in_a_chain_keeps_its_place(folder, port):
    """A client of a chain that waits for slots of epochs that don't run, and is told that there are none, isn't one that was silent."""
    path = of_a_chain(folder, 0, [f"127.0.0.1:{port}"], f"127.0.0.1:{port + 1}", 1, 0)
    with running(path), contextlib.ExitStack() as stack:
        waits = stack.enter_context(dial(port + 1, timeout=20.0))
        waits.sendall(b"AWAIT 400\nAWAIT 404\n")
        others = [stack.enter_context(dial(port + 1, timeout=20.0)) for _ in range(31)]
        found = differs("the others", [is_open(it) for it in others], [True] * 31)
        found += differs("the first reply", waits.recv(64), b"UNDECIDED\n")
        found += differs("the others", [is_open(it) for it in others], [True] * 31)
        # It goes away before anybody is silent for ten seconds.
        with dial(port + 1) as another:
            another.sendall(b"STATUS\n")
            return found + differs("it is closed", is_closed(waits, 4), False)


@check
def far_slots_are_awaited_for_ten_seconds(folder, port):
    """AWAIT of a slot of an epoch that doesn't run is answered after ten seconds, each time."""
    path = of_a_chain(folder, 0, [f"127.0.0.1:{port}"], f"127.0.0.1:{port + 1}", 1, 0)
    with running(path) as process, dial(port + 1, timeout=20.0) as link:
        lines, took = link.makefile("rb"), []
        for _ in range(2):
            begun = time.monotonic()
            link.sendall(b"AWAIT 400\n")
            found = differs("the reply", lines.readline(), b"UNDECIDED\n")
            took.append(time.monotonic() - begun)
        busy = processor_time(process)
        found += differs(f"seconds of a processor meanwhile ({busy:.1f})", busy < 4, True)
        return found + differs(f"its time ({took})", [8 < it < 14 for it in took], [True, True])


@check
def late_decisions_of_a_chain_are_told_once(folder, port):
    """A follower that passed an epoch is told what is decided in it later, once, and an empty line while there is nothing to tell."""
    path = of_a_chain(folder, 0, [f"127.0.0.1:{port}"], f"127.0.0.1:{port + 1}", 1, 0)
    heard, times = [], []

    def follow():
        with contextlib.suppress(OSError), dial(port + 1, timeout=60.0) as link:
            link.sendall(b"FOLLOW 0\n")
            for line in link.makefile("r"):
                heard.append(line.strip())
                times.append(time.monotonic())

    with running(path, "--log"):
        found = differs("a slot of the epoch in front", [told(port + 1, it)[0] for it in ("PROPOSE 4 1", "AWAIT 4")], ["OK", "DECIDED 1"])
        found += differs("the epoch before ends", soon(lambda: "epoch 0 end" in lines_of(path), 30), True)
        threading.Thread(target=follow, daemon=True).start()
        found += differs("it is passed", soon(lambda: heard[:1] == ["DECIDED 4 1"], 5), True)
        found += differs("a slot of it", told(port + 1, "PROPOSE 2 0")[0], "OK")
        found += differs("it is told late", soon(lambda: "DECIDED 2 0" in heard, 30), True)
        time.sleep(2)
        found += differs("each once", [it for it in heard if it], ["DECIDED 4 1", "DECIDED 2 0"])
        # Five seconds lie between an empty line and what was told before.
        rests = [times[at] - times[at - 1] for at in range(1, len(heard)) if heard[at] == ""]
        return found + differs(f"an empty line now and then ({rests})", len(rests) > 0 and min(rests) > 3, True)


def drips(link):
    """Says a Hello byte by byte, one a second."""
    with contextlib.suppress(OSError):
        for byte in hello(1, 0, n=2, t=0, questions=4):
            link.sendall(bytes([byte]))
            time.sleep(1)


@check
def links_of_a_chain_have_their_places(folder, port):
    """The places of those that greet a chain are given back, whatever they say; who says nothing, or no whole Hello, is closed after ten
    seconds, and a stranger at once."""
    peers = [f"127.0.0.1:{port}", f"127.0.0.2:{port + 2}"]
    path = of_a_chain(folder, 0, peers, f"127.0.0.1:{port + 1}", 2, 0)
    good = lambda: is_welcomed(port, 1, 0, "127.0.0.2", n=2, t=0, questions=4)
    with running(path), contextlib.ExitStack() as stack:
        found = []
        for _ in range(40):
            link = dial(port, "127.0.0.2")
            link.sendall(hello(1, 0, n=2, t=0, questions=4, cluster=6))
            found += differs("a link of another chain is closed", is_closed(link, 3), True)
            link.close()
        first = soon(good)
        found += differs("a link behind them", first is not None, True)
        strangers = [dial(port, "127.0.0.9") for _ in range(40)]
        found += differs("strangers are closed", [is_closed(it, 3) for it in strangers], [True] * 40)
        begun = time.monotonic()
        silent = [stack.enter_context(dial(port, "127.0.0.2")) for _ in range(32)]
        threading.Thread(target=drips, args=(silent[0],), daemon=True).start()
        time.sleep(0.5)
        found += differs("one more than its host has places", is_closed(dial(port, "127.0.0.2"), 3), True)
        found += differs("who says nothing is closed", [is_closed(it, max(0.1, begun + 14 - time.monotonic())) for it in silent], [True] * 32)
        if first:
            first.close()
        second = soon(good, 8)
        found += differs("a link behind those", second is not None, True)
        for it in (second, *strangers):
            if it:
                it.close()
        return found


@check
def a_peer_of_a_chain_that_refuses_is_told_of(folder, port):
    """A member of a chain logs that a peer closes its links before it accepts them, with the epoch."""
    path = of_a_chain(folder, 0, [f"127.0.0.1:{port}", f"127.0.0.1:{port + 2}"], f"127.0.0.1:{port + 1}", 2, 0)
    with serving(port + 2, lambda link: link.recv(18)), running(path, "--log"):
        return differs("lines that are missing", soon(lambda: not lacks(path, ["epoch 0 link-to 1 refused"]), 8), True)


@check
def chains_that_cannot_go_on(folder, port):
    """A chain doesn't run with a journal that was put aside, and ends with the cause if it can't listen, an epoch can't begin, its disk is
    full or a journal is damaged; what a run that was killed left of a new journal doesn't hold it up."""
    def no_room():
        signal.signal(signal.SIGXFSZ, signal.SIG_IGN)
        resource.setrlimit(resource.RLIMIT_FSIZE, (25, 25))

    def chain(name, at):
        os.mkdir(f"{folder}/{name}")
        path = of_a_chain(f"{folder}/{name}", 0, [f"127.0.0.1:{port + at}"], f"127.0.0.1:{port + at + 1}", 1, 0)
        subprocess.run([PROGRAM, "init", path], check=True)
        return path, f"{folder}/{name}/0.epochs"

    path, journals = chain("aside", 0)
    with open(f"{journals}/0.journal.forgotten", "wb"):
        pass
    said, status = say(["run", "--stay", path], folder)
    found = differs("a journal that was put aside", (status, "bracha: forgotten" in said), (1, True))
    path, journals = chain("left", 2)
    with open(f"{journals}/1.journal.new", "wb") as file:
        file.write(b"half")
    with running(path, new=False):
        found += differs("a slot of the epoch whose journal was left", [told(port + 3, it)[0] for it in ("PROPOSE 4 1", "AWAIT 4")], ["OK", "DECIDED 1"])
    path, journals = chain("blocked", 4)
    os.makedirs(f"{journals}/1.journal.new/file")
    said, status = say(["run", "--stay", path], folder)
    found += differs("a journal that can't be made", (status, "bracha: file\n" in said, f"{journals}/1.journal.new" in said), (1, True, True))
    for name, at in (("links", 8), ("desk", 9)):
        path, _ = chain(name, 8)
        with socket.create_server(("127.0.0.1", port + at)):
            said, status = say(["run", "--stay", path], folder)
        words = (f"127.0.0.1:{port + at}", "Address already in use")
        found += differs(f"an address that is taken ({name}, {said!r})", (status, *(it in said for it in words), " ready\n" in said), (1, True, True, False))
    path, journals = chain("damaged", 10)
    with running(path, "--log", new=False) as process:
        for slot in range(5):
            found += differs(f"slot {slot}", [told(port + 11, it)[0] for it in (f"PROPOSE {slot} 1", f"AWAIT {slot}")], ["OK", "DECIDED 1"])
        # Epoch 0 ends in some seconds, and its journal is read then.
        with open(f"{journals}/0.journal", "r+b") as file:
            file.write(b"NOTAFILE")
        found += differs("the status where a journal was damaged", soon(process.poll, 10), 1)
        found += differs("what is named", soon(lambda: any(f"{journals}/0.journal: " in it for it in lines_of(path)), 1), True)
    path, journals = chain("full", 6)
    with concurrent.futures.ThreadPoolExecutor(1) as pool:
        full = pool.submit(say, ["run", "--stay", "--log", path], folder, preexec_fn=no_room)
        soon(lambda: not is_refused(port + 7))
        with contextlib.suppress(OSError):
            told(port + 7, "PROPOSE 0 1")
        said, status = full.result()
    words = (" epoch 0 stopped device: File too large (os error 27)\n", f"\nbracha: stopped\n{journals}/0.journal: File too large (os error 27)\n")
    return found + differs(f"a disk that is full ({said!r})", (status, *(it in said for it in words)), (1, True, True))


@check
def an_open_slot_keeps_its_epoch_open(folder, port):
    """An epoch in which a slot was proposed and isn't decided isn't closed, however long nothing happens: its journal may not be put away."""
    path = of_a_chain(folder, 0, [f"127.0.0.1:{port}", f"127.0.0.1:{port + 2}"], f"127.0.0.1:{port + 1}", 2, 0)
    with running(path):
        found = differs("proposals to one of two", [told(port + 1, f"PROPOSE {slot} 1")[0] for slot in (0, 4, 8)], ["OK"] * 3)
        time.sleep(16)
        return found + differs("the epochs", told(port + 1, "EPOCHS")[0], "EPOCHS 0 2")


@check
def an_older_epoch_whose_disk_stalls(folder, port):
    """While a sync of an older epoch's journal takes 20 seconds, its links don't go down, before the others have done with the epoch. It
    isn't called closed after them, and its client isn't left, since the slot whose proposal is being saved is open."""
    peers = [f"127.0.0.1:{port + it}" for it in range(4)]
    paths = [of_a_chain(folder, it, peers, f"127.0.0.1:{port + 4 + it}", 4, 1) for it in range(4)]
    # The first sync is the opening's.
    stalls = stalling(folder, STALL_FILE="/0.epochs/0.journal", STALL_AT="2", STALL_SECONDS="20")
    with contextlib.ExitStack() as stack, concurrent.futures.ThreadPoolExecutor(4) as pool:
        for me, path in enumerate(paths):
            stack.enter_context(running(path, "--log", **({"env": stalls} if me == 0 else {})))
        found = differs("slot 4", list(pool.map(lambda it: told(port + 4 + it, "PROPOSE 4 1")[0], range(4))), ["OK"] * 4)
        found += differs("its decision", told(port + 4, "AWAIT 4")[0], "DECIDED 1")
        stalled = pool.submit(told, port + 4, "PROPOSE 0 1", timeout=40)
        time.sleep(6)
        found += differs("links that went down", [it for it in lines_of(paths[0]) if "link-down" in it], [])
        said, took = stalled.result()
        found += differs(f"slot 0, whose sync has stalled ({took:.1f} s)", (said, took > 18), ("OK", True))
        time.sleep(4)
        return found + differs("the epochs", told(port + 4, "EPOCHS")[0], "EPOCHS 0 1")


@check
def objects_of_a_chain_name_their_epoch(folder, port):
    """Each object that a member of a chain logs begins with the number of its epoch, and then with its time."""
    path = of_a_chain(folder, 0, [f"127.0.0.1:{port}"], f"127.0.0.1:{port + 1}", 1, 0)
    with running(path, "--log-json"):
        found = differs("slot 5", told(port + 1, "PROPOSE 5 1")[0], "OK") + differs("its decision", told(port + 1, "AWAIT 5")[0], "DECIDED 1")
        wanted = {(0, "ready", None), (1, "ready", None), (1, "decided", 1), (2, "ready", None)}

        def told_so_far():
            with open(f"{path}.log", encoding="utf-8") as log:
                return [json.loads(line) for line in log if line.endswith("\n")]

        rows = lambda: {(row["epoch"], row["event"], row.get("question")) for row in told_so_far()}
        found += [] if soon(lambda: wanted <= rows(), 10) else differs("the objects", sorted(rows(), key=str), sorted(wanted, key=str))
        return found + differs("their first fields", {tuple(row)[:3] for row in told_so_far()}, {("epoch", "time", "event")})


@check
def epochs_that_were_left_out_run(folder, port):
    """The epochs before that of a slot which is proposed far ahead run too, two at a time, to make up for what others decided in
    them."""
    peers = [f"127.0.0.1:{port}", f"127.0.0.1:{port + 2}"]
    path, other = (of_a_chain(folder, me, peers, f"127.0.0.1:{port + 2 * me + 1}", 2, 0) for me in range(2))
    with running(path, "--log"), running(other, "--log"):
        found = differs("a proposal far ahead", told(port + 1, "PROPOSE 20 1")[0], "OK")
        lines = {f"epoch {epoch} ready member 0" for epoch in range(4)}
        return found + differs("epochs that don't run", soon(lambda: not lines - set(lines_of(path)), 40) or sorted(lines - set(lines_of(path))), True)


@check
def early_words_are_paced(folder, port):
    """A peer that says what nobody needs yet is heard 8,192 times at once and then 512 times a second; a member whose peer waits so
    ends at once."""
    peers = [f"127.0.0.1:{port + it}" for it in range(4)]
    path = settings(folder, 0, peers, f"127.0.0.1:{port + 9}", 4, 1, questions=512)
    # Initials of its own, from round 2 on.
    said = [struct.pack(">BHBBBB", 1, question, 1, place // 2 + 2, place % 2 + 1, 1) for question in range(512) for place in range(60)]
    frames = b"".join(struct.pack(">HBB", 2 + 7 * len(part), 4, len(part)) + b"".join(part)
                      for part in (said[at:at + 90] for at in range(0, len(said), 90)))
    count = lambda: int(told(port + 9, "STATUS")[0].split()[1])
    with serving(port + 1, welcomes), serving(port + 2, welcomes), running(path, stays=False) as process:
        started = time.monotonic()
        link = soon(lambda: is_welcomed(port, 1, 0, questions=512))
        if not link:
            return ["no link"]

        def floods():
            with contextlib.suppress(OSError):
                link.settimeout(60)
                link.sendall(frames)

        threading.Thread(target=floods, daemon=True).start()
        found = differs("it is heard", soon(lambda: count() > 8000, 25), True)
        time.sleep(3)
        before = count()
        found += differs(f"no more than its pace allows ({before} of {len(said)})", before < 8192 + 512 * 30, True)
        found += differs("it is heard on", soon(lambda: count() > before + 400, 6), True)
        # In the middle of a second of the member's clock, which would let the peer go by itself.
        time.sleep((started + 0.3 - time.monotonic()) % 1)
        process.stdin.close()
        begun = time.monotonic()
        try:
            found += differs("its status", process.wait(8), 0)
        except subprocess.TimeoutExpired:
            found.append("its end waits for a peer that is held up")
        found += differs("its end", time.monotonic() - begun < 4, True)
        link.close()
        return found


@check
def too_few_threads_are_told_of(folder, port):
    """A member that the system gives too few threads doesn't start, and says why. It wants root."""
    if os.geteuid() != 0:
        return []

    def as_nobody():
        resource.setrlimit(resource.RLIMIT_NPROC, (6, 6))
        os.setgroups([])
        os.setgid(65533)
        os.setuid(65533)

    program = shutil.copy(PROGRAM, f"{folder}/bracha")
    path = settings(folder, 0, [f"127.0.0.1:{port + it}" for it in range(4)], f"127.0.0.1:{port + 9}", 4, 1)
    subprocess.run([PROGRAM, "init", path], check=True)
    os.chmod(os.path.dirname(folder), 0o755)
    os.chown(f"{folder}/member-0.journal", 65533, 65533)
    said, status = say(["run", "--stay", path], folder, executable=program, preexec_fn=as_nobody)
    words = "bracha: memory\nthreads: the system refused one: see `ulimit -u`\n"
    return differs("what it says", (said, status), (words, 1))


@check
def who_listens_elsewhere_decides(folder, port):
    """A member links to itself if it listens at another address than its entry of the peers names, or at all addresses; of a chain too."""
    found = []
    for number, (entry, listen) in enumerate((("127.0.0.5", "0.0.0.0"), ("127.0.0.5", "127.0.0.1"), ("0.0.0.0", None))):
        at = port + 4 * number
        more = f'listen = "{listen}:{at}"\n' if listen else ""
        for chain in ("", f'epochs = "{folder}/{number}.epochs"\n'):
            os.makedirs(room := f"{folder}/{number}{'-chain' if chain else ''}")
            path = settings(room, 0, [f"{entry}:{at}"], f"127.0.0.1:{at + 1}", 1, 0, more=more + chain)
            with running(path):
                replies = [told(at + 1, it)[0] for it in ("PROPOSE 0 1", "AWAIT 0")]
            found += differs(f"{entry}, {listen}, {chain}", replies, ["OK", "DECIDED 1"])
    return found


@check
def what_a_liar_sends_is_shown_as_it_is(folder, port):
    """A transcript with a character that a terminal doesn't show as it is is no answer, and nothing of it is printed."""
    found = []
    lines = (b"0 01000500010100", b"0 \x1b[2J", b"0 01000500010100\r1 0", b"0 01000500010100\t", b"0 0100\x7f", b"0 \xc2\x9b2J", b"0 \xe2\x80\xae1")
    for number, line in enumerate(lines):
        text = b"transcript 5 bit 1 count 2\n0 01000500010100\n" + line + b"\n"
        with serving(port + number, answer(text)):
            printed, said, status = apart(["transcript", f"127.0.0.1:{port + number}", "5"], folder)
        should = (text.decode(), "", 0) if number == 0 else ("", "bracha: no answer", 1)
        found += differs(f"{line}", (printed, said.partition("\n")[0], status), should)
    # A liar sends what is true of another question. That a slot has a number within its epoch only the user of a chain knows.
    for question, should in ((4, ("", "bracha: no answer", 1)), (69, (None, f"bracha: 127.0.0.1:{port} sent a transcript of question 5: right only if 69 is a slot of a chain", 0))):
        with serving(port, answer(b"transcript 5 bit 1 count 1\n0 01000500010100\n")):
            printed, said, status = apart(["transcript", f"127.0.0.1:{port}", str(question)], folder)
        found += differs(f"asked for {question}", (printed if question == 4 else None, said.partition("\n")[0], status), should)
    return found


def play(name):
    """Plays that check in this process, and prints what is wrong."""
    number, function = next((number, it) for number, it in enumerate(CHECKS) if it.__name__ == name)
    hard = resource.getrlimit(resource.RLIMIT_NOFILE)[1]
    resource.setrlimit(resource.RLIMIT_NOFILE, (min(4096, hard), hard))
    with tempfile.TemporaryDirectory(prefix="bracha-edges-") as room:
        os.makedirs(folder := f"{room}/{name}")
        try:
            wrong = function(folder, 28400 + 20 * number)
        except Exception as error:  # pylint: disable=broad-except
            wrong = [f"{type(error).__name__}: {error}"]
    for line in wrong:
        print(f"{name}: {line}")
    return 1 if wrong else 0


def main():
    if sys.argv[2:3] == ["--alone"]:
        return play(sys.argv[3])
    known = [it.__name__ for it in CHECKS]
    names = sys.argv[2:] or known
    if not set(names) <= set(known):
        print(f"no such check: {' '.join(sorted(set(names) - set(known)))}", file=sys.stderr)
        return 2

    # A process each, and few at once: what one of them floods or decides must not make another one's desks slow.
    def in_a_process(name):
        words = [sys.executable, os.path.realpath(__file__), PROGRAM, "--alone", name]
        return subprocess.run(words, stdout=subprocess.PIPE, text=True, check=False)

    failed = 0
    with concurrent.futures.ThreadPoolExecutor(AT_ONCE) as pool:
        for ran in pool.map(in_a_process, names):
            failed += 1 if ran.returncode else 0
            print(ran.stdout, end="")
    print(f"{len(names) - failed} passed, {failed} failed")
    return 1 if failed else 0


if __name__ == "__main__":
    sys.exit(main())
