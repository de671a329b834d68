#!/usr/bin/env python3
"""tests/processes.py [PROGRAM [CASE..]]

Runs the built program as a process and looks at all of what it prints, says on standard error, ends with and leaves in files: the cases of
tests/processes.txt, and those below, which want desks, sockets, signals or closed streams. PROGRAM is crates/bracha/out/bracha unless
another is named. It takes the ports 24000 to 24299 and ten seconds, with all cases side by side, each in a folder of its own.
Prints what is wrong, and in its last line `N passed, M failed`; the status is 1 where M isn't 0.

A case of the text is a line `case NAME` and lines of steps up to the next one; `#` begins a comment. BYTES are texts in quotes, hexadecimal
digits and names of bytes, and `first N` behind them means so many of them; in place of BYTES lines that begin with `| ` may follow.

    bytes NAME BYTES        names bytes, for all cases
    put FILE BYTES, text FILE   writes a file
    line FILE N [TEXT]      its line N becomes this text, or goes
    member FILE JOURNAL C   settings of member 1 of four, in cluster C
    folder NAME, link FILE NAME, pipe NAME, lock FILE, remove FILE
    has FILE BYTES          it has these bytes and no others; kept FILE: those that were put last
    begins FILE BYTES, ends FILE BYTES, holds FILE BYTES, omits FILE BYTES
    lacks FILE              there is no such file
    files [FILE..]          there are these files, in all folders, and no others
    $ WORDS                 runs the program on these words, and
    < LINE                  a line of its input
    > LINE                  a line that it prints; `> FILE NAME`: what that file has
    ! LINE                  a line that it says on standard error
    = STATUS                the status that it ends with, 0 if there is no such line

What is printed and said is compared whole. A line `..` stands for any lines, and ` ..` at the end of a line for any rest of it. Where two
lines are said of an error, the program is run by --quiet and by BRACHA_QUIET=1 too, and has to say the first one alone.
"""
import ast
import collections
import concurrent.futures
import contextlib
import fcntl
import os
import re
import shutil
import signal
import socket
import struct
import subprocess
import sys
import tempfile
import threading
import time

TOP = os.path.dirname(os.path.dirname(os.path.realpath(__file__)))
PROGRAM = os.path.realpath(sys.argv[1] if len(sys.argv) > 1 else f"{TOP}/crates/bracha/out/bracha")
PORTS, NOBODY = 24000, "127.0.0.1:24299"
SECONDS = 20
SEED = f"{1:064x}"
CHECKS = []

Said = collections.namedtuple("Said", "printed said status")


class Wrong(Exception):
    """What isn't as a case says."""


def expect(what, is_so, should):
    if is_so != should:
        raise Wrong(f"{what}: {repr(is_so)[:400]}, and not {repr(should)[:400]}")


def check(function):
    """A case that is a function of a folder of its own and the first of ten ports of its own."""
    CHECKS.append(function)
    return function


def begun(folder, words, stdin=subprocess.DEVNULL, stdout=subprocess.PIPE, front=None, **more):
    """Starts the program on these words, by itself or behind the words in front."""
    line = {"args": [*front, PROGRAM, *words]} if front else {"args": ["bracha", *words], "executable": PROGRAM}
    return subprocess.Popen(**line, cwd=folder, stdin=stdin, stdout=stdout, stderr=subprocess.PIPE, **more)


def ended(process, given=None, limit=SECONDS):
    """What a process printed and said, and its status, once it has ended, which it does within so many seconds."""
    try:
        printed, said = process.communicate(given, limit)
    except subprocess.TimeoutExpired:
        process.kill()
        process.communicate()
        raise Wrong(f"{process.args[-3:]} goes on for {limit} seconds") from None
    return Said((printed or b"").decode(errors="replace"), said.decode(errors="replace"), process.returncode)


def say(folder, *words, **more):
    return ended(begun(folder, words, **more))


def write(folder, name, held):
    with open(f"{folder}/{name}", "wb") as file:
        file.write(held)


def read(folder, name):
    with open(f"{folder}/{name}", "rb") as file:
        return file.read()


def settings(me, peers, desk, journal="member.journal", t=0, questions=1, cluster=7, seed=SEED):
    addresses = ", ".join(f"'{it}'" for it in peers)
    return (f"cluster = {cluster}\nn = {len(peers)}\nt = {t}\nquestions = {questions}\nme = {me}\njournal = '{journal}'\n"
            f"peers = [{addresses}]\ndesk = '{desk}'\nseed = '{seed}'\n").encode()


def text_of(lines):
    return "".join(f"{it}\n" for it in lines)


def fits(what, is_so, lines):
    """A line `..` is any lines, and ` ..` at the end of a line any rest of it."""
    rest = lambda it: re.escape(it.removesuffix("..")) + (".*" if it.endswith(" ..") else "") + "\n"
    pattern = "".join(r"(?:.*\n)+" if it == ".." else rest(it) for it in lines)
    if not re.fullmatch(pattern, is_so):
        expect(what, is_so, text_of(lines))


def bytes_of(text, lines, names):
    """The bytes that are written so, or as lines behind a step."""
    if lines:
        return text_of(lines).encode()
    text, _, first = text.partition(" first ")
    words = re.findall(r'"(?:[^"\\]|\\.)*"|\S+', text)
    held = b"".join(names.get(it) or (ast.literal_eval(it).encode() if it[0] == '"' else bytes.fromhex(it)) for it in words)
    return held[:int(first)] if first else held


class Case:
    """A case of the text: its folder, the bytes that have names, what holds the files that it locks, and what it has put last."""

    def __init__(self, folder, names, stack):
        self.folder, self.names, self.stack, self.put_last = folder, names, stack, {}

    def write(self, name, held):
        self.put_last[name] = held
        write(self.folder, name, held)

    def put(self, text, lines):
        name, _, held = text.partition(" ")
        self.write(name, bytes_of(held, lines, self.names))

    text = put

    def line(self, text, _):
        name, number, *new = text.split(" ", 2)
        lines = self.put_last[name].decode().splitlines()
        lines[int(number) - 1:int(number)] = new
        self.write(name, text_of(lines).encode())

    def member(self, text, _):
        name, journal, cluster = text.split(" ")
        peers = [f"127.0.0.1:{24290 + it}" for it in range(4)]
        self.write(name, settings(1, peers, "127.0.0.1:24294", journal, 1, cluster=cluster))

    def make(self, how, text):
        how(*(f"{self.folder}/{it}" for it in text.split(" ")))

    def lock(self, text, _):
        file = self.stack.enter_context(open(f"{self.folder}/{text}", "rb"))
        fcntl.flock(file, fcntl.LOCK_EX | fcntl.LOCK_NB)

    def looks(self, text, lines, holds):
        name, _, held = text.partition(" ")
        if not holds(is_so := read(self.folder, name), wanted := bytes_of(held, lines, self.names)):
            expect(name, is_so, wanted)

    def kept(self, text, _):
        expect(text, read(self.folder, text), self.put_last[text])

    def lacks(self, text, _):
        expect(text, os.path.exists(f"{self.folder}/{text}"), False)

    def files(self, text, _):
        found = [os.path.relpath(f"{at}/{it}", self.folder) for at, _, names in os.walk(self.folder) for it in names]
        expect("the files", sorted(found), sorted(text.split()))

    def run(self, text, lines):
        """Runs the program, and looks at what it says: all of it, and the first line of an error alone where less is asked for."""
        given, printed, said, status = [[it[2:] for it in lines if it[0] == sign] for sign in "<>!="]
        words = text.split(" ")
        if len(said) > 1 and said[0].startswith("bracha: "):
            self.runs(["--quiet", *words], given, printed, said[:1], status)
            self.runs(words, given, printed, said[:1], status, env={**os.environ, "BRACHA_QUIET": "1"})
        self.runs(words, given, printed, said, status)

    def runs(self, words, given, printed, said, status, **more):
        is_so, line = ended(begun(self.folder, words, stdin=subprocess.PIPE, **more), text_of(given).encode()), " ".join(words)
        if printed and printed[0].startswith("FILE "):
            printed = read(self.folder, printed[0].removeprefix("FILE ")).decode().splitlines()
        fits(f"{line}: prints", is_so.printed, printed)
        fits(f"{line}: says", is_so.said, said)
        expect(f"{line}: status", is_so.status, int(status[0]) if status else 0)

    MAKES = {"folder": os.mkdir, "link": os.link, "pipe": os.mkfifo, "remove": os.remove}
    LOOKS = {"has": bytes.__eq__, "begins": bytes.startswith, "ends": bytes.endswith, "holds": bytes.__contains__,
             "omits": lambda is_so, part: part not in is_so}

    def step(self, name, text, lines):
        if name in self.MAKES:
            self.make(self.MAKES[name], text)
        elif name in self.LOOKS:
            self.looks(text, lines, self.LOOKS[name])
        else:
            getattr(self, "run" if name == "$" else name)(text, lines)


def cases_of(path):
    """The cases of the text by name: of each step its line's number, its word, what stands behind that, and the lines that belong to it.
    And the bytes that have names."""
    cases, names = {}, {}
    with open(path, encoding="utf-8") as file:
        for number, line in enumerate(file, 1):
            word, _, text = line.rstrip("\n").partition(" ")
            if word == "case":
                steps = cases[text] = []
            elif word == "bytes":
                name, _, held = text.partition(" ")
                names[name] = bytes_of(held, [], names)
            elif word == "|":
                steps[-1][3].append(text)
            elif word in ("<", ">", "!", "="):
                steps[-1][3].append(f"{word} {text}")
            elif word and word != "#":
                steps.append((number, word, text, []))
    return cases, names


def play(folder, steps, names):
    with contextlib.ExitStack() as stack:
        case = Case(folder, names, stack)
        for number, name, text, lines in steps:
            try:
                case.step(name, text, lines)
            except (Wrong, OSError) as error:
                raise Wrong(f"line {number}: {error}") from None


# The cases that are functions.


def soon(tries, seconds=SECONDS):
    """What comes of one of some tries, if anything does."""
    end = time.monotonic() + seconds
    while not (found := tries()) and time.monotonic() < end:
        time.sleep(0.02)
    return found


@check
def an_argument_comes_whole(folder, _):
    """An argument of any length comes whole, and one that is no text is told by its number."""
    for count, why in ((1, "No such file or directory (os error 2)"), (5000, "File name too long (os error 36)"),
                       (100_000, "File name too long (os error 36)")):
        word = "1".rjust(count, "0")
        expect(f"{count} bytes", say(folder, "dump", word), ("", f"bracha: file\n{word}: open: {why}\n", 1))
    for words, number in ((("dump", b"x\xff"), 2), ((b"\xff",), 1)):
        expect("no text", say(folder, *words), ("", f"bracha: argument {number} is not UTF-8\n", 2))


@check
def a_second_line_is_short(folder, _):
    """Of a long line the first 200 characters are shown, cut between two of them, and what takes many bytes as an escape too."""
    form = "word 2 must be a number from 0 to 65535: the first line is `n N`: N members, 1 to 64"
    for line, shown in (("n " + "x" * 198, "n " + "x" * 198), ("n " + "x" * 199, "n " + "x" * 198 + " .."),
                        ("n " + "ü" * (1 << 20), "n " + "ü" * 198 + " .."),
                        ("n " + "\x9b" * (1 << 20), '"n ' + "\\u{9b}" * 198 + '" ..')):
        write(folder, "long.script", line.encode() + b"\n")
        expect(f"{len(line)} characters", say(folder, "simulate", "long.script"),
               ("", f"bracha: line 1\nlong.script:1: {shown}: {form}\n", 1))


@check
def a_line_is_found_among_many(folder, _):
    """The line that is meant is found among 16 million others, and these are counted, in little memory."""
    write(folder, "empty.transcript", b"\n" * (1 << 24))
    is_so = say(folder, *"audit --n 4 --t 1 --questions 1 empty.transcript".split(), front=["sh", "-c", 'ulimit -v 200000; exec "$0" "$@"'])
    expect("the first line", is_so, ("", "bracha: line 1\nempty.transcript:1: this line is empty\n", 1))


@check
def a_name_prints_no_line_of_its_own(folder, port):
    """A path, in an argument or in the settings, is shown in quotes if it has what no reader sees, and else as it is."""
    hidden = "x\x1b]0;y\x07\r\nbracha: fine\u202e"
    shown = r'"x\u{1b}]0;y\u{7}\r\nbracha: fine\u{202e}"'
    for path, told in ((hidden, shown), ('a "b" \\ü', 'a "b" \\ü')):
        expect("the second line", say(folder, "dump", path), ("", f"bracha: file\n{told}: open: No such file or directory (os error 2)\n", 1))
        write(folder, path, b"n 1\nt 0\nquestions 1\nliars\nseed 1\n")
        expect("one file", say(folder, "--quiet", "simulate", "--trace", path, path), ("", f"bracha: same file {told}\n", 2))
    peers = [f"127.0.0.1:{port + it}" for it in range(4)]
    quoted = lambda path: '"' + "".join(f"\\u{ord(it):04x}" for it in path) + '"'
    for path, told in (("j\nrecords 12345", r'"j\nrecords 12345"'), ("j 1", "j 1")):
        text = settings(1, peers, f"127.0.0.1:{port + 4}", t=1).replace(b"'member.journal'", quoted(path).encode())
        write(folder, "member.toml", text + f"desk-socket = {quoted(path)}\nepochs = {quoted(path)}\n".encode())
        lines = say(folder, "--quiet", "check", "member.toml").printed.splitlines()
        expect("the paths", [it for it in lines if it.split()[0] not in ("cluster", "peer", "desk")],
               [f"journal {told}", f"desk-socket {told}", f"epochs {told}"])


@check
def the_first_ignored_keys_are_named(folder, port):
    """Of the keys that are ignored 20 are named, in quotes unless TOML takes them without, and the others are counted."""
    text = settings(1, [f"127.0.0.1:{port + it}" for it in range(4)], f"127.0.0.1:{port + 4}", t=1)
    write(folder, "member.journal", b"BRACHAJ2" + struct.pack(">QBBHB3xx", 7, 4, 1, 1, 1))
    named = lambda name, line: f"member.toml{line}: {name}: no key of the settings, ignored\n"
    odd = r'"\u001b]0;x\u0007\nbracha: all fine\n"', r'"\u{1b}]0;x\u{7}\nbracha: all fine\n"'
    for given, said in (('a-B_9 = 1\n"b c" = 2\n"ü" = 3\n"" = 4\n', named('""', "") + named("a-B_9", ":1") + named('"b c"', "") + named('"ü"', "")),
                        (f"{odd[0]} = 1\n", named(odd[1], "")),
                        (f"{'k' * 300} = 1\n", named("k" * 200 + " ..", ":1")),
                        ("".join(f"k{it} = 1\n" for it in range(10, 30)), "".join(named(f"k{it}", f":{it - 9}") for it in range(10, 30))),
                        ("".join(f"k{it} = 1\n" for it in range(10000, 30000)),
                         "".join(named(f"k{it}", f":{it - 9999}") for it in range(10000, 10020)) + "member.toml: more keys, ignored: 19980\n")):
        write(folder, "member.toml", given.encode() + text)
        is_so = say(folder, "check", "member.toml")
        expect("the ignored keys", (is_so.said, is_so.status), (said, 0))


@check
def closed_streams_leave_files_alone(folder, port):
    """What can't be printed or said anywhere isn't written into a file that was opened, and doesn't begin a member."""
    journal = b"BRACHAJ2" + struct.pack(">QBBHB3xx", 7, 4, 1, 1, 1)
    script = b"n 1\nt 0\nquestions 1\nliars\nseed 1\npropose 0 0 1\n"
    put = {"member.toml": settings(1, [f"127.0.0.1:{port + it}" for it in range(4)], f"127.0.0.1:{port + 4}", t=1), "member.journal": journal,
           "one.script": script}
    for name, held in put.items():
        write(folder, name, held)
    for words, second in (("dump member.journal", ""), ("run member.toml", ""), ("run --stay member.toml", ""),
                          ("simulate --trace - one.script", "-: write: Bad file descriptor (os error 9)\n")):
        for closed, said in (("<&- >&-", f"bracha: stream\n{second}"), ("<&- >&- 2>&-", "")):
            is_so = say(folder, *words.split(), front=["sh", "-c", f'exec "$0" "$@" {closed}'])
            expect(f"{words} {closed}", is_so, ("", said, 1))
            expect("the files", {it: read(folder, it) for it in os.listdir(folder)}, put)


@check
def a_status_is_told_without_words(folder, _):
    """Where standard error is full the status is that of what is wrong; where help can't be printed, that is wrong."""
    write(folder, "a", b"")
    with open("/dev/full", "wb") as full:
        for words, status in ((["nonsense"], 2), (["ask", "--timeout", "x", "127.0.0.1:1", "0"], 2), (["migrate", "a", "a"], 2), (["dump", "b"], 1)):
            ran = subprocess.run([PROGRAM, *words], cwd=folder, stderr=full, stdout=subprocess.PIPE, check=False)
            expect(f"{words}: status", ran.returncode, status)
        ran = subprocess.run([PROGRAM, "--help"], cwd=folder, stdout=full, stderr=subprocess.PIPE, check=False)
        expect("--help", (ran.returncode, ran.stderr.splitlines()[:1]), (1, [b"bracha: stream"]))


@contextlib.contextmanager
def desk_at(port):
    """A desk that this script plays."""
    with socket.create_server(("127.0.0.1", port)) as desk:
        desk.settimeout(SECONDS)
        yield desk


def replies(desk, line, reply):
    """Takes a client, reads its line, if one is named, and answers it with the reply, after which the connection ends."""
    link, _ = desk.accept()
    with link:
        link.settimeout(SECONDS)
        if line:
            expect("the client's line", link.recv(len(line), socket.MSG_WAITALL), line)
        link.sendall(reply)


@check
def a_desk_that_hangs_up_is_no_answer(folder, port):
    """Half a line is no answer, and neither is a line with a count of words that no reply has."""
    lines = f"bracha: no answer\n127.0.0.1:{port}: connected, but no reply came\n"
    with desk_at(port) as desk:
        for more, reply in (([], b"UP 3 0"), (["--json"], b"UP 1\n")):
            for line in (b"", b"STATUS\n"):
                process = begun(folder, ["status", *more, f"127.0.0.1:{port}"])
                replies(desk, line, reply)
                expect(f"{reply!r}", ended(process), ("", lines, 1))


@check
def a_decision_is_waited_for(folder, port):
    """A client that waits asks once, and then waits at the desk until there is a decision."""
    with desk_at(port) as desk:
        process = begun(folder, ["ask", "--wait", f"127.0.0.1:{port}", "5"])
        for line, reply in ((b"ASK 5\n", b"UNDECIDED\n"), (b"AWAIT 5\n", b"UNDECIDED\n"), (b"AWAIT 5\n", b"DECIDED 0\n")):
            replies(desk, line, reply)
        expect("ask --wait", ended(process), ("DECIDED 0\n", "", 0))


@check
def a_wait_has_an_end(folder, port):
    """A client waits for nothing but a decision, and no longer than it is told."""
    with desk_at(port) as desk:
        process = begun(folder, ["ask", "--wait", f"127.0.0.1:{port}", "5"])
        replies(desk, b"ASK 5\n", b"ERR 2 question\n")
        expect("a refusal", ended(process), ("ERR 2 question\n", "", 1))
        process = begun(folder, ["ask", "--wait", "--timeout", "3", f"127.0.0.1:{port}", "5"])
        replies(desk, b"ASK 5\n", b"UNDECIDED\n")
        expect("three seconds", ended(process), ("UNDECIDED\n", "", 1))


@check
def a_client_waits_as_long_as_it_is_told(folder, port):
    """A desk that takes connections and says nothing is given up after the client's time."""
    with desk_at(port):
        since = time.monotonic()
        is_so = say(folder, "ask", "--wait", "--timeout", "1", f"127.0.0.1:{port}", "5")
        took = time.monotonic() - since
    expect("no reply", (is_so.printed, is_so.said.splitlines()[:1], is_so.status), ("", ["bracha: no answer"], 1))
    expect(f"it takes {took:.1f} s", 0.5 < took < 15, True)


@check
def a_slow_desk_is_waited_for(folder, port):
    """A client waits longer than half a second until its connection is made, and then for the reply."""
    with desk_at(port) as desk, contextlib.ExitStack() as stack:
        queue = []
        with contextlib.suppress(TimeoutError):
            while len(queue) < 1024:
                queue.append(stack.enter_context(socket.create_connection(("127.0.0.1", port), 0.1)))
        expect("a queue has an end", len(queue) < 1024, True)
        process = begun(folder, ["status", f"127.0.0.1:{port}"])
        expect("it ends without a connection", is_over(process, 0.5), False)
        links = [stack.enter_context(desk.accept()[0]) for _ in range(len(queue) + 1)]
        time.sleep(0.5)
        links[-1].sendall(b"UP 3 0\n")
        expect("status", ended(process), ("UP 3 0\n", "", 0))


@check
def no_stream_has_the_number_of_a_standard_one(folder, port):
    """A client that is started with all streams closed, and has its connection, holds nothing but /dev/null at their numbers."""
    with desk_at(port) as desk:
        process = begun(folder, ["status", f"127.0.0.1:{port}"], front=["sh", "-c", 'exec "$0" "$@" <&- >&- 2>&-'])
        link, _ = desk.accept()
        held = [os.readlink(f"/proc/{process.pid}/fd/{it}") for it in range(3)]
        link.close()
        expect("its status", ended(process).status, 1)
    expect("the streams", held, ["/dev/null"] * 3)


@check
def seeds_are_secret_and_differ(folder, _):
    """The settings of each member can be read by their owner alone, and have a seed of their own."""
    expect("new-cluster", say(folder, "new-cluster", "--n", "4", "--t", "1", "--questions", "16", "--cluster", "9", "new").status, 0)
    members = [f"new/member-{it}.toml" for it in range(4)]
    modes = [oct(os.stat(f"{folder}/{it}").st_mode & 0o777) for it in (*members, "new/client.toml")]
    expect("the modes", modes, ["0o600"] * 4 + ["0o644"])
    seeds = {re.fullmatch(rb'seed = "([0-9a-f]{64})"', read(folder, it).splitlines()[-1])[1] for it in members}
    expect("the seeds that differ", len(seeds), 4)


def lines_of(log):
    """The lines of a log, without their times, and other lines as they are."""
    return [re.sub(r"^\d{4}-\d\d-\d\dT[\d:.]+Z ", "log ", it) for it in log.splitlines()]


def alone(folder, port):
    """The settings and the journal of a member by itself, whose desk is at the next port."""
    write(folder, "member.toml", settings(0, [f"127.0.0.1:{port}"], f"127.0.0.1:{port + 1}"))
    expect("init", say(folder, "init", "member.toml"), ("", "", 0))


@contextlib.contextmanager
def living(folder, words, me=0, stdin=subprocess.PIPE, **more):
    """A member that runs, once it is ready. Its input goes on until it is asked what it has said. It is killed if it still runs."""
    process = begun(folder, words, stdin, **more)
    limit = threading.Timer(SECONDS, process.kill)
    limit.start()
    try:
        expect("what it prints", process.stdout.readline(), f"member {me} ready\n".encode())
        limit.cancel()
        yield process
    finally:
        limit.cancel()
        process.kill()
        process.communicate()


def is_over(process, seconds):
    """Tells if the process ends within that time while its input goes on."""
    with contextlib.suppress(subprocess.TimeoutExpired):
        return process.wait(seconds) is not None
    return False


@check
def a_member_alone_tells_its_life(folder, port):
    """A member by itself decides, answers each client as the formats say, and logs its life."""
    desk = f"127.0.0.1:{port + 1}"
    alone(folder, port)
    with living(folder, ["run", "--log", "member.toml"]) as process:
        # What comes in doesn't end the member; only that no more comes does.
        process.stdin.write(b"x\n")
        process.stdin.flush()
        expect("propose", say(folder, "propose", desk, "0", "1"), ("OK\n", "", 0))
        soon(lambda: say(folder, "status", desk).printed == "UP 18 1\n")
        heard = [f"0 000803{kind:02}000000{round_:02}{step:02}{'03' if step == 3 else '01'}\n"
                 for round_ in (1, 2) for step in (1, 2, 3) for kind in (1, 2, 3)]
        for words, printed, status in (
                ("propose {} 0 2", "ERR 3 bit\n", 1), ("propose {} 1 1", "ERR 2 question\n", 1), ("ask {} 1", "ERR 2 question\n", 1),
                ("ask --json {} 1", '{"error":2,"name":"question"}\n', 1), ("propose {} 0 0", "HAVE 1\n", 0), ("ask {} 0", "DECIDED 1\n", 0),
                ("transcript {} 0", "".join(["transcript 0 bit 1 count 18\n", *heard]), 0), ("transcript {} 1", "ERR 2 question\n", 1),
                ("ask --json {} 0", '{"decided":1}\n', 0), ("status --json {}", '{"up":true,"statements":18,"decided":1}\n', 0)):
            expect(words, say(folder, *words.format(desk).split()), (printed, "", status))
        expect("it ends by itself", is_over(process, 1), False)
        life = ended(process)
    expect("its life", (life.printed, lines_of(life.said), life.status), ("", ["log ready member 0", "log decided 0 1", "log end"], 0))
    # In its next life the decision isn't told again.
    again = say(folder, "run", "--log", "member.toml")
    expect("its next life", (again.printed, lines_of(again.said), again.status), ("member 0 ready\n", ["log ready member 0", "log end"], 0))


@check
def a_member_is_warned(folder, port):
    """A member says that --any-host is unsafe, and that fewer files may be open than its links and a client want."""
    alone(folder, port)
    warning = "bracha: --any-host is unsafe: any host may speak for any member\n"
    expect("any host", say(folder, "run", "--any-host", "member.toml"), ("member 0 ready\n", warning, 0))
    few = "bracha: 18 open files are too few: the links want 17, and each client 2\n"
    is_so = say(folder, "run", "member.toml", front=["sh", "-c", 'ulimit -n 18; exec "$0" "$@"'])
    expect("few files", is_so, ("member 0 ready\n", few, 0))


@check
def a_signal_ends_a_member(folder, port):
    """A signal that is blocked ends a member as the end of its input does, and another cuts it off."""
    alone(folder, port)
    block = ["env", "--block-signal=TERM,INT"]
    for words, front, number, status in (("run --stay", block, signal.SIGTERM, 0), ("run", block, signal.SIGTERM, 0),
                                         ("run --stay", block, signal.SIGINT, 0), ("run --stay", None, signal.SIGTERM, -signal.SIGTERM)):
        with living(folder, [*words.split(), "--log", "member.toml"], front=front) as process:
            process.send_signal(number)
            expect("it ends", is_over(process, 10), True)
            is_so = ended(process)
        # One that is cut off may not have come to its first line.
        lines = lines_of(is_so.said) if status == 0 else [it for it in lines_of(is_so.said) if it != "log ready member 0"]
        wanted = ["log ready member 0", "log end"] if status == 0 else []
        expect(f"{front} {words}", (is_so.printed, lines, is_so.status), ("", wanted, status))


@check
def a_member_that_stays_outlives_its_input(folder, port):
    """A member that stays is still up after its input has ended; a second one at its port says that the port is taken, and one without
    a journal who may make one."""
    alone(folder, port)
    with living(folder, ["run", "--stay", "--log", "member.toml"], stdin=subprocess.DEVNULL) as process:
        expect("it ends with its input", is_over(process, 2), False)
        write(folder, "second.toml", settings(0, [f"127.0.0.1:{port}"], f"127.0.0.1:{port + 1}", "second.journal"))
        missing = "second.journal: open: no such file: `bracha init` makes one for a new member, and for no other\n"
        expect("no journal", say(folder, "run", "second.toml"), ("", f"bracha: file\n{missing}", 1))
        expect("init", say(folder, "init", "second.toml"), ("", "", 0))
        taken = f"127.0.0.1:{port}: listen: Address already in use (os error 98)\n"
        expect("a port that is taken", say(folder, "run", "second.toml"), ("", f"bracha: listen\n{taken}", 1))
        process.kill()
        expect("its log", lines_of(ended(process).said), ["log ready member 0"])


@check
def a_member_that_stays_ends_once_it_is_stopped(folder, port):
    """A member of two that has lost its journal ends as `forgotten` once its peer says that it has heard more; the journal is put aside."""
    write(folder, "member.toml", settings(0, [f"127.0.0.1:{port}", f"127.0.0.1:{port + 1}"], f"127.0.0.1:{port + 2}"))
    expect("init", say(folder, "init", "member.toml"), ("", "", 0))
    with desk_at(port + 1) as peer, living(folder, ["run", "--stay", "member.toml"], stdin=subprocess.DEVNULL) as process:
        link, _ = peer.accept()
        with link:
            link.settimeout(5)
            hello = struct.pack(">HBBQBBHBB", 16, 1, 2, 7, 2, 0, 1, 0, 1)
            expect("its greeting", link.recv(18, socket.MSG_WAITALL), hello)
            link.sendall(struct.pack(">HBQ", 9, 2, 5))
            is_so = ended(process, limit=10)
    expect("how it ends", (is_so.printed, is_so.status), ("", 1))
    fits("what it says", is_so.said, ["stopped", "bracha: forgotten", "member.journal.forgotten: .."])
    expect("the files", sorted(os.listdir(folder)), ["member.journal.forgotten", "member.toml"])


@check
def a_long_script_is_read_to_its_end(folder, _):
    write(folder, "long.script", b"n 1\nt 0\nquestions 1\nliars\nseed 1\n" + b"#\n" * 100_000 + b"propose 0 0 1\n")
    expect("simulate", say(folder, "simulate", "long.script"), ("events 1 skipped 0\n", "", 0))


@check
def hear_answers_at_once(folder, _):
    """Each line is answered as it comes, into a file too, and not at the end of the input."""
    answer = b"news\n00080302000103010101\n"
    with open(f"{folder}/heard", "wb") as heard:
        process = begun(folder, "hear --n 4 --t 1 --questions 2 --me 3".split(), stdin=subprocess.PIPE, stdout=heard)
    process.stdin.write(b"3 00080301000103010101\n")
    process.stdin.flush()
    soon(lambda: read(folder, "heard"), 10)
    answered = read(folder, "heard")
    expect("the end", ended(process), ("", "", 0))
    expect("at once, and at the end", (answered, read(folder, "heard")), (answer, answer))


COMMANDS = ["new-cluster", "init", "check", "run", "propose", "ask", "decide", "status", "transcript", "audit", "gateway", "epochs", "dump",
            "migrate", "simulate", "rounds", "hear"]


def uses_of(folder, command):
    """The words of each use of the program that a command's help shows, without the file that the output goes to. Each desk is one at
    which nobody is."""
    is_so = say(folder, command, "--help")
    expect(f"{command} --help", (is_so.said, is_so.status), ("", 0))
    shown = [re.match(r"  .*?\bbracha (.*)", it) for it in is_so.printed.splitlines()]
    uses = [re.sub(r"127\.0\.0\.1:\d+", NOBODY, it[1].split(" > ")[0]) for it in shown if it]
    expect(f"{command} --help shows a use", uses != [], True)
    return uses


@check
def help_shows_what_is_taken(folder, _):
    """The parser takes each use that the help shows: in an empty folder it ends otherwise than by status 2, or goes on."""
    listed = re.findall(r"^  ([a-z-]+)  ", say(folder, "--help").printed.partition("Commands:")[2].partition("Options:")[0], re.M)
    expect("the commands", listed, [*COMMANDS, "help"])

    def fault(words):
        with tempfile.TemporaryDirectory(dir=folder) as room:
            process = begun(room, words.split())
            try:
                is_so = ended(process, limit=2)
            except Wrong:
                return None
        return None if is_so.status in (0, 1) and not is_so.said.startswith(("error:", "bracha: words")) else (words, is_so)

    with concurrent.futures.ThreadPoolExecutor(4) as pool:
        uses = [use for it in pool.map(lambda it: uses_of(folder, it), COMMANDS) for use in it]
        expect("uses that aren't taken", [it for it in pool.map(fault, uses) if it], [])


class Cluster:
    """Four members, two questions."""

    def __init__(self, folder, port):
        self.folder, self.port = folder, port
        peers = [f"127.0.0.1:{port + it}" for it in range(4)]
        for me in range(4):
            write(folder, f"{me}.toml", settings(me, peers, self.desk(me), f"{me}.journal", 1, 2, seed=f"{me:064x}"))
            expect("init", say(folder, "init", f"{me}.toml"), ("", "", 0))

    def desk(self, me):
        return f"127.0.0.1:{self.port + 4 + me}"

    def run(self, me):
        return living(self.folder, ["run", f"{me}.toml"], me)

    def decides(self, me, question, bit):
        """Waits until the member has decided the question."""
        words = ["ask", self.desk(me), str(question)]
        soon(lambda: say(self.folder, *words).printed != "UNDECIDED\n")
        expect(f"member {me}, question {question}", say(self.folder, *words), (f"DECIDED {bit}\n", "", 0))

    def settle(self, question, bit):
        """Proposes the bit to each member, and asks each for its decision."""
        for me in range(4):
            expect("propose", say(self.folder, "propose", self.desk(me), str(question), str(bit)), ("OK\n", "", 0))
        for me in range(4):
            self.decides(me, question, bit)

    def has_decided_twice(self, me):
        """The member's journal has two decisions, for 0 and then for 1, and as many records as are counted."""
        printed = say(self.folder, "dump", f"{me}.journal").printed.splitlines()
        expect("the header", printed[0], f"cluster 7 n 4 t 1 questions 2 me {me}")
        expect("three records or more", len(printed) > 3, True)
        decided = [re.sub(r" \d+ ", " R ", it[8:]) for it in printed if it.startswith("decided ")]
        expect(f"the decisions of member {me}", decided, ["0 R 0", "1 R 1"])
        expect("dump --count", say(self.folder, "dump", "--count", f"{me}.journal"), (f"{len(printed) - 1}\n", "", 0))


@check
def four_processes_decide(folder, port):
    """Four members decide a question; member 2 ends, comes again and still knows; it is killed, comes again, and they decide another."""
    cluster = Cluster(folder, port)
    with contextlib.ExitStack() as stack:
        members = [stack.enter_context(cluster.run(me)) for me in (0, 1, 3)]
        with cluster.run(2) as second:
            cluster.settle(0, 0)
            expect("the end of member 2", ended(second), ("", "", 0))
        with cluster.run(2) as second:
            cluster.decides(2, 0, 0)
            second.kill()
            second.wait()
        # Started once more it goes on with the others.
        members.append(stack.enter_context(cluster.run(2)))
        cluster.settle(1, 1)
        is_so = say(folder, "status", cluster.desk(2))
        expect("status", (re.sub(r"UP \d+ ", "UP M ", is_so.printed), is_so.said, is_so.status), ("UP M 2\n", "", 0))
        for process in members:
            expect("the end of a member", ended(process), ("", "", 0))
    for me in range(4):
        cluster.has_decided_twice(me)


def main():
    os.environ.pop("BRACHA_QUIET", None)
    cases, names = cases_of(f"{TOP}/tests/processes.txt")
    works = [(it.__name__, it, PORTS + 10 * number) for number, it in enumerate(CHECKS)]
    works += [(name, lambda folder, _, steps=steps: play(folder, steps, names), 0) for name, steps in cases.items()]
    works = [it for it in works if not sys.argv[2:] or it[0] in sys.argv[2:]]

    def wrong_of(number):
        name, work, port = works[number]
        os.mkdir(f"{room}/{number}")
        try:
            work(f"{room}/{number}", port)
        except Exception as error:  # pylint: disable=broad-except
            return f"{name}: {'' if isinstance(error, Wrong) else type(error).__name__ + ': '}{error}"
        return None

    room = tempfile.mkdtemp(prefix="bracha-processes-")
    with concurrent.futures.ThreadPoolExecutor(len(works)) as pool:
        wrong = [it for it in pool.map(wrong_of, range(len(works))) if it]
    shutil.rmtree(room)
    print("\n".join([*wrong, f"{len(works) - len(wrong)} passed, {len(wrong)} failed"]))
    sys.exit(1 if wrong else 0)


if __name__ == "__main__":
    main()
