#!/usr/bin/env python3
"""tests/library/interop.py PROGRAM MEMBER WIRE: three processes of `bracha run` and one member that was built from the library alone
decide together.

PROGRAM is `bracha`, MEMBER the built example bindings/rust/examples/member.rs, WIRE the version of the wire that it speaks at most, 1 or
2. It looks that all decide alike, by which version they spoke, and that the member's journal is one of `bracha`, in which it never said
two things at a place. With WIRE 2 the member is then ended and started again; a process is killed and started again, and then the
member; and at last `bracha run` goes on with the member's journal. It takes eight ports of 127.0.0.1 that nobody has. The last line is `N passed, M failed`; the status is 1 where M isn't 0."""

import collections
import os
import random
import re
import signal
import socket
import subprocess
import sys
import tempfile
import time

PROGRAM, MEMBER, WIRE = os.path.realpath(sys.argv[1]), os.path.realpath(sys.argv[2]), sys.argv[3]
BITS = {0: [1, 1, 1, 1], 1: [0, 0, 0, 0], 2: [0, 1, 0, 1], 3: [1, 0, 1, 0], 4: [1, 1, 1, 0], 5: [0, 1, 0, 0]}
started: list[subprocess.Popen[str]] = []
passed = failed = 0


def same(what: str, found: object, wanted: object) -> None:
    global passed, failed
    if found == wanted:
        passed += 1
    else:
        failed += 1
        print(f"wire {WIRE}: {what}: {found!r}, and not {wanted!r}")


def free_ports() -> int:
    """A number from which four ports of links and, ten further, four of desks are free. They are below those that outgoing connections
    take."""
    for _ in range(200):
        first = random.randrange(10000, 31000)
        try:
            for port in [*range(first, first + 4), *range(first + 10, first + 14)]:
                with socket.socket() as one:
                    one.setsockopt(socket.SOL_SOCKET, socket.SO_REUSEADDR, 1)
                    one.bind(("127.0.0.1", port))
            return first
        except OSError:
            continue
    raise SystemExit("no free ports")


def say(*words: str) -> tuple[str, int]:
    """What the program says on both streams, and its status."""
    ran = subprocess.run([PROGRAM, *words], stdin=subprocess.DEVNULL, stdout=subprocess.PIPE, stderr=subprocess.STDOUT, text=True, timeout=60)
    return ran.stdout, ran.returncode


def wait_for(path: str, pattern: str) -> bool:
    """Whether a line of the file comes to match, within 30 seconds."""
    for _ in range(600):
        with open(path, encoding="utf-8") as file:
            if re.search(pattern, file.read(), re.M):
                return True
        time.sleep(0.05)
    return False


def start(name: str, command: list[str], **more: object) -> subprocess.Popen[str]:
    """Starts a process whose output is in the file NAME.out, and waits until it is ready. It runs until a signal."""
    with open(f"{name}.out", "w", encoding="utf-8") as out, open(f"{name}.log", "a", encoding="utf-8") as log:
        block = lambda: signal.pthread_sigmask(signal.SIG_BLOCK, {signal.SIGTERM, signal.SIGINT})  # noqa: E731
        process = subprocess.Popen(command, stdin=subprocess.PIPE, stdout=out, stderr=log, text=True, preexec_fn=block, **more)
    started.append(process)
    if not wait_for(f"{name}.out", "ready$"):
        with open(f"{name}.log", encoding="utf-8") as log:
            print(f"{name} isn't ready: {log.read()}")
    return process


def run(m: int) -> subprocess.Popen[str]:
    return start(f"process-{m}", [PROGRAM, "run", "--stay", "--log", f"member-{m}.toml"])


def member(*options: str) -> subprocess.Popen[str]:
    return start("member", [MEMBER, *options, "--wire", WIRE, "member-3.toml"])


def propose(first: int, ours: subprocess.Popen[str], questions: list[int]) -> None:
    """Proposes on the questions at all four."""
    assert ours.stdin is not None
    for q in questions:
        ours.stdin.write(f"{q} {BITS[q][3]}\n")
        ours.stdin.flush()
        for m in range(3):
            same(f"propose {q} at process {m}", say("propose", f"127.0.0.1:{first + 10 + m}", str(q), str(BITS[q][m])), ("OK\n", 0))


def decided(first: int, questions: list[int]) -> dict[int, str]:
    """What the first process decided. All others must say the same."""
    found = {}
    for q in questions:
        said = [say("ask", "--wait", "--timeout", "40", f"127.0.0.1:{first + 10 + m}", str(q))[0] for m in range(3)]
        found[q] = said[0].removeprefix("DECIDED ").strip()
        same(f"question {q} at the processes", said, [f"DECIDED {found[q]}\n"] * 3)
        same(f"question {q} at the member", wait_for("member.out", f"^question {q}: decided {found[q]} in round"), True)
        if len(set(BITS[q])) == 1:
            same(f"question {q}: the bit that all proposed", found[q], str(BITS[q][0]))
    return found


def end(process: subprocess.Popen[str], what: str) -> None:
    """Ends a process by the end of its input, or a signal, and looks at its status."""
    assert process.stdin is not None
    process.stdin.close()
    process.send_signal(signal.SIGTERM)
    try:
        same(f"{what} ends", process.wait(timeout=30), 0)
    except subprocess.TimeoutExpired:
        same(f"{what} ends", "not in 30 seconds", 0)


def dumped(found: dict[int, str]) -> None:
    """The member's journal, as `bracha dump` reads it, has these decisions."""
    text, status = say("dump", "member-3.journal")
    same("dump ends", status, 0)
    told = re.findall(r"^decided (\d+) \d+ ([01])$", text, re.M)
    same("the journal's decisions", sorted(told), sorted((str(q), bit) for q, bit in found.items()))
    places = re.findall(r"^((?:initial|echo|ready) \d+ \d+ \d+ \d+) ", text, re.M)
    same("places at which it said two things", [place for place, count in collections.Counter(places).items() if count > 1], [])


def play(first: int) -> None:
    same("new-cluster", say("new-cluster", "--n", "4", "--t", "1", "--questions", "8", "--cluster", "7", "--port", str(first), ".")[1], 0)
    for m in range(3):
        same(f"init {m}", say("init", f"member-{m}.toml"), ("", 0))
    processes = [run(m) for m in range(3)]
    ours = member("--create")
    propose(first, ours, [0, 1, 2])
    found = decided(first, [0, 1, 2])
    version = " version 1" if WIRE == "1" else ""
    for way in ("from", "to"):
        same(f"a link {way} the member", wait_for("process-0.log", f" link-up {way} 3{version}$"), True)
    end(ours, "the member")
    dumped(found)
    if WIRE == "2":
        ours = member()
        propose(first, ours, [3])
        found |= decided(first, [3])
        processes[0].kill()
        processes[0].wait()
        processes[0] = run(0)
        propose(first, ours, [4])
        found |= decided(first, [4])
        propose(first, ours, [5])
        ours.kill()
        ours.wait()
        ours = member()
        found |= decided(first, [5])
        end(ours, "the member")
        dumped(found)
        processes.append(run(3))
        for q, bit in found.items():
            same(f"question {q} at a process on the member's journal", say("ask", f"127.0.0.1:{first + 13}", str(q)), (f"DECIDED {bit}\n", 0))
    for m, process in enumerate(processes):
        end(process, f"process {m}")


with tempfile.TemporaryDirectory() as room:
    os.chdir(room)
    try:
        play(free_ports())
    finally:
        for process in started:
            if process.poll() is None:
                process.kill()
                process.wait()
print(f"{passed} passed, {failed} failed")
sys.exit(failed > 0)
