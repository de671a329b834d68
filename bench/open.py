#!/usr/bin/env python3
"""bench/open.py [--n N] [--open K,K,..] [--questions Q] [--folder FOLDER] [PROGRAM]

Starts a cluster of N members (4) on this machine and has it decide Q questions (128), K of them open at a time (1, 16 and
64): a question is proposed to each member, and the next one once all have decided it. PROGRAM is bracha; left out, it is
crates/bracha/out/bracha, which `rt run` makes. Prints for each K, of a new cluster:

    open K  R questions a second, median D ms, S syncs a question and member, P ms of a processor a question and member

The syncs are two for each batch in the members' journals. Ports from 7100 are used, two for each member.
"""
import os
import shutil
import socket
import statistics
import subprocess
import sys
import tempfile
import time

TOP = os.path.dirname(os.path.dirname(os.path.realpath(__file__)))
PORT = 7100


def settings(folder, n, me, questions):
    peers = ", ".join(f'"127.0.0.1:{PORT + it}"' for it in range(n))
    path = f"{folder}/member-{me}.toml"
    with open(path, "w", encoding="utf-8") as it:
        it.write(
            f'cluster = 7\nn = {n}\nt = {(n - 1) // 3}\nquestions = {questions}\nme = {me}\n'
            f'journal = "{folder}/member-{me}.journal"\npeers = [{peers}]\ndesk = "127.0.0.1:{PORT + n + me}"\n'
            f'seed = "{me + 1:064x}"\n'
        )
    return path


class Desk:
    """A client of a member: lines out, and a reply for each."""

    def __init__(self, port):
        self.socket = socket.create_connection(("127.0.0.1", port), timeout=60)
        self.socket.setsockopt(socket.IPPROTO_TCP, socket.TCP_NODELAY, 1)
        self.replies = self.socket.makefile("r", encoding="ascii")

    def say(self, lines):
        self.socket.sendall("".join(f"{it}\n" for it in lines).encode())

    def hear(self, count):
        return [self.replies.readline().rstrip("\n") for _ in range(count)]


def say_to_all(desks, lines):
    """Says the lines to every desk, and only then waits for what each of them replies."""
    for desk in desks:
        desk.say(lines)
    return [desk.hear(len(lines)) for desk in desks]


def linked(folder, n):
    """Waits until each member hears each other one."""
    for me in range(n):
        for _ in range(1200):
            with open(f"{folder}/log-{me}", encoding="utf-8") as it:
                text = it.read()
            if text.count("link-up from") >= n - 1:
                break
            time.sleep(0.05)
        else:
            sys.exit(f"member {me} has no links:\n{text}")


def decide(desks, questions, width):
    """Has all questions decided, so many at a time, and gives what each took."""
    began, open_now, coming, took = {}, [], list(range(questions)), []
    while coming or open_now:
        fresh = [coming.pop(0) for _ in range(min(width - len(open_now), len(coming)))]
        for question in fresh:
            began[question] = time.perf_counter()
        open_now += fresh
        say_to_all(desks, [f"PROPOSE {it} {it % 2}" for it in fresh])
        told = say_to_all(desks, [f"ASK {it}" for it in open_now])
        done = [q for at, q in enumerate(open_now) if all(it[at] == f"DECIDED {q % 2}" for it in told)]
        wrong = [q for at, q in enumerate(open_now) if any(it[at] == f"DECIDED {1 - q % 2}" for it in told)]
        if wrong:
            sys.exit(f"question {wrong[0]} was decided against all proposals")
        now = time.perf_counter()
        took += [now - began[it] for it in done]
        open_now = [it for it in open_now if it not in done]
        if not done:
            time.sleep(0.00003 * len(desks) ** 2)
    return took


def batches(program, folder, me):
    path = f"{folder}/member-{me}.journal"
    records = int(subprocess.run([program, "dump", "--count", path], capture_output=True, text=True, check=True).stdout.split()[-1])
    return (os.path.getsize(path) - 25 - 6 * records) // 3


def processor(members):
    """Seconds of a processor that these processes took so far."""
    ticks = 0
    for it in members:
        with open(f"/proc/{it.pid}/stat", encoding="utf-8") as stat:
            ticks += sum(int(word) for word in stat.read().rpartition(")")[2].split()[11:13])
    return ticks / os.sysconf("SC_CLK_TCK")


def run(program, n, width, questions, where):
    folder = tempfile.mkdtemp(prefix="bracha-open.", dir=where)
    members = []
    try:
        for me in range(n):
            path = settings(folder, n, me, questions)
            subprocess.run([program, "init", path], check=True)
            with open(f"{folder}/log-{me}", "w", encoding="utf-8") as log:
                words = [program, "run", "--stay", "--log", path]
                members.append(subprocess.Popen(words, stdin=subprocess.DEVNULL, stdout=subprocess.DEVNULL, stderr=log))
        linked(folder, n)
        desks = [Desk(PORT + n + me) for me in range(n)]
        used, start = processor(members), time.perf_counter()
        took = decide(desks, questions, width)
        passed, used = time.perf_counter() - start, processor(members) - used
    finally:
        for it in members:
            it.kill()
            it.wait()
    counted = [batches(program, folder, me) for me in range(n)]
    shutil.rmtree(folder)
    syncs = 2 * sum(counted) / n / questions
    print(
        f"open {width:3}  {questions / passed:7.1f} questions a second, median {statistics.median(took) * 1000:6.1f} ms, "
        f"{syncs:5.1f} syncs a question and member, {used * 1000 / n / questions:5.1f} ms of a processor a question and member",
        flush=True,
    )


def main(words):
    n, widths, questions, where, program = 4, [1, 16, 64], 128, None, f"{TOP}/crates/bracha/out/bracha"
    while words:
        word = words.pop(0)
        if word == "--n" and words:
            n = int(words.pop(0))
        elif word == "--open" and words:
            widths = [int(it) for it in words.pop(0).split(",")]
        elif word == "--questions" and words:
            questions = int(words.pop(0))
        elif word == "--folder" and words:
            where = words.pop(0)
        elif word.startswith("-"):
            sys.exit(__doc__)
        else:
            program = os.path.realpath(word)
    for width in widths:
        run(program, n, width, questions, where)


if __name__ == "__main__":
    main(sys.argv[1:])
