#!/usr/bin/env python3
"""bench/bytes.py [PROGRAM]

How many bytes go over the network for each statement that a member hears, headers of TCP and IP included: four members on
the loopback of a network namespace of their own (as root: unshare), which decide 40 questions that are proposed one after another,
and then 216 at once. PROGRAM is crates/bracha/out/bracha unless another is named.
"""
import os
import socket
import subprocess
import sys
import tempfile
import time

TOP = os.path.dirname(os.path.dirname(os.path.realpath(__file__)))
N, QUESTIONS, ONE_BY_ONE = 4, 256, 40


def settings(member):
    peers = [f"127.0.0.1:{7100 + peer}" for peer in range(N)]
    return (f"cluster = 7\nn = {N}\nt = 1\nquestions = {QUESTIONS}\nme = {member}\njournal = '{member}.journal'\n"
            f"peers = {peers}\ndesk = '127.0.0.1:{7110 + member}'\nseed = '{member:064x}'\n")


def carried():
    """The bytes that went over the loopback so far."""
    with open("/proc/net/dev", encoding="ascii") as lines:
        return int(next(it for it in lines if "lo:" in it).split(":")[1].split()[0])


def status(desks):
    """What each member says of itself: statements said, questions decided; and the bytes that asking took."""
    said, took = [], 0
    for desk in desks:
        desk.write(b"STATUS\n")
        reply = desk.readline()
        took += 7 + len(reply)
        said.append([int(it) for it in reply.split()[1:]])
    return said, took


def decide(desks, questions, pause):
    """Proposes on each, waits until all have decided all, and prints what a statement took."""
    before, (said, _) = carried(), status(desks)
    first, done, took = sum(it[0] for it in said), said[0][1], 0
    for question in questions:
        line = f"PROPOSE {question} {question % 2}\n".encode()
        for desk in desks:
            desk.write(line)
        took += sum(len(line) + len(desk.readline()) for desk in desks)
        time.sleep(pause)
    while min(it[1] for it in said) < done + len(questions):
        time.sleep(0.1)
        said, asked = status(desks)
        took += asked
    time.sleep(0.5)
    heard = N * (sum(it[0] for it in said) - first)
    print(f"{len(questions)} questions, {'at once' if not pause else 'one by one'}: {(carried() - before - took) / heard:.1f} bytes a statement", flush=True)


def main():
    if len(sys.argv) < 3:
        program = os.path.realpath(sys.argv[1] if len(sys.argv) > 1 else f"{TOP}/crates/bracha/out/bracha")
        script = 'ip link set lo up; exec python3 "$0" "$1" inside'
        sys.exit(subprocess.run(["unshare", "-n", "bash", "-c", script, os.path.realpath(__file__), program]).returncode)
    program = sys.argv[1]
    with tempfile.TemporaryDirectory() as folder:
        os.chdir(folder)
        members = []
        for member in range(N):
            with open(f"{member}.toml", "w", encoding="ascii") as file:
                file.write(settings(member))
            subprocess.run([program, "init", f"{member}.toml"], check=True)
            log = open(f"{member}.log", "wb")
            members.append(subprocess.Popen([program, "run", "--stay", "--log", f"{member}.toml"], stdout=log, stderr=log))
        try:
            while any(open(f"{member}.log").read().count("link-up") < 2 * (N - 1) for member in range(N)):
                time.sleep(0.05)
            desks = [socket.create_connection(("127.0.0.1", 7110 + member)).makefile("rwb", buffering=0) for member in range(N)]
            decide(desks, range(ONE_BY_ONE), 0.02)
            decide(desks, range(ONE_BY_ONE, QUESTIONS), 0)
        finally:
            for member in members:
                member.kill()


main()
