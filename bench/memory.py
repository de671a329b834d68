#!/usr/bin/env python3
"""What a member keeps in memory: one of 64, of whom 21 may lie, with 4,096 questions, before anything is said, and once one
peer that lies has said what it can; and one of 32, whose peers all say what is usual on 256 questions that are decided in
round 1. Each row is a member of its own, which runs alone; its peers are this script.

    bench/memory.py [PROGRAM]   by default crates/bracha/out/bracha, which `rt run` makes in crates/bracha

Memory is what the system says of the process (VmRSS). A statement that counts is one that is the first of its kind and place.
"""
import os
import re
import socket
import struct
import subprocess
import sys
import tempfile
import time

HERE = os.path.dirname(os.path.abspath(__file__))
ROOT = os.path.dirname(HERE)
LARGE, USUAL = (64, 21, 4096), (32, 10, 256)
MEMBERS, _, QUESTIONS = LARGE
LINKS, DESK = 7200, 7199
LIAR = 1
INITIAL, ECHO, READY, ZERO, SURE_ZERO = 1, 2, 3, 0, 2


def settings(folder, size):
    peers = ", ".join(f"'127.0.0.1:{LINKS + peer}'" for peer in range(size[0]))
    path = f"{folder}/member.toml"
    with open(path, "w", encoding="utf-8") as text:
        text.write(
            f"cluster = 7\nn = {size[0]}\nt = {size[1]}\nquestions = {size[2]}\nme = 0\njournal = '{folder}/journal'\n"
            f"peers = [{peers}]\ndesk = '127.0.0.1:{DESK}'\nseed = '{'00' * 31}01'\n"
        )
    return path


def resident(process):
    with open(f"/proc/{process.pid}/status", encoding="utf-8") as status:
        return int(re.search(r"VmRSS:\s+(\d+) kB", status.read()).group(1)) * 1024


def statement(question, origin, round_number, step, kind=ECHO):
    value = SURE_ZERO if step == 3 else ZERO
    return struct.pack(">BHBBBB", kind, question, origin, round_number, step, value)


def frames(statements):
    """The statements in frames of version 2, 99 to a frame; one alone in a frame of its own."""
    out = bytearray()
    for at in range(0, len(statements), 99):
        some = statements[at : at + 99]
        if len(some) == 1:
            out += struct.pack(">HB", 8, 3) + some[0]
        else:
            out += struct.pack(">HBB", 2 + 7 * len(some), 4, len(some)) + b"".join(some)
    return bytes(out)


def exactly(link, count):
    """So many bytes, or fewer where the link is closed before."""
    got = b""
    while len(got) < count and (more := link.recv(count - len(got))):
        got += more
    return got


def say(size, peer, statements):
    """Says them as the peer, and waits until they were heard: a second greeting's Welcome counts them."""
    hello = struct.pack(">HBBQBBHBB", 16, 1, 2, 7, *size, peer, 0)
    heard = 0
    while heard < len(statements):
        link = socket.create_connection(("127.0.0.1", LINKS), 5)
        link.sendall(hello)
        welcome = exactly(link, 11)
        if len(welcome) < 11:
            # The session before is being read still.
            link.close()
            time.sleep(0.2)
            continue
        heard = struct.unpack(">Q", welcome[3:])[0]
        link.sendall(frames(statements[heard:]))
        link.shutdown(socket.SHUT_WR)
        while link.recv(4096):
            pass
        link.close()
    return heard


def row(program, name, size, said_by):
    """`said_by` has for each peer that speaks what it says."""
    with tempfile.TemporaryDirectory() as folder:
        path = settings(folder, size)
        subprocess.run([program, "init", path], check=True)
        with subprocess.Popen([program, "run", path], stdin=subprocess.PIPE, stdout=subprocess.PIPE) as member:
            member.stdout.readline()
            time.sleep(1)
            before = resident(member)
            said = sum(say(size, peer, statements) for peer, statements in said_by.items())
            time.sleep(1)
            after = resident(member)
            member.stdin.close()
            member.wait()
    more = f"{(after - before) / said:8.0f} bytes a statement" if said else ""
    print(f"{name:<58}{said:>9} statements{after / 1e6:9.1f} MB{more}", flush=True)


def usual(peer):
    """What a member of 32 says on 256 questions that are decided in round 1, a step of all questions after the other."""
    said = []
    for step in (1, 2, 3):
        said += [statement(question, peer, 1, step, INITIAL) for question in range(256)]
        said += [statement(question, origin, 1, step, kind) for kind in (ECHO, READY) for question in range(256) for origin in range(32)]
    return said

def main():
    program = os.path.abspath(sys.argv[1] if len(sys.argv) > 1 else f"{ROOT}/crates/bracha/out/bracha")
    last = [statement(question, MEMBERS - 1, 32, 3) for question in range(QUESTIONS)]
    first = [statement(question, 0, 1, 1) for question in range(QUESTIONS)]
    rows = [(number, step) for number in range(1, 33) for step in (1, 2, 3)]
    apart = [statement(question, 7, number, step) for question in range(QUESTIONS) for number, step in rows]
    everywhere = [
        statement(question, origin, number, step)
        for question in range(64)
        for number, step in rows
        for origin in range(MEMBERS)
    ]
    row(program, "64 members, idle", LARGE, {})
    row(program, "64 members, a liar at the first place of each question", LARGE, {LIAR: first})
    row(program, "64 members, a liar at the last place of each question", LARGE, {LIAR: last})
    row(program, "64 members, a liar at one place of each round and step", LARGE, {LIAR: apart})
    row(program, "64 members, a liar at all places of 64 questions", LARGE, {LIAR: everywhere})
    row(program, "32 members, idle", USUAL, {})
    row(program, "32 members, 256 questions in a round", USUAL, {peer: usual(peer) for peer in range(1, 32)})



main()
