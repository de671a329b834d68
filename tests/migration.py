#!/usr/bin/env python3
"""tests/migration.py [PROGRAM]

Journals of version 1 under members that run, and at the largest sizes:

- a cluster of four decides; its members are ended, and their journals put back into version 1 by a reader and a writer of
  this script's own; then one member after the other is brought over and started, while the others run, and they all know
  the old decisions and decide on. Each new file has the records of the old one, in batches of 1,000;
- `migrate` is killed at each of its system calls (tests/kill_at.c): each time the new file is missing, or refused by
  `dump`, or holds just the old records, the old file is as it was, and a second try into a new file succeeds;
- a journal of a million records is brought over: how long it takes, and in what memory.

It wants a C compiler and leave to trace. PROGRAM is crates/bracha/out/bracha unless another is named. The ports are 27900 to
27919. The last line is `N passed, M failed`.
"""
import os
import resource
import struct
import subprocess
import sys
import tempfile
import time

TOP = os.path.dirname(os.path.dirname(os.path.realpath(__file__)))
PROGRAM = os.path.abspath(sys.argv[1] if len(sys.argv) > 1 else f"{TOP}/crates/bracha/out/bracha")
N, QUESTIONS, DOORS, DESKS = 4, 16, 27900, 27910
KINDS = {1: "initial", 2: "echo", 3: "ready", 4: "decided"}
results = {True: 0, False: 0}


def check(name, is_so):
    results[bool(is_so)] += 1
    print(f"{'ok' if is_so else 'FAILED'}: {name}", flush=True)


def run(*words):
    return subprocess.run([PROGRAM, *words], capture_output=True, text=True, check=False)


def batches(data, width):
    """The batches of a journal's text behind its header, each a list of records."""
    found, at = [], 24
    while data[at]:
        (count,) = struct.unpack(">H", data[at + 1 : at + 3])
        found.append([data[at + 3 + width * k : at + 3 + width * (k + 1)] for k in range(count)])
        at += 3 + width * count
    return found


def widened(record):
    """A record of version 2, in version 1."""
    return record[:5] + (bytes([0, record[5]]) if record[0] == 4 else bytes([record[5] >> 4, record[5] & 15]))


def text(mark, header, groups):
    body = b"".join(b"\x01" + struct.pack(">H", len(group)) + b"".join(group) for group in groups)
    return mark + header[8:24] + body + b"\0"


def in_version_1(data):
    return text(b"BRACHAJ1", data, [[widened(record) for record in group] for group in batches(data, 6)])


def in_thousands(data):
    """What `migrate` is to make of a journal, given as a text of version 2."""
    records = [record for group in batches(data, 6) for record in group]
    return text(b"BRACHAJ2", data, [records[at : at + 1000] for at in range(0, len(records), 1000)])


def bytes_of(path):
    with open(path, "rb") as file:
        return file.read()


def put(path, data):
    with open(path, "wb") as file:
        file.write(data)


def write_settings(folder, me, journal):
    peers = ", ".join(f"'127.0.0.1:{DOORS + it}'" for it in range(N))
    with open(f"{folder}/{me}.toml", "w", encoding="ascii") as file:
        file.write(f"cluster = 7\nn = {N}\nt = 1\nquestions = {QUESTIONS}\nme = {me}\njournal = '{folder}/{journal}'\n"
                   f"peers = [{peers}]\ndesk = '127.0.0.1:{DESKS + me}'\nseed = '{me:02x}{'a5' * 31}'\n")


def start(folder, me):
    member = subprocess.Popen([PROGRAM, "run", f"{folder}/{me}.toml"], stdin=subprocess.PIPE, stdout=subprocess.PIPE)
    assert member.stdout.readline() == b"member %d ready\n" % me
    return member


def end(member):
    member.stdin.close()
    member.wait()


def decide(question, bit):
    for me in range(N):
        run("propose", f"127.0.0.1:{DESKS + me}", str(question), str(bit))
    return knows(question, bit)


def knows(question, bit):
    deadline = time.monotonic() + 30
    want = [f"DECIDED {bit}\n"] * N
    while time.monotonic() < deadline:
        if [run("ask", f"127.0.0.1:{DESKS + me}", str(question)).stdout for me in range(N)] == want:
            return True
        time.sleep(0.1)
    return False


def a_cluster_goes_over(folder):
    for me in range(N):
        write_settings(folder, me, f"{me}.new")
        run("init", f"{folder}/{me}.toml")
    members = [start(folder, me) for me in range(N)]
    check("four members decide", all(decide(question, question % 2) for question in range(4)))
    for member in members:
        end(member)
    kept = [bytes_of(f"{folder}/{me}.new") for me in range(N)]
    for me in range(N):
        put(f"{folder}/{me}.old", in_version_1(kept[me]))
        os.remove(f"{folder}/{me}.new")
    records = [sum(len(group) for group in batches(data, 6)) for data in kept]
    members = []
    for me in range(N):
        said = run("migrate", f"{folder}/{me}.old", f"{folder}/{me}.new")
        check(f"member {me}: migrated {records[me]}", said.stdout == f"migrated {records[me]}\n" and not said.returncode)
        check(f"member {me}: the same records", bytes_of(f"{folder}/{me}.new") == in_thousands(kept[me]))
        members.append(start(folder, me))
    check("the old decisions stand", all(knows(question, question % 2) for question in range(4)))
    check("and they decide on", all(decide(question, 1 - question % 2) for question in range(4, 8)))
    for member in members:
        end(member)
    for me in range(N):
        grown = [record for group in batches(bytes_of(f"{folder}/{me}.new"), 6) for record in group]
        old = [record for group in batches(kept[me], 6) for record in group]
        check(f"member {me}: the journal goes on", grown[: len(old)] == old and len(grown) > len(old))


def a_kill_at_each_call(folder):
    tracer = f"{folder}/kill_at"
    subprocess.run(["cc", "-O1", "-o", tracer, f"{TOP}/tests/kill_at.c"], check=True)
    old, new = f"{folder}/kill.old", f"{folder}/kill.new"
    records = [bytes([2, 0, 0, k % 4, 1 + k // 12, 16 * (1 + k // 4 % 3) + (2 if k // 4 % 3 == 2 else 0)]) for k in range(380)]
    header = struct.pack(">8sQBBHBBBB", b"BRACHAJ2", 7, 4, 1, 1, 1, 0, 0, 0)
    whole = text(b"BRACHAJ2", header, [records])
    before = in_version_1(whole)
    call, lasts = 0, True
    while lasts and call < 500:
        call += 1
        put(old, before)
        if os.path.exists(new):
            os.remove(new)
        ended = subprocess.run([tracer, str(call), PROGRAM, "migrate", old, new], capture_output=True, check=False)
        lasts = ended.returncode != 0
        left = bytes_of(new) if os.path.exists(new) else b""
        dumped = run("dump", "--count", new) if left else None
        is_whole = left[:1] == b"B" and left == whole and dumped.stdout == f"{len(records)}\n"
        is_none = not left or (dumped.returncode == 1 and dumped.stderr.startswith("bracha: journal BadHeader"))
        again = run("migrate", old, f"{folder}/again-{call}")
        good = bytes_of(old) == before and (is_whole or is_none) and again.stdout == f"migrated {len(records)}\n"
        os.remove(f"{folder}/again-{call}")
        if not good or not lasts:
            check(f"killed at call {call}" if lasts else f"killed at each of {call - 1} system calls", good and (lasts or is_whole))
            if not good:
                break


def a_million_records(folder):
    size = struct.pack(">8sQBBHBBBB", b"BRACHAJ1", 7, 32, 10, 256, 1, 0, 0, 0)
    records = [
        bytes([kind, 0, question, origin, number, step, 2 if step == 3 else 0])
        for question in range(256)
        for kind in (2, 3)
        for number in range(1, 22)
        for step in (1, 2, 3)
        for origin in range(32)
    ][:1000000]
    put(f"{folder}/million.old", text(b"BRACHAJ1", size, [records[at : at + 50] for at in range(0, len(records), 50)]))
    started = time.monotonic()
    said = run("migrate", f"{folder}/million.old", f"{folder}/million.new")
    spent = time.monotonic() - started
    peak = resource.getrusage(resource.RUSAGE_CHILDREN).ru_maxrss / 1024
    check(f"a million records in {spent:.2f} s and at most {peak:.0f} MB", said.stdout == f"migrated {len(records)}\n")


def main():
    with tempfile.TemporaryDirectory() as folder:
        a_cluster_goes_over(folder)
        a_kill_at_each_call(folder)
        a_million_records(folder)
    print(f"{results[True]} passed, {results[False]} failed")
    sys.exit(results[False] > 0)


main()
