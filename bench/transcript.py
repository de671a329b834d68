#!/usr/bin/env python3
"""bench/transcript.py [PROGRAM [PORT]]

What a transcript of 100,000 entries costs. One member of 32 runs, ten of whom may lie, and this script is the other 31: it
sends what decides question 0 in round 1, and then statements on the same question, each of them news, 100,000 in all. The
member hears its own besides. Prints

    entries      how many the transcript has
    memory       bytes of the member's resident memory an entry, from before the first to behind the last
    transcript   seconds of the clock of `bracha transcript`, and its bytes
    slow         the longest of 100 `STATUS`, in milliseconds, while a client doesn't read the transcript that it asked for
    audit        seconds of the clock of `bracha audit` of that file, and the most memory that it took

PROGRAM is crates/bracha/out/bracha unless another is named; the ports are PORT (27400) and the 40 behind it.
"""
import os
import resource
import socket
import subprocess
import sys
import tempfile
import time

N, T, ENTRIES = 32, 10, 100_000
ECHO, READY = 2, 3
ONE, SURE_ONE = 1, 3
HERE = os.path.dirname(os.path.dirname(os.path.realpath(__file__)))


def statements(rounds):
    """The frames of an Echo and a Ready for each origin in each step of these rounds: everybody holds the bit 1."""
    return [bytes([0, 8, 3, kind, 0, 0, origin, of, step, SURE_ONE if step == 3 else ONE])
            for of in rounds for step in (1, 2, 3) for kind in (ECHO, READY) for origin in range(N)]


def link(port, sender):
    """A connection from that member, greeted and answered."""
    stream = socket.create_connection(("127.0.0.1", port))
    stream.sendall(bytes([0, 16, 1, 1, *(7).to_bytes(8, "big"), N, T, 0, 1, sender, 0]))
    assert stream.recv(11, socket.MSG_WAITALL)[:3] == bytes([0, 9, 2])
    return stream


def ask(port, line):
    """The first line of a member's reply."""
    with socket.create_connection(("127.0.0.1", port)) as stream:
        stream.sendall(line)
        return stream.makefile("rb").readline().decode("ascii")


def resident(process):
    with open(f"/proc/{process.pid}/statm", encoding="ascii") as sizes:
        return int(sizes.read().split()[1]) * resource.getpagesize()


def send_all(port):
    """Sends the entries over 31 links, which stay open."""
    streams, left = [link(port, sender) for sender in range(1, N)], ENTRIES
    first, later = statements(range(1, 2)), statements(range(2, 33))
    for stream in streams:
        stream.sendall(b"".join(first))
        left -= len(first)
    for stream in streams:
        share = later[:left]
        stream.sendall(b"".join(share))
        left -= len(share)
    return streams


def count(desk):
    words = ask(desk, b"TRANSCRIPT 0\n").split()
    return int(words[5]) if words[0] == "transcript" else 0


def slowest(desk):
    """The longest time of 100 replies beside a client that doesn't read its own."""
    with socket.create_connection(("127.0.0.1", desk)) as idle:
        idle.sendall(b"TRANSCRIPT 0\n")
        times = []
        for _ in range(100):
            begun = time.monotonic()
            assert ask(desk, b"STATUS\n")
            times.append(time.monotonic() - begun)
        return max(times)


def timed(words, output):
    begun = time.monotonic()
    subprocess.run(words, check=True, stdout=output)
    return time.monotonic() - begun


def measure(program, member, desk, port, folder):
    before = resident(member)
    streams = send_all(port)
    while (heard := count(desk)) < ENTRIES:
        time.sleep(0.1)
    print(f"entries      {heard}")
    print(f"memory       {(resident(member) - before) / heard:.1f}")
    with open(f"{folder}/shown", "wb") as file:
        took = timed([program, "transcript", f"127.0.0.1:{desk}", "0"], file)
    print(f"transcript   {took:.3f} {os.path.getsize(f'{folder}/shown')}")
    print(f"slow         {1000 * slowest(desk):.1f}")
    took = timed([program, "audit", f"{folder}/shown", "--n", str(N), "--t", str(T), "--questions", "1"], subprocess.DEVNULL)
    print(f"audit        {took:.3f} {resource.getrusage(resource.RUSAGE_CHILDREN).ru_maxrss * 1024}")
    for stream in streams:
        stream.close()


def main(program, port):
    with tempfile.TemporaryDirectory(prefix="bracha-transcript.") as folder:
        settings, desk = f"{folder}/member.toml", port + N
        peers = ", ".join(f'"127.0.0.1:{port + it}"' for it in range(N))
        with open(settings, "w", encoding="ascii") as file:
            file.write(f'cluster = 7\nn = {N}\nt = {T}\nquestions = 1\nme = 0\njournal = "{folder}/journal"\n'
                       f'peers = [{peers}]\ndesk = "127.0.0.1:{desk}"\nseed = "{"5a" * 32}"\n')
        subprocess.run([program, "init", settings], check=True)
        member = subprocess.Popen([program, "run", "--stay", settings], stdout=subprocess.PIPE)
        try:
            assert member.stdout.readline() == b"member 0 ready\n"
            ask(desk, b"PROPOSE 0 1\n")
            measure(program, member, desk, port, folder)
        finally:
            member.kill()
            member.wait()


if __name__ == "__main__":
    main(sys.argv[1] if len(sys.argv) > 1 else f"{HERE}/crates/bracha/out/bracha", int(sys.argv[2]) if len(sys.argv) > 2 else 27400)
