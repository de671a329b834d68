#!/usr/bin/env python3
"""tests/failing-anywhere.py [--most N] [--jobs J] [--program PROGRAM] [KIND [CALL..]]

Has one call of the system fail in each run: the first one of a function, the second one and so on up to the Nth (24), with each error that
it may have, over 36 functions. KIND is one of these, or all are played:

- `member`: a member that is its whole cluster is asked for two decisions.
- `peers`: one of four is, of whom another one is down, so that it is needed.
- `chain`: a member alone is asked for decisions of two epochs.
- `gateway`: a gateway before such a member is asked for a decision.

Each has to end by itself, with status 1 and a fault that it names, or to answer within twelve seconds. A member then runs once more, unharmed:
it starts, unless a sync failed, and has each decision that the first run told.

It wants a C compiler (tests/fail_at.c; it is no part of the product), and takes the ports from 27500 on and ten minutes, on a machine that
has nothing else to do. J runs go side by side (8). PROGRAM is crates/bracha/out/bracha unless another is named. The last line is
`N passed, M failed`: runs.
"""
import argparse
import concurrent.futures
import contextlib
import errno
import os
import queue
import socket
import subprocess
import sys
import tempfile
import time
import urllib.error
import urllib.request

TOP = os.path.dirname(os.path.dirname(os.path.realpath(__file__)))
PORTS = 27500
ERRORS = {
    "EACCES": "mkdir symlink unlink", "EADDRINUSE": "bind listen", "EAGAIN": "pthread_create", "ECONNABORTED": "accept4",
    "ECONNREFUSED": "connect", "ECONNRESET": "recv", "EINTR": "accept4 connect flock nanosleep poll pread pwrite read recv send write",
    "EINVAL": "fcntl getsockopt setsockopt",
    "EIO": "chmod fchmod fdatasync fsync getdents64 getentropy lseek open pread read readlink realpath rename statx",
    "EMFILE": "accept4 connect fcntl open socket", "ENOMEM": "poll setsockopt", "ENOSPC": "ftruncate pwrite write",
    "ENOTCONN": "getpeername shutdown", "EPIPE": "send", "EWOULDBLOCK": "flock",
}
QUESTIONS = {"member": {0: 1, 1: 0}, "peers": {0: 1, 1: 0}, "chain": {0: 1, 1: 0, 5: 1}, "gateway": {0: 1}}
WITHIN = 12


def soon(tries, seconds):
    end = time.monotonic() + seconds
    while time.monotonic() < end:
        if tries():
            return True
        time.sleep(0.05)
    return bool(tries())


def asked(port, line, seconds=3):
    """The reply of a desk; empty where there is none."""
    with contextlib.suppress(OSError), socket.create_connection(("127.0.0.1", port), timeout=seconds) as desk:
        desk.settimeout(seconds)
        desk.sendall(line.encode() + b"\n")
        return desk.recv(100).decode().strip()
    return ""


class Cluster:
    """A member, and its two peers where it has some, in a folder of their own."""

    def __init__(self, program, folder, port, kind):
        self.program, self.folder, self.desk, self.questions = program, folder, port + 4, QUESTIONS[kind]
        self.peers = [1, 2] if kind == "peers" else []
        n, t = (4, 1) if self.peers else (1, 0)
        size = f"cluster = 7\nn = {n}\nt = {t}\nquestions = 4\n"
        addresses = ", ".join(f'"127.0.0.1:{port + it}"' for it in range(n))
        desks = ", ".join(f'"127.0.0.1:{port + 4 + it}"' for it in range(n))
        self.write("client", f"{size}desks = [{desks}]\n")
        for me in (0, *self.peers):
            epochs = f'epochs = "{folder}/epochs"\n' if kind == "chain" else ""
            self.write(me, f'{size}me = {me}\njournal = "{folder}/{me}.journal"\nseed = "{me + 1:064}"\npeers = [{addresses}]\n'
                           f'desk = "127.0.0.1:{port + 4 + me}"\ndesk-socket = "{folder}/{me}.socket"\n{epochs}')
            subprocess.run([program, "init", f"{folder}/{me}.toml"], check=True)

    def write(self, name, text):
        with open(f"{self.folder}/{name}.toml", "w", encoding="utf-8") as file:
            file.write(text)

    def start(self, name, *words, **failure):
        """A process whose outputs go to the file of this name."""
        with open(f"{self.folder}/{name}", "wb") as output:
            return subprocess.Popen([self.program, *words], env=os.environ | failure, stdin=subprocess.PIPE, stdout=output, stderr=output)

    def run(self, name, me=0, **failure):
        return self.start(name, "run", "--stay", "--log", f"{self.folder}/{me}.toml", **failure)

    def says(self, name):
        with open(f"{self.folder}/{name}", encoding="utf-8", errors="replace") as file:
            return file.read()

    def told(self, process, seconds):
        """The decisions that it tells within this time, or before it ends."""
        told = {}

        def tells_all():
            for question, bit in self.questions.items():
                if question not in told:
                    for me in (0, *self.peers):
                        asked(self.desk + me, f"PROPOSE {question} {bit}")
                    words = asked(self.desk, f"ASK {question}").split()
                    if words[:1] == ["DECIDED"]:
                        told[question] = int(words[1])
            return process.poll() is not None or len(told) == len(self.questions) or asked(self.desk, "STATUS").startswith("STOPPED")

        return told, soon(tells_all, seconds)


def ended(process):
    process.kill()
    process.wait()


def faults_of(process, text, answers):
    """The faults of the end of a process, or of its answers while it runs."""
    if process.poll() is None:
        return [] if answers else ["it doesn't answer"]
    if process.returncode != 1 or "bracha: " not in text:
        return [f"it ends with {process.returncode}: {text[-200:]}"]
    return []


def of_member(cluster, failure):
    """The faults of a member of which a call fails."""
    peers = [cluster.run(f"peer-{it}", it) for it in cluster.peers]
    process = cluster.run("first", **failure)
    told, answers = cluster.told(process, WITHIN)
    wrong = faults_of(process, cluster.says("first"), answers)
    ended(process)
    again = cluster.run("again")
    kept, goes_on = cluster.told(again, WITHIN)
    if again.poll() is not None and "since the machine started" not in cluster.says("again"):
        wrong.append(f"it doesn't start again: {cluster.says('again')[-200:]}")
    if again.poll() is None and not (goes_on and kept == cluster.questions):
        wrong.append(f"started again it decides {kept}")
    wrong += [f"question {it}: {told[it]} and then {kept[it]}" for it in told if again.poll() is None and kept.get(it) != told[it]]
    for it in (again, *peers):
        ended(it)
    return wrong


def of_gateway(cluster, failure):
    """The faults of a gateway of which a call fails."""
    member = cluster.run("member")
    cluster.told(member, WITHIN)
    at = f"127.0.0.1:{cluster.desk + 4}"
    process = cluster.start("gateway", "gateway", "--listen", at, f"{cluster.folder}/client.toml", **failure)

    def answers():
        with contextlib.suppress(OSError, urllib.error.URLError), urllib.request.urlopen(f"http://{at}/v1/questions/0", timeout=2) as reply:
            return b'"bit":1' in reply.read()
        return process.poll() is not None

    is_answered = soon(answers, WITHIN)
    wrong = faults_of(process, cluster.says("gateway"), is_answered)
    ended(process)
    ended(member)
    return wrong


def play(words, ports, run):
    kind, call, error, at = run
    port = ports.get()
    failure = {"LD_PRELOAD": f"{words.room}/fail_at.so", "FAIL_CALL": call, "FAIL_AT": str(at), "FAIL_WITH": str(getattr(errno, error))}
    try:
        with tempfile.TemporaryDirectory(dir=words.room) as folder:
            return (of_gateway if kind == "gateway" else of_member)(Cluster(words.program, folder, port, kind), failure)
    finally:
        ports.put(port)


def main():
    parser = argparse.ArgumentParser(usage=__doc__)
    parser.add_argument("--most", type=int, default=24)
    parser.add_argument("--jobs", type=int, default=8)
    parser.add_argument("--program", type=os.path.realpath, default=f"{TOP}/crates/bracha/out/bracha")
    parser.add_argument("kind", nargs="?", choices=QUESTIONS)
    parser.add_argument("calls", nargs="*")
    words = parser.parse_args()
    runs = [(kind, call, error, at) for kind in QUESTIONS if words.kind in (None, kind) for error, calls in ERRORS.items()
            for call in calls.split() if not words.calls or call in words.calls for at in range(1, words.most + 1)]
    ports = queue.Queue()
    for job in range(words.jobs):
        ports.put(PORTS + 9 * job)
    failed = 0
    with tempfile.TemporaryDirectory() as words.room, concurrent.futures.ThreadPoolExecutor(words.jobs) as pool:
        library = ["-O2", "-shared", "-fPIC", "-o", f"{words.room}/fail_at.so", f"{TOP}/tests/fail_at.c", "-ldl"]
        subprocess.run([os.environ.get("CC", "cc"), *library], check=True)
        for run, wrong in zip(runs, pool.map(lambda run: play(words, ports, run), runs)):
            failed += bool(wrong)
            for it in wrong:
                print(*run, it, sep=": ", flush=True)
    print(f"{len(runs) - failed} passed, {failed} failed")
    sys.exit(failed != 0)


if __name__ == "__main__":
    main()
