#!/usr/bin/env python3
"""bench/syncs.py [--chains C] [--seconds S] [--folder FOLDER] [PROGRAM]

What four members that decide one question at a time are held against, in the same minutes and on the same disk:

- C bare chains (100) of 20 syncs in each of four writers at once: each writes ten bytes to a file of its own and syncs
  it, twenty times in a row;
- the cluster of `bench/open.py`, with one question and with 64 open at a time;
- three etcd with 1 and with 64 clients, S seconds each (5), where `etcd` is installed: a put is a write of a key, which
  etcd answers once two of three have synced it. It bears crashes alone, where bracha bears lies.

PROGRAM is bracha; left out, it is crates/bracha/out/bracha. Prints a line each, and the machine's load at both ends.
"""
import base64
import http.client
import importlib.util
import json
import multiprocessing
import os
import shutil
import statistics
import subprocess
import sys
import tempfile
import threading
import time

HERE = os.path.dirname(os.path.realpath(__file__))
STEPS, WRITERS = 20, 4
ETCD, PEER = 7180, 7190
PROCESSES = 4


def write(path, chains, told):
    """One writer, and how long each of its chains took."""
    took = []
    with open(path, "wb", buffering=0) as file:
        for _ in range(chains):
            start = time.perf_counter()
            for step in range(STEPS):
                os.pwrite(file.fileno(), bytes(10), 10 * step)
                os.fsync(file.fileno())
            took.append(time.perf_counter() - start)
    told.put(took)


def chain(chains, where):
    folder = tempfile.mkdtemp(prefix="bracha-syncs.", dir=where)
    told = multiprocessing.Queue()
    writers = [multiprocessing.Process(target=write, args=(f"{folder}/{it}", chains, told)) for it in range(WRITERS)]
    for it in writers:
        it.start()
    half = statistics.median(one for _ in writers for one in told.get())
    for it in writers:
        it.join()
    shutil.rmtree(folder)
    print(f"a bare chain of {STEPS} syncs, {WRITERS} writers: median {half * 1000:.1f} ms, {1 / half:.0f} a second", flush=True)


def asked(port, path, body):
    """What an etcd answers, or None where it can't."""
    try:
        line = http.client.HTTPConnection("127.0.0.1", port, timeout=5)
        line.request("POST", path, json.dumps(body))
        return json.loads(line.getresponse().read())
    except (OSError, ValueError, http.client.HTTPException):
        return None


def leader():
    """The port of the etcd that leads, once one does."""
    for _ in range(200):
        for at in range(3):
            told = asked(ETCD + at, "/v3/maintenance/status", {})
            if told and told.get("leader", "0") == told["header"]["member_id"]:
                return ETCD + at
        time.sleep(0.05)
    sys.exit("no etcd leads")


def put(port, name, until, took):
    """A client that puts one key after the other, and notes how long each took."""
    line = http.client.HTTPConnection("127.0.0.1", port, timeout=10)
    line.connect()
    count = 0
    while time.perf_counter() < until:
        key = base64.b64encode(f"{name}/{count}".encode()).decode()
        start = time.perf_counter()
        line.request("POST", "/v3/kv/put", json.dumps({"key": key, "value": "MQ=="}))
        answer = line.getresponse()
        answer.read()
        if answer.status != 200:
            sys.exit(f"etcd answered {answer.status}")
        took.append(time.perf_counter() - start)
        count += 1


def clients(port, name, count, seconds, told):
    """So many clients in one process, each in a thread."""
    until, took = time.perf_counter() + seconds, []
    threads = [threading.Thread(target=put, args=(port, f"{name}.{it}", until, took)) for it in range(count)]
    for it in threads:
        it.start()
    for it in threads:
        it.join()
    told.put(took)


def puts(port, count, seconds):
    told, each = multiprocessing.Queue(), [count // PROCESSES] * PROCESSES if count >= PROCESSES else [count]
    start = time.perf_counter()
    asking = [
        multiprocessing.Process(target=clients, args=(port, f"{count}.{at}", many, seconds, told)) for at, many in enumerate(each)
    ]
    for it in asking:
        it.start()
    took = [one for _ in asking for one in told.get()]
    for it in asking:
        it.join()
    passed = time.perf_counter() - start
    half = statistics.median(took) * 1000
    print(f"etcd, 3 members, {count} clients: {len(took) / passed:.1f} puts a second, median {half:.1f} ms", flush=True)


def etcd(seconds, where):
    folder = tempfile.mkdtemp(prefix="bracha-etcd.", dir=where)
    cluster = ",".join(f"e{at}=http://127.0.0.1:{PEER + at}" for at in range(3))
    members = []
    try:
        for at in range(3):
            own, peer = f"http://127.0.0.1:{ETCD + at}", f"http://127.0.0.1:{PEER + at}"
            words = ["etcd", "--name", f"e{at}", "--data-dir", f"{folder}/{at}", "--listen-client-urls", own]
            words += ["--advertise-client-urls", own, "--listen-peer-urls", peer, "--initial-advertise-peer-urls", peer]
            words += ["--initial-cluster", cluster]
            members.append(subprocess.Popen(words, stdin=subprocess.DEVNULL, stdout=subprocess.DEVNULL, stderr=subprocess.DEVNULL))
        port = leader()
        for count in (1, 64):
            puts(port, count, seconds)
    finally:
        for it in members:
            it.kill()
            it.wait()
        shutil.rmtree(folder)


def load(what):
    print(f"load {what}: {os.getloadavg()[0]:.1f}", flush=True)


def main(words):
    chains, seconds, where, program = 100, 5, None, f"{os.path.dirname(HERE)}/crates/bracha/out/bracha"
    while words:
        word = words.pop(0)
        if word == "--chains" and words:
            chains = int(words.pop(0))
        elif word == "--seconds" and words:
            seconds = float(words.pop(0))
        elif word == "--folder" and words:
            where = words.pop(0)
        elif word.startswith("-"):
            sys.exit(__doc__)
        else:
            program = os.path.realpath(word)
    spec = importlib.util.spec_from_file_location("open_questions", f"{HERE}/open.py")
    cluster = importlib.util.module_from_spec(spec)
    spec.loader.exec_module(cluster)
    load("before")
    chain(chains, where)
    cluster.run(program, 4, 1, 128, where)
    cluster.run(program, 4, 64, 1024, where)
    if shutil.which("etcd"):
        etcd(seconds, where)
    else:
        print("etcd isn't installed", flush=True)
    load("after")


if __name__ == "__main__":
    main(sys.argv[1:])
