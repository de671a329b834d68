#!/usr/bin/env python3
"""tests/gateway.py [PROGRAM]

Runs clusters of four with a gateway in front of them, one desk of which lies, and looks at each answer over HTTP: questions, proposals,
events, transcripts, members, metrics, health, the page in headless Chromium; at a chain of epochs; at made-up desks of a chain, of which
one claims slots far ahead, and of a cluster, of which one tells a decision of each question, and others hang up, fall silent or send a
line without an end; at what is refused, at members that are killed, and at clients that send garbage, stall or stay idle. PROGRAM is
crates/bracha/out/bracha unless another is named. It takes the ports 24300 to 24515, and a minute. What Chromium or promtool would look
at is left out, which is said, where they are missing. Prints what is wrong, and in its last line `N passed, M failed`; the status is 1
where M isn't 0.
"""
import concurrent.futures
import contextlib
import http.client
import json
import os
import re
import resource
import shutil
import signal
import socket
import statistics
import struct
import subprocess
import sys
import tempfile
import threading
import time

import browser

TOP = os.path.dirname(os.path.dirname(os.path.realpath(__file__)))
PROGRAM = os.path.realpath(sys.argv[1] if len(sys.argv) > 1 else f"{TOP}/crates/bracha/out/bracha")
PICTURES = os.environ.get("GATEWAY_PICTURES")
TOKEN = "a-token-of-32-characters-0123456"
CHECKS = []


def check(function):
    """A function that gives what is wrong, if anything is. It has a folder of its own, and a number for ports of its own."""
    CHECKS.append(function)
    return function


def differs(what, is_so, should):
    return [] if is_so == should else [f"{what}: {is_so!r}, and not {should!r}"]


def soon(tries, seconds=8):
    """What comes of one of some tries in so many seconds, if anything does."""
    end = time.monotonic() + seconds
    while time.monotonic() < end:
        found = tries()
        if found:
            return found
        time.sleep(0.05)
    return tries()


class LyingDesk:
    """The desk of a member that tells the other bit of each decision, and a decision of a question that nobody proposed. Where it has
    `transcripts` it tells the truth, but sends what that makes of a line for a transcript: a line for the member, or pieces of a reply."""

    def __init__(self, port, real, made_up=None, transcripts=None):
        self.real, self.made_up, self.transcripts, self.lines = real, made_up, transcripts, []
        self.listener = socket.create_server(("127.0.0.1", port), backlog=64)
        threading.Thread(target=self.accept, daemon=True).start()

    def accept(self):
        while True:
            try:
                link, _ = self.listener.accept()
            except OSError:
                return
            try:
                desk = socket.create_connection(("127.0.0.1", self.real))
            except OSError:
                link.close()
                continue
            threading.Thread(target=self.ask, args=(link, desk), daemon=True).start()
            threading.Thread(target=self.tell, args=(link, desk), daemon=True).start()

    def ask(self, link, desk):
        with contextlib.suppress(OSError), link.makefile("rb") as lines:
            for line in lines:
                self.lines.append(line.decode().strip())
                if self.transcripts and line.startswith(b"TRANSCRIPT "):
                    line = self.transcripts(line)
                    if not isinstance(line, bytes):
                        for piece in line:
                            link.sendall(piece)
                        continue
                desk.sendall(line)
                if line.startswith(b"FOLLOW") and self.made_up is not None:
                    link.sendall(b"DECIDED %d 1\n" % self.made_up)
        with contextlib.suppress(OSError):
            desk.shutdown(socket.SHUT_RDWR)

    def tell(self, link, desk):
        with contextlib.suppress(OSError), desk.makefile("rb") as lines:
            for line in lines:
                words = line.split()
                if words[:1] == [b"DECIDED"] and not self.transcripts:
                    line = b" ".join([*words[:-1], b"10"[int(words[-1]) : int(words[-1]) + 1]]) + b"\n"
                link.sendall(line)
        with contextlib.suppress(OSError):
            link.shutdown(socket.SHUT_RDWR)

    def close(self):
        with contextlib.suppress(OSError):
            self.listener.shutdown(socket.SHUT_RDWR)
        self.listener.close()


def write_client(folder, questions, desks, chain):
    with open(f"{folder}/client.toml", "w", encoding="ascii") as file:
        file.write(f"cluster = 7\nn = 4\nt = 1\nquestions = {questions}\ndesks = {json.dumps(desks)}\n" + ("chain = true\n" if chain else ""))


class Cluster:
    """Four members and a client's settings of them, in which the desk of the last one lies."""

    def __init__(self, folder, port, questions=512, made_up=None, chain=False):
        self.folder, self.port, self.members = folder, port, {}
        peers = [f"127.0.0.1:{port + it}" for it in range(4)]
        for me in range(4):
            with open(self.path(me), "w", encoding="ascii") as file:
                file.write(f'cluster = 7\nn = 4\nt = 1\nquestions = {questions}\nme = {me}\njournal = "{folder}/member-{me}.journal"\n'
                           f'peers = {json.dumps(peers)}\ndesk = "127.0.0.1:{port + 4 + me}"\nseed = "{me + 1:064x}"\n'
                           + (f'epochs = "{folder}/{me}.epochs"\n' if chain else ""))
            subprocess.run([PROGRAM, "init", self.path(me)], check=True)
            self.start(me)
        self.liar = LyingDesk(port + 8, port + 7, made_up)
        desks = [f"127.0.0.1:{port + 4 + it}" for it in (0, 1, 2, 4)]
        write_client(folder, questions, desks, chain)

    def path(self, me):
        return f"{self.folder}/member-{me}.toml"

    def start(self, me):
        process = subprocess.Popen([PROGRAM, "run", "--stay", self.path(me)], stdin=subprocess.DEVNULL, stdout=subprocess.PIPE,
                                   stderr=subprocess.DEVNULL)
        self.members[me] = process
        assert b"ready" in process.stdout.readline(), f"member {me} isn't ready"

    def kill(self, me):
        process = self.members.pop(me)
        process.kill()
        process.wait()
        process.stdout.close()

    def close(self):
        for me in list(self.members):
            self.kill(me)
        self.liar.close()


@contextlib.contextmanager
def clusters(folder, port, **more):
    cluster = Cluster(folder, port, **more)
    try:
        yield cluster
    finally:
        cluster.close()


def blocking():
    """Blocks the signals that end a gateway cleanly, as its unit does."""
    signal.pthread_sigmask(signal.SIG_BLOCK, {signal.SIGTERM, signal.SIGINT})


class Gateway:
    """The gateway of a cluster, and a client of it."""

    def __init__(self, cluster, *words, host="127.0.0.1", port=None, program=PROGRAM, before=None):
        self.port = port or cluster.port + 9
        command = [program, "gateway", "--listen", f"{host}:{self.port}", *words, f"{cluster.folder}/client.toml"]
        self.log = open(f"{cluster.folder}/gateway.log", "ab")
        self.process = subprocess.Popen(command, stdin=subprocess.DEVNULL, stdout=subprocess.PIPE, stderr=self.log, preexec_fn=before or blocking)
        self.line = self.process.stdout.readline().decode()
        assert f":{self.port}" in self.line, f"the gateway isn't ready: {self.line!r}"

    def ask(self, method, target, body=None, timeout=20, **heads):
        """The status, the fields and the body of an answer. An underscore in a field's name stands for a hyphen."""
        link = http.client.HTTPConnection("127.0.0.1", self.port, timeout=timeout)
        try:
            link.putrequest(method, target, skip_host="Host" in heads, skip_accept_encoding=True)
            for name, value in heads.items():
                link.putheader(name.replace("_", "-"), value)
            if body is not None:
                link.putheader("Content-Length", str(len(body)))
            link.endheaders(body)
            answer = link.getresponse()
            return answer.status, dict((name.lower(), value) for name, value in answer.getheaders()), answer.read()
        finally:
            link.close()

    def json(self, target, status=200, **heads):
        """The object of an answer; the whole answer if its status is another one."""
        found = self.ask("GET", target, **heads)
        return json.loads(found[2]) if found[0] == status else found

    def propose(self, question, bit, target="", token=None, **heads):
        if token:
            heads["Authorization"] = f"Bearer {token}"
        heads.setdefault("Content_Type", "application/json")
        status, _, body = self.ask("POST", f"/v1/questions/{question}{target}", f'{{"bit":{bit}}}'.encode(), **heads)
        return status, json.loads(body)

    def memory(self):
        """The kilobytes that it has in memory."""
        with open(f"/proc/{self.process.pid}/status", encoding="ascii") as file:
            return int(re.search(r"VmRSS:\s+(\d+)", file.read())[1])

    def processor_time(self):
        """The seconds of a processor that it has taken."""
        with open(f"/proc/{self.process.pid}/stat", encoding="ascii") as file:
            return sum(map(int, file.read().rsplit(")", 1)[1].split()[11:13])) / os.sysconf("SC_CLK_TCK")

    def threads(self):
        return len(os.listdir(f"/proc/{self.process.pid}/task"))

    def end(self, number=signal.SIGTERM):
        """The status and the seconds that it takes to end."""
        begun = time.monotonic()
        self.process.send_signal(number)
        try:
            status = self.process.wait(15)
        except subprocess.TimeoutExpired:
            status = "goes on"
        return status, time.monotonic() - begun

    def close(self):
        self.process.kill()
        self.process.wait()
        self.process.stdout.close()
        self.log.close()


@contextlib.contextmanager
def gateways(cluster, *words, **more):
    gateway = Gateway(cluster, *words, **more)
    try:
        yield gateway
    finally:
        gateway.close()


class Events:
    """A stream of server-sent events, which a thread reads."""

    def __init__(self, gateway, target="/v1/decisions", **heads):
        self.link = http.client.HTTPConnection("127.0.0.1", gateway.port, timeout=30)
        self.link.request("GET", target, headers={name.replace("_", "-"): value for name, value in heads.items()})
        self.socket = self.link.sock
        self.answer, self.heard, self.ended = self.link.getresponse(), [], False
        self.thread = threading.Thread(target=self.read, daemon=True)
        self.thread.start()

    def read(self):
        event = {}
        with contextlib.suppress(OSError, ValueError, http.client.HTTPException, AttributeError):
            for line in self.answer:
                name, _, value = line.decode().rstrip("\n").partition(": ")
                if name:
                    event[name] = value
                elif "event" in event:
                    self.heard.append((event.get("id"), event["event"], json.loads(event["data"])))
                    event = {}
        self.ended = True

    def of(self, kind):
        return [data for _, name, data in list(self.heard) if name == kind]

    def close(self):
        with contextlib.suppress(OSError):
            self.socket.shutdown(socket.SHUT_RDWR)
        self.link.close()
        self.thread.join(5)


def member_states(gateway):
    return [it["state"] for it in gateway.json("/v1/members")["members"]]


def all_up(gateway):
    """Whether the cluster is ready, and each member answers: each is made a proposal then."""
    return gateway.json("/ready") == {"ready": True} and set(member_states(gateway)) == {"up"}


def decide(gateway, first, last):
    """Has these questions decided, each by the bit of its number, and gives what is wrong."""
    found = []
    for question in range(first, last):
        status, said = gateway.propose(question, question % 2, "?wait=20")
        found += differs(f"proposal of {question}", (status, said.get("state"), said.get("bit")), (200, "decided", question % 2))
    return found


@check
def questions_are_told_by_more_than_t(folder, port):
    """A decision is that of t + 1 members, whatever one desk says; each member's word is told, and who contradicts."""
    with clusters(folder, port, made_up=300) as cluster, gateways(cluster) as gateway:
        found = differs("health", gateway.json("/health"), {"ok": True})
        found += differs("ready", soon(lambda: all_up(gateway), 20), True)
        found += differs("a question before", gateway.json("/v1/questions/5"),
                         {"question": 5, "state": "unproposed", "members": [{"member": it, "says": None} for it in range(4)]})
        begun = time.monotonic()
        found += differs("one that nobody proposes, waited for", gateway.json("/v1/questions/5?wait=1")["state"], "unproposed")
        found += differs("a wait of a second", 0.9 < time.monotonic() - begun < 2.5, True)
        with concurrent.futures.ThreadPoolExecutor(4) as pool:
            waiting = pool.submit(gateway.json, "/v1/questions/7?wait=30")
            time.sleep(0.3)
            status, said = gateway.propose(7, 1)
            begun = time.monotonic()
            found += differs("a proposal", (status in (200, 202), said["question"], said["taken"] + said["have"]), (True, 7, 4))
            found += differs("a wait for a decision", (waiting.result()["state"], waiting.result()["bit"]), ("decided", 1))
            found += differs("the wait ends with it", time.monotonic() - begun < 3, True)
        found += decide(gateway, 20, 40)
        words = soon(lambda: [it["says"] for it in gateway.json("/v1/questions/20")["members"]] == [0, 0, 0, 1])
        found += differs("the words on 20", words, True)
        found += differs("a made-up decision", gateway.json("/v1/questions/300"),
                         {"question": 300, "state": "unproposed", "members": [{"member": it, "says": 1 if it == 3 else None} for it in range(4)]})
        found += differs("proposed twice", gateway.propose(20, 1), (200, {"question": 20, "state": "decided", "bit": 0, "taken": 0, "have": 4}))
        found += differs("who is asked then", "PROPOSE 20 1" in cluster.liar.lines, False)
        states = gateway.json("/v1/questions?from=0&to=512")
        letters = "".join("1" if it == 7 else "01"[it % 2] if 20 <= it < 40 else "-" for it in range(512))
        found += differs("the letters", (states["questions"], states["from"], states["to"], states["states"]), (512, 0, 512, letters))
        found += differs("a range", gateway.json("/v1/questions?from=18&to=24")["states"], letters[18:24])
        soon(lambda: len(gateway.json("/v1/members")["members"][3]["contradicts"]) >= 21)
        members = gateway.json("/v1/members")
        told = [it["question"] for it in members["members"][3]["contradicts"]]
        found += differs("who contradicts", [len(it["contradicts"]) for it in members["members"]], [0, 0, 0, 21])
        found += differs("on what", told, [7, *range(20, 40)])
        found += differs("the members", [it["member"] for it in members["members"]], [0, 1, 2, 3])
        found += differs("all are up", soon(lambda: member_states(gateway) == ["up"] * 4), True)
        found += differs("links", soon(lambda: all(it["in"] >= 3 and it["out"] >= 3 for it in gateway.json("/v1/members")["members"])), True)
        found += differs("counts", soon(lambda: [it["decided"] for it in gateway.json("/v1/members")["members"]][:3] == [21] * 3), True)
        found += differs("the cluster", [members[it] for it in ("cluster", "n", "t", "questions", "propose")], [7, 4, 1, 512, "open"])
        _, heads, _ = gateway.ask("HEAD", "/v1/questions/7")
        found += differs("HEAD", heads["content-type"], "application/json")
        _, heads, _ = gateway.ask("GET", "/")
        found += differs("the policy of the page", "default-src 'none'" in heads.get("content-security-policy", ""), True)
        if shutil.which("curl"):
            said = subprocess.run(["curl", "-fsS", f"http://localhost:{gateway.port}/v1/questions/7"], capture_output=True, text=True, check=False)
            found += differs("curl", said.stdout.startswith('{"question":7,"state":"decided","bit":1'), True)
        said = subprocess.run([PROGRAM, "ask", "--all", f"{folder}/client.toml", "7"], capture_output=True, text=True, check=False)
        found += differs("ask beside it", said.stdout, "DECIDED 1\n")
        status, took = gateway.end()
        return found + differs("the end", (status, took < 3), (0, True))


@check
def events_come_without_a_gap(folder, port):
    """Events come in one order, each once, from a position on; who comes back from another life loads everything anew."""
    with clusters(folder, port) as cluster, gateways(cluster) as gateway:
        soon(lambda: all_up(gateway), 20)
        found = decide(gateway, 0, 5)
        moment = gateway.json("/v1/questions")
        found += differs("decided by then", moment["states"][:5], "01010")
        found += differs("how many of the last minute", (len(moment["lately"]), sum(moment["lately"])), (60, 5))
        whole, late = Events(gateway, f"/v1/decisions?after={moment['life']}.0"), Events(gateway, f"/v1/decisions?after={moment['life']}.{moment['after']}")
        lost = Events(gateway, Last_Event_ID="12345.3")
        found += differs("the type", whole.answer.headers["content-type"], "text/event-stream")
        found += decide(gateway, 5, 10)
        for stream, first in ((whole, 0), (late, 5)):
            soon(lambda s=stream, f=first: len(s.of("decision")) >= 10 - f)
            found += differs(f"decisions from {first}", [(it["question"], it["bit"]) for it in stream.of("decision")],
                             [(it, it % 2) for it in range(first, 10)])
            found += differs(f"times from {first}", all(isinstance(it["ms"], int) and it["time"] > 1.7e12 for it in stream.of("decision")), True)
        found += differs("who comes from another life", soon(lambda: [it[1] for it in list(lost.heard) if it[1] != "beat"][:1]), ["restarted"])
        found += differs("it goes on", soon(lambda: [it["question"] for it in lost.of("decision")] == list(range(5, 10))), True)
        found += differs("the liar is told of", soon(lambda: len(whole.of("contradiction")) == 10), True)
        found += differs("by its number", {it["member"] for it in whole.of("contradiction")}, {3})
        numbers = [int(it[0].partition(".")[2]) for it in whole.heard if it[0]]
        found += differs("numbers", numbers, list(range(1, len(numbers) + 1)))
        again = Events(gateway, Last_Event_ID=f"{moment['life']}.{numbers[-3]}")
        rest = lambda stream: [it[0] for it in list(stream.heard) if it[0]]
        found += differs("who comes back has the rest", soon(lambda: rest(again)[:2] == [f"{moment['life']}.{it}" for it in numbers[-2:]]), True)
        cluster.kill(1)
        found += differs("a member that is gone", soon(lambda: {"member": 1, "state": "silent"} in late.of("member")), True)
        cluster.start(1)
        found += differs("it is back", soon(lambda: {"member": 1, "state": "up"} in late.of("member")[-1:], 10), True)
        found += differs("a beat", soon(lambda: late.of("beat"), 8) != [], True)
        begun = time.monotonic()
        found += differs("the end", gateway.end()[0], 0)
        found += differs("streams end with it", soon(lambda: whole.ended and late.ended, 5) and time.monotonic() - begun < 8, True)
        for stream in (whole, late, lost, again):
            stream.close()
        with gateways(cluster, port=port + 10) as other:
            found += differs("a life of its own", other.json("/v1/questions")["life"] != moment["life"], True)
            states = lambda: other.json("/v1/questions?from=0&to=11")["states"]
            soon(lambda: states() == "0101010101-")
            found += differs("what was decided before", states(), "0101010101-")
        return found


@check
def what_is_refused_is_named(folder, port):
    """Each request that isn't answered has its status and its word, and proposes nothing."""
    with open(f"{folder}/token", "w", encoding="ascii", opener=lambda path, flags: os.open(path, flags, 0o600)) as file:
        file.write(TOKEN + "\n")
    with clusters(folder, port) as cluster, gateways(cluster, "--token", f"{folder}/token") as gateway:
        here, good = f"127.0.0.1:{gateway.port}", {"Content_Type": "application/json", "Authorization": f"Bearer {TOKEN}"}
        body = b'{"bit":1}'
        rows = [
            (404, "path", "GET", "/nothing", None, {}),
            (404, "path", "GET", "/v1/questions/", None, {}),
            (404, "path", "GET", "/v1/questions/x", None, {}),
            (404, "path", "GET", f"/v1/questions/{2**64}", None, {}),
            (404, "path", "GET", "/v1/questions/-7", None, {}),
            (404, "question", "GET", "/v1/questions/512", None, {}),
            (404, "question", "GET", f"/v1/questions/{2**64 - 1}", None, {}),
            (404, "question", "GET", "/v1/questions/512/transcript", None, {}),
            (404, "question", "POST", "/v1/questions/512", body, good),
            (400, "query", "GET", "/v1/questions/1?wait=61", None, {}),
            (400, "query", "GET", "/v1/questions/1?wait=x", None, {}),
            (400, "query", "GET", "/v1/questions?from=5&to=4", None, {}),
            (400, "query", "GET", "/v1/questions?from=0&to=513", None, {}),
            (400, "query", "POST", "/v1/questions/1?wait=61", body, good),
            (405, "method", "DELETE", "/v1/questions/1", None, {}),
            (405, "method", "POST", "/metrics", body, good),
            (405, "method", "PUT", "/v1/questions/1", body, good),
            (421, "host", "GET", "/v1/questions/1", None, {"Host": "elsewhere.example"}),
            (421, "host", "POST", "/v1/questions/1", body, {**good, "Host": "elsewhere.example"}),
            (421, "host", "GET", "/v1/questions/1", None, {"Host": "127.0.0.1"}),
            (403, "origin", "POST", "/v1/questions/1", body, {**good, "Origin": "http://elsewhere.example"}),
            (403, "origin", "POST", "/v1/questions/1", body, {**good, "Origin": "null"}),
            (415, "content-type", "POST", "/v1/questions/1", body, {**good, "Content_Type": "text/plain"}),
            (415, "content-type", "POST", "/v1/questions/1", body, {"Authorization": good["Authorization"]}),
            (401, "token", "POST", "/v1/questions/1", body, {"Content_Type": "application/json"}),
            (401, "token", "POST", "/v1/questions/1", body, {**good, "Authorization": f"Bearer {TOKEN[:-1]}"}),
            (401, "token", "POST", "/v1/questions/1", body, {**good, "Authorization": f"Bearer {TOKEN}x"}),
            (401, "token", "POST", "/v1/questions/1", body, {**good, "Authorization": f"Bearer {TOKEN[:-1]}x"}),
            (401, "token", "POST", "/v1/questions/1", body, {**good, "Authorization": f"Basic {TOKEN}"}),
            (400, "body", "POST", "/v1/questions/1", b'{"bit":2}', good),
            (400, "body", "POST", "/v1/questions/1", b'{"bit":true}', good),
            (400, "body", "POST", "/v1/questions/1", b'{"bit":1', good),
            (400, "body", "POST", "/v1/questions/1", b"", good),
            (400, "body", "POST", "/v1/questions/1", b'{"bit":0,"bit":1}', good),
            (400, "body", "POST", "/v1/questions/1", b'{"bit":1,"bit":1}', good),
            (400, "body", "POST", "/v1/questions/1", b'{"bit":1,"wait":20}', good),
            (400, "body", "POST", "/v1/questions/1", b'{"a":0,"bit":1}', good),
            (400, "body", "POST", "/v1/questions/1", b'{"Bit":1}', good),
            (400, "body", "POST", "/v1/questions/1", b'{}', good),
            (400, "body", "POST", "/v1/questions/1", b'[{"bit":1}]', good),
            (400, "body", "POST", "/v1/questions/1", b'{"bit":{"bit":1}}', good),
        ]
        found = []
        for status, word, method, target, body, heads in rows:
            is_so = gateway.ask(method, target, body, **heads)
            found += differs(f"{method} {target} {body} {heads}", (is_so[0], is_so[2]), (status, f'{{"error":"{word}"}}\n'.encode()))
            remedy = {401: ("www-authenticate", "Bearer"), 405: ("allow", "GET, HEAD" + ", POST" * target.startswith("/v1/questions/"))}.get(status)
            found += differs(f"the remedy of {status}", remedy is None or is_so[1].get(remedy[0]) == remedy[1], True)
        found += differs("nothing was proposed", gateway.json("/v1/questions")["states"], "-" * 512)
        found += differs("nor handed on", [it for it in cluster.liar.lines if it.startswith("PROPOSE")], [])
        found += differs("a body with blanks", gateway.ask("POST", "/v1/questions/4?wait=20", b' { "bit" : 0 }\n', **good)[0], 200)
        for heads in ({}, {"Origin": f"http://{here}"}, {"Content_Type": "application/json; charset=utf-8"}):
            found += differs(f"with its token and {heads}", gateway.propose(1, 0, "?wait=20", TOKEN, **heads)[0], 200)
        found += differs("refusals", f"bracha_gateway_refusals_total {len(rows)}\n" in gateway.ask("GET", "/metrics")[2].decode(), True)
        found += differs("who may propose", gateway.json("/v1/members")["propose"], "token")
        with gateways(cluster, host="0.0.0.0", port=port + 10) as closed:
            found += differs("at any address without a token", closed.propose(2, 1), (403, {"error": "closed"}))
            found += differs("what it tells", closed.json("/v1/members")["propose"], "never")
            with open(f"{folder}/gateway.log", encoding="utf-8") as file:
                found += differs("what its operator is told", file.read().count("bracha: no proposals are taken"), 1)
            found += differs("what it answers", soon(lambda: closed.json("/v1/questions/1")["state"] == "decided"), True)
        with gateways(cluster, "--token", f"{folder}/token", host="0.0.0.0", port=port + 11) as opened:
            found += differs("at any address with it", opened.propose(2, 1, "?wait=20", TOKEN)[0], 200)
            found += differs("without it there", opened.propose(3, 1), (401, {"error": "token"}))
        return found


def transcript(gateway, question):
    status, heads, body = gateway.ask("GET", f"/v1/questions/{question}/transcript", timeout=40)
    return status, heads.get("content-type"), body


@check
def kills_are_seen(folder, port):
    """Members that are killed are silent, the cluster is ready while n - t have n - t links, and transcripts prove what was decided."""
    with clusters(folder, port) as cluster, gateways(cluster) as gateway:
        found = differs("ready", soon(lambda: all_up(gateway), 20), True)
        found += decide(gateway, 0, 8)
        for question in (0, 1):
            status, kind, body = transcript(gateway, question)
            found += differs(f"the transcript of {question}", (status, kind), (200, "application/json"))
            told = json.loads(body) if status == 200 else {}
            found += differs("what audit says of it", told.get("audit"), "yes")
            with open(f"{folder}/told", "w", encoding="ascii") as file:
                file.write(told.get("transcript", ""))
            said = subprocess.run([PROGRAM, "audit", "--n", "4", "--t", "1", "--questions", "512", f"{folder}/told"], capture_output=True, text=True,
                                  check=False).stdout
            found += differs("what the program's audit says", said, "yes\n")
        found += differs("a transcript of what isn't decided", transcript(gateway, 400)[0], 404)
        cluster.kill(0)
        found += differs("a member is silent", soon(lambda: gateway.json("/v1/members")["members"][0]["state"] == "silent"), True)
        found += differs("its links", [gateway.json("/v1/members")["members"][0][it] for it in ("in", "out")], [0, 0])
        found += differs("three are enough", soon(lambda: gateway.json("/ready") == {"ready": True}), True)
        found += decide(gateway, 8, 12)
        found += differs("a transcript of the others", transcript(gateway, 9)[0], 200)
        soon(lambda: member_states(gateway) == ["silent", "up", "up", "up"])
        said = gateway.propose(12, 0, "?wait=20")[1]
        found += differs("three that are asked", said.get("taken", 0) + said.get("have", 0), 3)
        cluster.kill(1)
        found += differs("two aren't", soon(lambda: gateway.ask("GET", "/ready")[0] == 503, 12), True)
        found += differs("healthy all the same", gateway.json("/health"), {"ok": True})
        soon(lambda: member_states(gateway) == ["silent", "silent", "up", "up"])
        begun = time.monotonic()
        status, said = gateway.propose(13, 1, "?wait=2")
        found += differs("a proposal to two", (status, said.get("state"), said.get("taken")), (202, "proposed", 2))
        found += differs("it takes its time", time.monotonic() - begun < 6, True)
        found += differs("a decision is kept", gateway.json("/v1/questions/9").get("bit"), 1)
        for me in (2, 3):
            cluster.kill(me)
        found += differs("nobody is there", soon(lambda: {it["state"] for it in gateway.json("/v1/members")["members"]} == {"silent"}, 12), True)
        begun = time.monotonic()
        found += differs("a proposal to nobody", gateway.propose(14, 1), (503, {"error": "silent"}))
        found += differs("what it leaves", gateway.json("/v1/questions/14")["state"], "unproposed")
        found += differs("a transcript of nobody", transcript(gateway, 9)[0], 503)
        found += differs("both in time", time.monotonic() - begun < 20, True)
        for me in range(4):
            cluster.start(me)
        found += differs("ready again", soon(lambda: all_up(gateway), 20), True)
        found += differs("what waited is decided", (gateway.propose(13, 1, "?wait=20")[1].get("bit"), gateway.propose(14, 1, "?wait=20")[1].get("bit")), (1, 1))
        return found


def samples(text):
    """The samples of a text for Prometheus, and the names that were declared."""
    values, kinds = {}, {}
    for line in text.splitlines():
        if line.startswith("# TYPE "):
            _, _, name, kind = line.split(" ")
            kinds[name] = kind
        elif not line.startswith("#"):
            name, _, value = line.rpartition(" ")
            values[name] = float(value)
    return values, kinds


def all_is_told(members):
    """Whether the first member has told 30 decisions, the last one has lied in each, and all are linked."""
    linked = all(it["in"] >= 3 and it["out"] >= 3 for it in members)
    return linked and members[0]["decided"] == 30 and len(members[3]["contradicts"]) == 30


@check
def metrics_are_right(folder, port):
    """The numbers for Prometheus are those of the cluster, and promtool has nothing against them."""
    with clusters(folder, port) as cluster, gateways(cluster) as gateway:
        soon(lambda: all_up(gateway), 20)
        found = decide(gateway, 0, 30)
        soon(lambda: all_is_told(gateway.json("/v1/members")["members"]))
        status, heads, body = gateway.ask("GET", "/metrics")
        text = body.decode()
        found += differs("the type", (status, heads["content-type"]), (200, "text/plain; version=0.0.4; charset=utf-8"))
        values, kinds = samples(text)
        wanted = {"bracha_questions": 512, "bracha_questions_open": 0, "bracha_decisions_total": 30, "bracha_gateway_refusals_total": 0,
                  'bracha_member_up{member="0"}': 1, 'bracha_member_decided{member="0"}': 30, 'bracha_member_contradictions{member="3"}': 30,
                  'bracha_member_contradictions{member="0"}': 0, "bracha_decision_seconds_count": 30, 'bracha_decision_seconds_bucket{le="+Inf"}': 30}
        found += differs("the numbers", {name: values.get(name) for name in wanted}, wanted)
        buckets = [value for name, value in values.items() if name.startswith("bracha_decision_seconds_bucket")]
        found += differs("buckets that grow", buckets, sorted(buckets))
        took = values["bracha_decision_seconds_sum"]
        found += differs(f"their time in all ({took} s)", 0 < took < 30 * 20, True)
        quick = values['bracha_decision_seconds_bucket{le="1.000"}']
        found += differs(f"half of the decisions in a second ({quick} of 30)", quick >= 15, True)
        found += differs("links", min(values[f'bracha_member_links_in{{member="{it}"}}'] for it in range(4)) >= 3, True)
        found += differs("kinds", set(kinds.values()), {"gauge", "counter", "histogram"})
        promtool = shutil.which("promtool")
        if promtool:
            checked = subprocess.run([promtool, "check", "metrics"], input=text, capture_output=True, text=True, check=False)
            found += differs("promtool", (checked.returncode, checked.stdout + checked.stderr), (0, ""))
        else:
            print("promtool is missing: the metrics were read by this script alone")
        with open(f"{TOP}/packaging/grafana.json", encoding="utf-8") as file:
            board = file.read()
        used = set(re.findall(r"bracha_[a-z_]+", board))
        known = {re.sub(r"\{.*", "", it) for it in values}
        found += differs("metrics of the dashboard that there aren't", used - known, set())
        return found


def idle_links(gateway, count):
    links = []
    for _ in range(count):
        link = socket.socket()
        link.settimeout(5)
        with contextlib.suppress(OSError):
            link.connect(("127.0.0.1", gateway.port))
        links.append(link)
    return links


def raw(gateway, data, timeout=15.0):
    """What comes for some bytes until the other end closes; None if it doesn't."""
    got = b""
    with socket.create_connection(("127.0.0.1", gateway.port), timeout=timeout) as link:
        with contextlib.suppress(OSError):
            for at in range(0, len(data), 65536):
                link.sendall(data[at:at + 65536])
        try:
            while piece := link.recv(65536):
                got += piece
        except TimeoutError:
            return None
        except OSError:
            pass
    return got


@check
def hostile_clients_harm_nobody(folder, port):
    """Garbage, slow heads, idle connections, bodies and paths that are too long, and pipelines: memory and members stay as they were."""
    with clusters(folder, port) as cluster, gateways(cluster) as gateway:
        soon(lambda: all_up(gateway), 20)
        found = decide(gateway, 0, 4)
        head = f"Host: 127.0.0.1:{gateway.port}\r\n".encode()
        many = b"".join(b"GET /v1/questions/%d HTTP/1.1\r\n" % it + head + b"\r\n" for it in range(100))
        answers = raw(gateway, many[:-2] + b"Connection: close\r\n\r\n")
        found += differs("a pipeline of a hundred", (answers or b"").count(b"HTTP/1.1 200"), 100)
        with socket.create_connection(("127.0.0.1", gateway.port), timeout=10) as link:
            link.sendall(b"".join(b"GET %s HTTP/1.1\r\n" % it + head + b"\r\n" for it in (b"/health", b"/v1/decisions")))
            got = b""
            while b"\nretry: " not in got and (piece := link.recv(4096)):
                got += piece
        found += differs("an answer in front of a stream", (got.count(b"HTTP/1.1 200"), b'{"ok":true}' in got), (2, True))
        asked = b"HEAD /v1/decisions HTTP/1.1\r\n" + head + b"\r\nGET /health HTTP/1.1\r\n" + head + b"Connection: close\r\n\r\n"
        got = raw(gateway, asked, 4.0) or b""
        found += differs("an answer behind the head of a stream", (got.count(b"HTTP/1.1 200"), got.endswith(b'\r\n\r\n{"ok":true}\n')), (2, True))
        before = gateway.memory()

        def garbage(number):
            data = [os.urandom(64), b"GET / HTTP/9.9\r\n\r\n", b"\x16\x03\x01\x02", b"GET\r\n\r\n", b"PROPOSE 9 1\n\r\n\r\n", b"POST /v1/questions/9 HTTP/1.1\r\n\r\n",
                    b"GET / HTTP/1.1\r\nContent-Length: -1\r\n" + head + b"\r\n", b"A" * 9000 + b"\r\n\r\n"][number % 8]
            with contextlib.suppress(OSError):
                with socket.create_connection(("127.0.0.1", gateway.port), timeout=10) as link:
                    link.sendall(data)
                    link.shutdown(socket.SHUT_WR)
                    return link.recv(64)
            return b""

        with concurrent.futures.ThreadPoolExecutor(16) as pool:
            said = list(pool.map(garbage, range(10_000)))
        found += differs("garbage that was answered well", sum(it.startswith(b"HTTP/1.1 2") for it in said), 0)
        found += differs("garbage that was refused", sum(it.startswith((b"HTTP/1.1 4", b"HTTP/1.1 5")) for it in said) > 4000, True)
        found += differs("a path of 64 KiB", (raw(gateway, b"GET /" + b"a" * 65536 + b" HTTP/1.1\r\n" + head + b"\r\n") or b"")[:12] in
                         (b"HTTP/1.1 414", b"HTTP/1.1 431", b"HTTP/1.1 400", b""), True)
        # What isn't read to its end has an answer without a body.
        post, json_type = b"POST /v1/questions/9 HTTP/1.1\r\n" + head, b"Content-Type: application/json\r\n"
        for status, data in ((b"400", b"PROPOSE 9 1\n\r\n\r\n"), (b"400", b"GET / HTTP/9.9\r\n" + head + b"\r\n"), (b"400", b"GET / HTTP/1.1\r\n\r\n"),
                             (b"413", post + json_type + b"Content-Length: 4097\r\n\r\n"), (b"414", b"GET /" + b"a" * 20_000 + b" HTTP/1.1\r\n" + head + b"\r\n"),
                             (b"431", b"GET / HTTP/1.1\r\n" + head + b"X: " + b"a" * 20_000 + b"\r\n\r\n"),
                             (b"501", post + json_type + b"Transfer-Encoding: gzip, chunked\r\n\r\n0\r\n\r\n")):
            said = raw(gateway, data) or b""
            found += differs(f"{data[:60]!r}", (said[9:12], said.partition(b"\r\n\r\n")[2]), (status, b""))
        long = b"POST /v1/questions/9 HTTP/1.1\r\n" + head + b"Content-Type: application/json\r\nContent-Length: 2000000\r\n\r\n" + b" " * 2_000_000
        found += differs("a body of 2 MB", (raw(gateway, long) or b"")[:12] in (b"HTTP/1.1 413", b""), True)
        links = idle_links(gateway, min(1000, resource.getrlimit(resource.RLIMIT_NOFILE)[0] - 200))
        begun = time.monotonic()
        time.sleep(0.5)
        for link in links[:100]:
            with contextlib.suppress(OSError):
                link.sendall(b"GET /v1/ques")
        found += differs("threads beside 1,000 idle connections", gateway.threads() < 300, True)
        told = subprocess.run([PROGRAM, "ask", "--all", f"{folder}/client.toml", "1"], capture_output=True, text=True, check=False, timeout=10)
        found += differs("the members meanwhile", told.stdout, "DECIDED 1\n")
        found += differs("it answers again", soon(lambda: answered(gateway), 25), True)
        found += differs(f"in time ({time.monotonic() - begun:.1f} s)", time.monotonic() - begun < 20, True)
        for link in links:
            link.close()
        found += differs(f"memory ({before} kB before, {gateway.memory()} kB then)", gateway.memory() < before + 8192, True)
        found += decide(gateway, 4, 8)
        found += differs("nothing of it was proposed", gateway.json("/v1/questions/9")["state"], "unproposed")
        found += differs("threads then", soon(lambda: gateway.threads() < 20, 15), True)
        return found


def answered(gateway):
    with contextlib.suppress(OSError, http.client.HTTPException):
        return gateway.json("/health", timeout=2) == {"ok": True}
    return False


def starts(folder, *words):
    """What a gateway that doesn't start says, and its status."""
    try:
        ran = subprocess.run([PROGRAM, "gateway", *words], cwd=folder, stdin=subprocess.DEVNULL, stdout=subprocess.PIPE,
                             stderr=subprocess.STDOUT, text=True, timeout=5, check=False)
    except subprocess.TimeoutExpired:
        return "goes on", None
    return ran.stdout, ran.returncode


@check
def what_it_lacks_is_said(folder, port):
    """A gateway that can't start says what is wrong with which file or address, and what to do."""
    with clusters(folder, port) as cluster, gateways(cluster) as gateway:
        rows = [
            (["none.toml"], "none.toml"),
            (["member-0.toml"], "member-0.toml"),
            (["--token", "none", "client.toml"], "none"),
            (["--token", "short", "client.toml"], "short"),
            (["--token", "open", "client.toml"], "open"),
            (["--token", "long", "client.toml"], "long"),
            (["--listen", "nowhere", "client.toml"], "nowhere"),
            (["--listen", f"127.0.0.1:{gateway.port}", "client.toml"], f"127.0.0.1:{gateway.port}"),
        ]
        for name, text, mode in (("short", "abc\n", 0o600), ("open", TOKEN + "\n", 0o644), ("long", "a" * 257 + "\n", 0o600)):
            with open(f"{folder}/{name}", "w", encoding="ascii", opener=lambda path, flags, m=mode: os.open(path, flags, m)) as file:
                file.write(text)
        found = []
        for words, named in rows:
            said, status = starts(folder, *words)
            found += differs(f"{words}: the status ({said!r})", status not in (0, None), True)
            found += differs(f"{words}: what is named ({said!r})", named in said and said.startswith("bracha: "), True)
        found += differs("the line once it listens", gateway.line, f"gateway 127.0.0.1:{gateway.port} cluster 7 members 4\n")
        with contextlib.suppress(OSError), socket.create_server(("127.0.0.1", 7180)):
            said, _ = starts(folder, "client.toml")
            found += differs("the address where none is given", "127.0.0.1:7180" in said, True)
        status, took = gateway.end(signal.SIGINT)
        found += differs("the end by SIGINT", (status, took < 3), (0, True))
        return found + differs("what it left to say", os.path.getsize(f"{folder}/gateway.log"), 0)


@check
def places_are_given_back(folder, port):
    """Followers, proposals and clients that came to their end count for none, however that came. A request that comes byte by byte, or
    stops, is closed after ten seconds, and told so."""
    def slow():
        """How long a head that comes byte by byte is read."""
        begun = time.monotonic()
        with contextlib.suppress(OSError), socket.create_connection(("127.0.0.1", gateway.port), timeout=5) as link:
            while time.monotonic() < begun + 20:
                link.sendall(b"G")
                time.sleep(0.2)
        return time.monotonic() - begun

    def is_cut():
        """Whether a client is gone amid its request, without a word."""
        with contextlib.suppress(OSError), socket.create_connection(("127.0.0.1", gateway.port), timeout=5) as link:
            link.sendall(b"GET /v1/ques")
            link.setsockopt(socket.SOL_SOCKET, socket.SO_LINGER, struct.pack("ii", 1, 0))
        return True

    def proposed(question):
        """Whether a member took the proposal: a slow one may not answer in time."""
        return gateway.propose(question, question % 2)[0] in (200, 202)

    def follows():
        """The status of the answer to a follower, who leaves at once."""
        follower = Events(gateway)
        follower.close()
        return follower.answer.status

    with clusters(folder, port) as cluster, gateways(cluster) as gateway, concurrent.futures.ThreadPoolExecutor(16) as pool:
        soon(lambda: all_up(gateway), 20)
        took, late = pool.submit(slow), pool.submit(raw, gateway, b"GET /v1/ques")
        found = differs("300 clients that are cut", all(pool.map(lambda _: is_cut(), range(300))), True)
        found += differs("the next one", soon(lambda: answered(gateway), 5), True)
        if found:
            return found
        found += differs("70 proposals", all(pool.map(lambda it: soon(lambda: proposed(it), 20), range(70))), True)
        came = {it for it in pool.map(lambda _: follows(), range(140)) if it != 503}
        # Who has left is missed with the next event or beat.
        found += differs("140 followers, and one more once they are missed", (came, soon(lambda: follows() == 200, 12)), ({200}, True))
        said = late.result() or b""
        found += differs("a head that stops", (said[:12], said.partition(b"\r\n\r\n")[2]), (b"HTTP/1.1 408", b'{"error":"late"}\n'))
        return found + differs(f"a slow head ({took.result():.1f} s)", 8 < took.result() < 16, True)


@check
def who_is_one_too_many_is_told(folder, port):
    """The 65th follower is told 503, the 65th proposal at once and the second transcript at once 429."""
    with clusters(folder, port) as cluster, gateways(cluster) as gateway, concurrent.futures.ThreadPoolExecutor(80) as pool:
        soon(lambda: all_up(gateway), 20)
        found = decide(gateway, 0, 2)
        links = idle_links(gateway, 250)
        found += differs("one beside 250 connections", answered(gateway), True)
        for link in links:
            link.close()
        soon(lambda: gateway.threads() < 32)
        followers = [Events(gateway) for _ in range(64)]
        found += differs("64 followers", {it.answer.status for it in followers}, {200})
        found += differs("one more", gateway.ask("GET", "/v1/decisions")[::2], (503, b"{\"error\":\"busy\"}\n"))
        for it in followers:
            it.close()
        # Members that don't answer hold what is asked of them.
        for process in cluster.members.values():
            process.send_signal(signal.SIGSTOP)
        late = [it for it in pool.map(lambda it: gateway.propose(100 + it, 1), range(70)) if it[0] == 429]
        # On a slow machine some come when others have ended.
        found += differs(f"70 proposals at once ({late})", 1 <= len(late) <= 6 and all(it[1] == {"error": "busy"} for it in late), True)
        said = sorted(it[0] for it in pool.map(lambda _: transcript(gateway, 0), range(3)))
        found += differs(f"three transcripts at once ({said})", said.count(429) in (1, 2), True)
        for process in cluster.members.values():
            process.send_signal(signal.SIGCONT)
        found += differs("all is well behind them", soon(lambda: all_up(gateway), 20), True)
        return found + differs("a transcript behind those that nobody sent", soon(lambda: transcript(gateway, 0)[0] == 200, 8), True)


@check
def a_chain_goes_on(folder, port):
    """Slots of many epochs are proposed and told; a gateway that starts anew knows those of its window; a member comes back."""
    with clusters(folder, port, questions=16, chain=True) as cluster:
        with gateways(cluster) as gateway:
            soon(lambda: all_up(gateway), 20)
            found = decide(gateway, 0, 21)
            status, _, body = gateway.ask("GET", "/v1/questions/20/transcript", timeout=40)
            found += differs("a transcript while its epoch runs", (status, json.loads(body).get("bit")), (200, 0))
            found += decide(gateway, 21, 40)
            members = gateway.json("/v1/members")
            found += differs("the chain", [members[it] for it in ("questions", "chain")], [16, True])
            found += differs("the words on 33", soon(lambda: [it["says"] for it in gateway.json("/v1/questions/33")["members"]] == [1, 1, 1, 0]), True)
            found += differs("who contradicts", soon(lambda: [len(it["contradicts"]) for it in gateway.json("/v1/members")["members"]] == [0, 0, 0, 40]), True)
            told = gateway.json("/v1/members")["members"][3]["contradicts"]
            found += differs("on what", [it["question"] for it in told], list(range(40)))
            states = gateway.json("/v1/questions")
            found += differs("the window", (states["questions"], states["from"], states["to"], states["states"][:42]), (16, 0, 8192, "01" * 20 + "--"))
            found += differs("a part", gateway.json("/v1/questions?from=30&to=44")["states"], "01" * 5 + "----")
            found += differs("a part past it", [gateway.json("/v1/questions?from=8190&to=99999999999")[it] for it in ("from", "to", "states")], [8190, 8192, "--"])
            found += differs("a wrong range", gateway.ask("GET", "/v1/questions?from=5&to=4")[0], 400)
            for slot in (8192, 2**63, 2**64 - 1):
                found += differs(f"slot {slot}", gateway.json(f"/v1/questions/{slot}", 404), {"error": "question"})
                found += differs(f"a proposal on {slot}", gateway.propose(slot, 1), (404, {"error": "question"}))
            found += differs("a slot that members refuse", gateway.propose(8000, 1, "?wait=60"), (404, {"error": "question"}))
            found += differs("what that leaves", gateway.json("/v1/questions/8000")["state"], "unproposed")
            found += differs("slot 2^64", gateway.ask("GET", f"/v1/questions/{2**64}")[0], 404)
            values, _ = samples(gateway.ask("GET", "/metrics")[2].decode())
            found += differs("the numbers", [values[f"bracha_{it}"] for it in ("questions", "questions_open", "decisions_total")], [8192, 0, 40])
        with gateways(cluster) as gateway:
            known = soon(lambda: gateway.json("/v1/questions?from=0&to=40")["states"] == "01" * 20, 15)
            found += differs("a gateway that starts anew knows them", known, True)
            cluster.kill(1)
            found += decide(gateway, 40, 60)
            cluster.start(1)
            said = soon(lambda: gateway.json("/v1/questions/59")["members"][1]["says"] == 1, 30)
            found += differs("a member that comes back tells what it missed", said, True)
            return found + decide(gateway, 60, 64)


class MadeUpDesks:
    """Desks of a chain of which each tells the slots that it is told to, in order, and says that so many epochs are closed. Those
    of `late` it tells to one who asks alone. Those of one cluster say that the questions of `spent` are. A member of `turned` tells
    the other bits, and one of `full` is stopped by the first proposal, though it says that it is up."""

    def __init__(self, folder, port, questions, closed, chain=True):
        self.questions, self.closed, self.told = questions, closed, [[] for _ in closed]
        self.late, self.asked, self.pause, self.spent, self.turned, self.full = {}, set(), 0, set(), set(), set()
        self.listeners = [socket.create_server(("127.0.0.1", port + me), backlog=64) for me in range(len(closed))]
        self.folder, self.port = folder, port
        write_client(folder, questions, [f"127.0.0.1:{port + me}" for me in range(len(closed))], chain)
        for me in range(len(closed)):
            threading.Thread(target=self.accept, args=(me,), daemon=True).start()

    def accept(self, me):
        with contextlib.suppress(OSError):
            while True:
                link, _ = self.listeners[me].accept()
                threading.Thread(target=self.serve, args=(me, link), daemon=True).start()

    def serve(self, me, link):
        with contextlib.suppress(OSError, ValueError), link, link.makefile("rb") as lines:
            for line in lines:
                words = line.decode().split()
                self.asked.add(words[0])
                if words[0] == "FOLLOW":
                    return self.tell(me, link, int(words[1]))
                time.sleep(self.pause if words[0] in ("ASK", "STATE") else 0)
                if words[0] == "ASK" and int(words[1]) in self.late:
                    link.sendall(b"DECIDED %d\n" % self.late[int(words[1])])
                    continue
                if words[0] == "STATE" and int(words[1]) in self.spent and me not in self.turned:
                    link.sendall(b"SPENT\n")
                    continue
                reply = {"EPOCHS": f"EPOCHS {self.closed[me]} {self.closed[me]}", "STATUS": "UP 5 1", "LINKS": "LINKS 4 4 - -",
                         "PROPOSE": "STOPPED" if me in self.full else "OK", "ASK": "UNDECIDED"}
                link.sendall(reply.get(words[0], "UNPROPOSED").encode() + b"\n")

    def tell(self, me, link, number):
        """Each slot from the number's on, and an empty line now and then."""
        slot, quiet = number, time.monotonic()
        while True:
            part = [it for it in self.told[me] if it >= slot][:500]
            if part:
                link.sendall("".join(f"DECIDED {it} {(it + (me in self.turned)) % 2}\n" for it in part).encode())
                slot, quiet = part[-1] + 1, time.monotonic()
            elif time.monotonic() - quiet > 4:
                link.sendall(b"\n")
                quiet = time.monotonic()
            else:
                time.sleep(0.02)

    def close(self):
        for listener in self.listeners:
            with contextlib.suppress(OSError):
                listener.shutdown(socket.SHUT_RDWR)
            listener.close()


def window(gateway):
    states = gateway.json("/v1/questions")
    return states["from"], states["to"]


@check
def liars_move_no_window(folder, port):
    """The window moves with t + 1 members: one that claims slots far ahead moves nothing, and is heard once the others are there."""
    desks = MadeUpDesks(folder, port, 1024, [0, 0, 0, 2**53])
    with contextlib.closing(desks):
        with gateways(desks) as gateway:
            found = windows(desks, gateway) + page_of_a_chain(desks, gateway)
        desks.closed = [38, 38, 38, 2**53]
        first = 38 * 1024 - 4096
        desks.told = [[], [], [], []]
        with gateways(desks) as gateway:
            found += differs("a gateway to which nothing is told", soon(lambda: window(gateway) == (first, first + 8192)), True)
        desks.told[0] = desks.told[1] = list(range(40_000))
        with gateways(desks) as gateway:
            found += differs("a gateway that starts late", soon(lambda: window(gateway) == (first, first + 8192)), True)
            told = soon(lambda: gateway.json(f"/v1/questions?from={first}&to=40001")["states"] == "01" * ((40_000 - first) // 2) + "-")
            found += differs("all of its window is told", told, True)
            return found + differs("and nothing before it", gateway.json(f"/v1/questions/{first - 1}", 410), {"error": "past"})


def windows(desks, gateway):
    """The windows that come as members go on."""
    desks.told[3] = [2**63 - 5, 2**63 - 1]
    desks.told[0] = list(range(9000))
    found = differs("one member tells, and one is far ahead", soon(lambda: gateway.json("/v1/questions/6000")["members"][0]["says"] == 0, 20), True)
    time.sleep(1)
    first = window(gateway)[0]
    found += differs("the window goes no further than the first of them has come", first <= 9000 - 2 * 2048, True)
    found += differs("nothing of it is decided", gateway.json(f"/v1/questions/{first + 10}")["state"], "unproposed")
    desks.pause = 0.5
    time.sleep(3)
    found += differs("a proposal that comes while members are asked", gateway.propose(first + 11, 1)[1].get("taken"), 4)
    desks.pause = 0
    desks.told[1] = desks.told[0] = list(range(30_000))
    found += differs("two more", soon(lambda: window(gateway)[0] >= 30_000 - 3 * 2048, 40), True)
    first, last = window(gateway)
    found += differs("the window", (last - first, first <= 30_000 - 2048 < last), (8192, True))
    slot = 29_998
    found += differs("a slot that two told", soon(lambda: gateway.json(f"/v1/questions/{slot}")["state"] == "decided"), True)
    found += differs("a slot before it", gateway.json(f"/v1/questions/{first - 1}", 410), {"error": "past"})
    found += differs("a transcript of it", gateway.json(f"/v1/questions/{first - 1}/transcript", 410), {"error": "past"})
    found += differs("a proposal on it", gateway.propose(first - 1, 1), (410, {"error": "past"}))
    found += differs("the first slot", gateway.ask("GET", f"/v1/questions/{first}")[0], 200)
    found += differs("a slot after it", gateway.json(f"/v1/questions/{last}", 404), {"error": "question"})
    found += differs("a part before it", [gateway.json("/v1/questions?from=0&to=5")[it] for it in ("from", "to", "states")], [first, first, ""])
    found += differs("a new slot", gateway.propose(30_001, 1)[0], 202)
    desks.late[30_001] = 1
    found += differs("one that is told to who asks alone", soon(lambda: gateway.json("/v1/questions/30001")["state"] == "decided", 12), True)
    desks.late[30_003] = 1
    desks.told[0] = [*range(30_000), 30_003]
    found += differs("one that a member tells, and the others to who asks", soon(lambda: gateway.json("/v1/questions/30003")["state"] == "decided", 12), True)
    found += differs("what starts an epoch again", "STATE" in desks.asked, False)
    desks.told[2] = list(range(29_000, 30_000))
    found += differs("one that comes later", soon(lambda: gateway.json(f"/v1/questions/{slot}")["members"][2]["says"] == 0), True)
    memory = gateway.memory()
    return found + differs(f"memory ({memory} kB)", memory < 64 * 1024, True)


def page_of_a_chain(desks, gateway):
    """The page shows the window, and goes along with it."""
    program = browser.find()
    if program is None:
        print("chromium is missing: the page of a chain wasn't looked at")
        return []
    first = window(gateway)[0]
    with contextlib.closing(browser.Browser(program)) as chromium:
        tab = chromium.page(f"http://127.0.0.1:{gateway.port}/", 1200, 900)
        found = differs("its page", tab.until(f"{STATE}.F === {first} && {STATE}.Q === 8192"), True)
        found += differs("a slot of it", tab.until(f'{STATE}.states[29998 - {STATE}.F] === "0"'), True)
        desks.told[0] = desks.told[1] = list(range(40_000))
        found += differs("it goes along", tab.until(f'{STATE}.F > {first} && {STATE}.states[39000 - {STATE}.F] === "0"', 40), True)
        found += differs("it has no faults", tab.faults(), [])
        tab.close()
        return found


class StrangeDesk:
    """A desk at which nothing is decided. To one who follows decisions it does so; one that never answers does so at once."""

    def __init__(self, port, follows, answers=True):
        self.follows, self.answers, self.links, self.followed = follows, answers, 0, []
        self.listener = socket.create_server(("127.0.0.1", port), backlog=64)
        threading.Thread(target=self.accept, daemon=True).start()

    def accept(self):
        with contextlib.suppress(OSError):
            while True:
                link, _ = self.listener.accept()
                self.links += 1
                threading.Thread(target=self.serve, args=(link,), daemon=True).start()

    def serve(self, link):
        with contextlib.suppress(OSError), link, link.makefile("rb") as lines:
            if not self.answers:
                return self.follows(link)
            for line in lines:
                if line.startswith(b"FOLLOW"):
                    self.followed.append(time.monotonic())
                    return self.follows(link)
                link.sendall({b"STATUS\n": b"UP 0 0\n", b"LINKS\n": b"LINKS 4 4 4 3\n"}.get(line, b"UNPROPOSED\n"))

    def close(self):
        with contextlib.suppress(OSError):
            self.listener.shutdown(socket.SHUT_RDWR)
        self.listener.close()


def says_that_it_lives(link):
    while True:
        time.sleep(4)
        link.sendall(b"\n")


def says_nothing(link):
    link.recv(1)


def says_a_line_without_an_end(link):
    for _ in range(4096):
        link.sendall(b"x" * 65536)


def hangs_up(_):
    pass


@check
def strange_desks_cost_little(folder, port):
    """A desk that falls silent is followed anew, and one that has nothing to tell isn't; one that hangs up is dialled again with rests;
    a line without an end takes no memory, and hardly any time."""
    ways = ((says_that_it_lives, True), (says_nothing, True), (hangs_up, False), (says_a_line_without_an_end, False))
    with contextlib.ExitStack() as stack:
        desks = [stack.enter_context(contextlib.closing(StrangeDesk(port + me, *way))) for me, way in enumerate(ways)]
        write_client(folder, 64, [f"127.0.0.1:{port + me}" for me in range(4)], False)
        gateway = stack.enter_context(gateways(Strange(folder, port)))
        most, end = 0, time.monotonic() + 14.5
        while time.monotonic() < end:
            most = max(most, gateway.memory())
            time.sleep(0.2)
        found = differs(f"memory ({most} kB)", most < 64 * 1024, True)
        found += differs(f"time of a processor ({gateway.processor_time():.1f} s)", gateway.processor_time() < 3, True)
        found += differs("how often one that lives is followed", len(desks[0].followed), 1)
        # It says nothing for twelve seconds, more than twice as long as a desk does.
        found += differs("one that falls silent is followed anew", len(desks[1].followed) >= 2, True)
        for me in (2, 3):
            found += differs(f"the connections to {ways[me][0].__name__} ({desks[me].links})", 4 <= desks[me].links <= 60, True)
        states = member_states(gateway)
        return found + differs("the members", states, ["up", "up", "silent", "silent"])


class Strange:
    """A cluster of strange desks, for its gateway."""

    def __init__(self, folder, port):
        self.folder, self.port = folder, port


@check
def a_gateway_without_threads(folder, port):
    """While the system gives no thread, clients are closed, and none of their places is lost. It wants root."""
    if os.geteuid() != 0:
        return []

    def as_nobody():
        os.setgroups([])
        os.setgid(65534)
        os.setuid(65534)

    def is_closed():
        with contextlib.suppress(ConnectionError), socket.create_connection(("127.0.0.1", gateway.port), timeout=5) as link:
            return link.recv(1) == b""
        return True

    program = shutil.copy(PROGRAM, f"{folder}/bracha")
    for path in (os.path.dirname(folder), folder):
        os.chmod(path, 0o755)
    desks = MadeUpDesks(folder, port, 64, [0, 0, 0, 0], chain=False)
    with contextlib.closing(desks), gateways(desks, program=program, before=as_nobody) as gateway:
        found = differs("a client before", soon(lambda: answered(gateway)), True)
        limit = lambda words: subprocess.run(["prlimit", f"--pid={gateway.process.pid}", words], check=True, preexec_fn=as_nobody)
        # Of its user's threads there are more than one already.
        limit("--nproc=1:")
        found += differs("300 clients that are closed", all(is_closed() for _ in range(300)), True)
        limit("--nproc=4096:")
        return found + differs("a client behind them", soon(lambda: answered(gateway), 5), True)


@check
def what_happens_is_told_at_once(folder, port):
    """A proposal reaches the members, and a decision that they tell a follower, in much less than the two seconds after which each member
    is asked how it is. One that is stopped by a proposal isn't waited for."""
    desks = MadeUpDesks(folder, port, 512, [0, 0, 0, 0], chain=False)
    desks.full.add(3)
    with contextlib.closing(desks), gateways(desks) as gateway, contextlib.closing(Events(gateway)) as events:
        found = differs("all are up", soon(lambda: member_states(gateway) == ["up"] * 4), True)
        proposals, decisions = [], []
        for question in range(9):
            # At another moment of those two seconds each time.
            time.sleep(0.37)
            begun = time.monotonic()
            found += differs(f"a proposal of {question}", gateway.propose(question, question % 2)[1].get("taken"), 3)
            proposals.append(time.monotonic() - begun)
            time.sleep(0.37)
            begun = time.monotonic()
            desks.told = [list(range(question + 1)) for _ in range(4)]
            told = soon(lambda q=question: [it["question"] for it in events.of("decision")][-1:] == [q])
            found += differs(f"a decision of {question}", told, True)
            decisions.append(time.monotonic() - begun)
        for what, times in (("proposals", proposals), ("decisions", decisions)):
            took = statistics.median(times)
            found += differs(f"half of the {what} in {took:.2f} s", took < 0.5, True)
        return found


@check
def a_follower_that_takes_nothing_is_closed(folder, port):
    """A follower that takes nothing of an event for ten seconds is closed, so that it holds no place. Who comes back behind 8,000 events is
    told all of them."""
    desks = MadeUpDesks(folder, port, 4096, [0, 0, 0, 0], chain=False)
    desks.turned.add(3)
    desks.told = [list(range(4096)) for _ in range(4)]
    with contextlib.closing(desks), gateways(desks) as gateway:
        states = lambda: gateway.json("/v1/questions")
        found = differs("all is decided", soon(lambda: set(states()["states"]) == {"0", "1"}, 10), True)
        # Of each question a decision and a contradiction, and perhaps that it was proposed.
        found += differs("all is told", soon(lambda: len(gateway.json("/v1/members")["members"][3]["contradicts"]) == 4096), True)
        life, last = states()["life"], states()["after"]
        with contextlib.closing(Events(gateway, f"/v1/decisions?after={life}.{last - 8000}")) as late:
            soon(lambda: len(late.heard) >= 8000)
            numbers = [it[0] for it in late.heard if it[1] != "beat"][:8000]
            found += differs("the last 8,000 events", numbers == [f"{life}.{it}" for it in range(last - 7999, last + 1)], True)
        time.sleep(0.5)
        before, links = gateway.threads(), []
        for _ in range(4):
            link = socket.socket()
            # Segments and a window so small that the events have no room on the way.
            link.setsockopt(socket.IPPROTO_TCP, socket.TCP_MAXSEG, 88)
            link.setsockopt(socket.SOL_SOCKET, socket.SO_RCVBUF, 1024)
            link.connect(("127.0.0.1", gateway.port))
            link.sendall(f"GET /v1/decisions?after={life}.{last - 8000} HTTP/1.1\r\nHost: 127.0.0.1:{gateway.port}\r\n\r\n".encode())
            links.append(link)
        begun = time.monotonic()
        found += differs("they follow", soon(lambda: gateway.threads() >= before + 4, 3), True)
        found += differs("they are closed", soon(lambda: gateway.threads() <= before, 14), True)
        took = time.monotonic() - begun
        for link in links:
            link.close()
        return found + differs(f"after ten seconds ({took:.1f} s)", 8 < took < 14, True)


@check
def transcripts_of_liars_are_passed(folder, port):
    """The transcript that proves a decision is told, whoever is asked first: not one that proves nothing, nor one of another question."""
    def thin(line):
        question = int(line.split()[1])
        return [b"transcript %d bit %d count 0\n" % (question, question % 2)]

    def of_another(line):
        return b"TRANSCRIPT %d\n" % (int(line.split()[1]) - 2)

    with clusters(folder, port) as cluster:
        liars = [LyingDesk(port + 10, port + 4, transcripts=thin), LyingDesk(port + 11, port + 5, transcripts=of_another)]
        write_client(folder, 512, [f"127.0.0.1:{port + it}" for it in (10, 11, 6, 8)], False)
        with contextlib.closing(liars[0]), contextlib.closing(liars[1]), gateways(cluster) as gateway:
            found = differs("all are up", soon(lambda: all_up(gateway), 20), True) + decide(gateway, 3, 8)
            # Each time another member is asked first.
            for question in (5, 7, 5, 7):
                words = soon(lambda q=question: [it["says"] for it in gateway.json(f"/v1/questions/{q}")["members"]] == [1, 1, 1, 0])
                found += differs(f"the words on {question}", words, True)
                told = json.loads(transcript(gateway, question)[2])
                begins = told.get("transcript", "").startswith(f"transcript {question} bit 1 count ")
                found += differs(f"the transcript of {question}", (told.get("member"), told.get("audit"), begins), (2, "yes", True))
            return found


STATE = "window.brachaLive.state()"


@check
def a_liar_puts_nothing_under_way(folder, port):
    """A member that tells a decision of each question puts none of them under way, and holds up none that is."""
    desks = MadeUpDesks(folder, port, 1024, [0, 0, 0, 0], chain=False)
    with contextlib.closing(desks), gateways(desks) as gateway, contextlib.closing(Events(gateway)) as events:
        desks.turned.add(3)
        desks.told[3] = list(range(1024))
        words = lambda question: [it["says"] for it in gateway.json(f"/v1/questions/{question}")["members"]]
        found = differs("it tells", soon(lambda: words(1023) == [None, None, None, 0]), True)
        found += differs("all are up", soon(lambda: member_states(gateway) == ["up"] * 4), True)
        found += differs("the letters", gateway.json("/v1/questions")["states"], "-" * 1024)
        found += differs("one of them", gateway.json("/v1/questions/5")["state"], "unproposed")
        found += differs("how many are open", open_count(gateway), 0)
        found += differs("a proposal", gateway.propose(1000, 1), (202, {"question": 1000, "state": "proposed", "taken": 4, "have": 0}))
        found += differs("how many are open then", open_count(gateway), 1)
        # Three of four members tell so to who asks: the liar's 1,024 questions are asked for after this one.
        desks.spent.add(1000)
        begun = time.monotonic()
        found += differs("it is spent", soon(lambda: gateway.json("/v1/questions/1000")["state"] == "spent", 10), True)
        found += differs(f"in time ({time.monotonic() - begun:.1f} s)", time.monotonic() - begun < 10, True)
        # One of two members is correct, though they differ.
        desks.told[0] = [7]
        found += differs("two members tell", soon(lambda: gateway.json("/v1/questions/7")["state"] == "proposed"), True)
        found += differs("which bits", words(7), [1, None, None, 0])
        found += differs("what is proposed", [it["question"] for it in events.of("proposed")], [1000, 7])
        desks.told[1] = [7]
        found += differs("a third one", soon(lambda: gateway.json("/v1/questions/7").get("bit") == 1), True)
        found += differs("who contradicts", soon(lambda: events.of("contradiction")), [{"member": 3, "question": 7, "says": 0}])
        found += differs("no other is proposed", [it["question"] for it in events.of("proposed")], [1000, 7])
        # One that nobody proposed here, and of which the liar alone tells, is spent too once n - t members say so. It stands behind 7, from
        # which members may be asked on at first: they come to what stands before it in two minutes.
        desks.spent.add(9)
        with gateways(desks, port=port + 10) as late:
            letters = lambda: late.json("/v1/questions")["states"]
            return found + differs("a gateway that starts then", soon(lambda: letters() == "-------1-x" + "-" * 1014, 12) or letters(), True)


def open_count(gateway):
    values, _ = samples(gateway.ask("GET", "/metrics")[2].decode())
    return values["bracha_questions_open"]


@check
def the_page_shows_it(folder, port):
    """The page of a cluster with a member that was killed and a desk that lies, in Chromium."""
    program = browser.find()
    if program is None:
        print("chromium is missing: the page of a running cluster wasn't looked at")
        return []
    with clusters(folder, port, questions=256) as cluster, gateways(cluster) as gateway, contextlib.closing(browser.Browser(program)) as chromium:
        soon(lambda: all_up(gateway), 20)
        found = decide(gateway, 0, 6)
        tab = chromium.page(f"http://127.0.0.1:{gateway.port}/", 1920, 1080)
        found += differs("it is ready", tab.until('document.documentElement.dataset.ready === "yes"'), True)
        found += differs("its squares", tab.until(f'{STATE}.states.slice(0, 8) === "010101--"'), True)
        cluster.kill(1)
        ring = 'document.querySelectorAll("#ring svg g > circle, #ring svg g > polygon, #ring svg g > rect").length'
        found += differs("its ring", tab.run(ring), 4)
        row = "document.querySelector(\"tr[data-m='{}']\").textContent"
        found += differs("a member that was killed", tab.until(row.format(1) + '.includes("gone")'), True)
        found += differs("a member that lies", tab.until(row.format(3) + '.includes("6")'), True)
        found += differs("a line for each event", tab.until('document.querySelectorAll("#feed li").length > 0'), True)
        tab.run("(() => { const $ = (id) => document.getElementById(id); $('pq').value = 100; "
                "document.querySelector('[name=bit][value=\"1\"]').checked = true; $('send').click(); })()")
        found += differs("its form", tab.until(f'{STATE}.states[100] === "1"'), True)
        found += differs("of all members", gateway.json("/v1/questions/100").get("bit"), 1)
        tab.run('document.getElementById("grid").focus()')
        tab.press("Home", "ArrowRight", "Enter")
        found += differs("a square by keys", tab.until('document.getElementById("says").textContent.startsWith("Question 1 is ")'), True)
        found += differs("it has no faults", tab.faults(), [])
        for width, height in ((360, 780), (900, 900), (1920, 1080)):
            tab.resize(width, height)
            time.sleep(0.2)
            found += differs(f"wider than {width}", tab.sideways(), 0)
            if PICTURES:
                tab.picture(f"{PICTURES}/gateway-{width}.png")
        found += differs("the gateway ends", gateway.end()[0], 0)
        found += differs("it says that it is gone", tab.until(f'{STATE}.gone && !document.getElementById("gone").hidden'), True)
        tab.close()
        return found


def main():
    hard = resource.getrlimit(resource.RLIMIT_NOFILE)[1]
    resource.setrlimit(resource.RLIMIT_NOFILE, (min(4096, hard), hard))
    room = tempfile.mkdtemp(prefix="bracha-gateway-")

    def run(numbered):
        number, function = numbered
        folder = f"{room}/{function.__name__}"
        os.makedirs(folder)
        try:
            return function, function(folder, 24300 + 12 * number)
        except Exception as error:  # pylint: disable=broad-except
            return function, [f"{type(error).__name__}: {error}"]

    failed = 0
    with concurrent.futures.ThreadPoolExecutor(4) as pool:
        for function, wrong in pool.map(run, enumerate(CHECKS)):
            failed += 1 if wrong else 0
            for line in wrong:
                print(f"{function.__name__}: {line}"[:600])
    shutil.rmtree(room)
    print(f"{len(CHECKS) - failed} passed, {failed} failed")
    sys.exit(1 if failed else 0)


if __name__ == "__main__":
    main()
