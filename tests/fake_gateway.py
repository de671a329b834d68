#!/usr/bin/env python3
"""A made-up gateway for tests of `crates/pages/html/live.html`: it serves plausible data and talks to no cluster.

    fake_gateway.py [--port 25000] [--n 4] [--questions 256] [--rate 8] [--seed 1] [--token FILE] [--done PART]
                    [--quiet-members] [--hostile] [--cluster 7] [--page live.html]

--done PART: this part of the questions (0 to 1) is decided at the start. --rate: decisions a second.
Member n - 1 contradicts the others now and then, one other goes away and comes back, and some links are down for a while; with
--quiet-members none of that happens. --hostile puts markup, wrong types and numbers out of range into what it tells.
POST /fake/members {"member":1,"state":"silent"} sets the state of a member. After POST /fake/mute {} the streams stay open and tell
nothing more.
"""
import argparse
import json
import os
import queue
import random
import re
import threading
import time
from http.server import BaseHTTPRequestHandler, ThreadingHTTPServer
from urllib.parse import parse_qs, urlsplit


ODD = '<img src=x onerror="window.hacked=1"><script>window.hacked=2</script>'
ODD_EVENTS = [f"event: {name}\ndata: {json.dumps(data)}\n\n" for name, data in [
    ("member", {"member": 0, "state": ODD}), ("decision", {"question": ODD, "bit": ODD, "ms": ODD, "time": ODD}),
    ("decision", {"question": 5000, "bit": 1}), ("contradiction", {"member": 1, "question": 3, "says": ODD}),
    ("spent", {"question": -1}), ("nonsense", {"a": ODD})]]
ODD_FIELDS = [(2, "state", ODD), (3, "statements", ODD), (4, "contradicts", ODD), (5, "member", ODD), (6, "in", ODD)]


class Cluster:
    """A cluster that isn't there, and who follows it."""

    def __init__(self, a):
        self.n, self.t, self.questions = a.n, (a.n - 1) // 3, a.questions
        self.random = random.Random(a.seed)
        self.lock = threading.Lock()
        self.life = "%08x" % random.SystemRandom().getrandbits(32)
        self.states = ["-"] * a.questions
        self.log = []                      # the events of all kinds, each with its number from 1: (name, data)
        self.hostile = a.hostile
        self.lately = [0] * 60
        self.listeners = []
        self.muted = False
        self.rate, self.quiet = a.rate, a.quiet_members
        self.members = [{"member": m, "state": "up", "in": a.n, "out": a.n, "statements": 0, "decided": 0, "contradicts": []}
                        for m in range(a.n)]
        now = int(time.time() * 1000)
        for q in range(int(a.questions * a.done)):
            if self.random.random() < 0.004:
                self.states[q] = "x"
            elif self.random.random() < 0.02:
                self.states[q] = "p"
            else:
                self.decide(q, now - self.random.randrange(10 ** 7), count=False)
        self.hand = {}

    def told_members(self):
        """The members as they are told: a hostile gateway gives five of seven a field that is wrong."""
        told = [dict(it) for it in self.members]
        if self.hostile:
            for member, field, value in ODD_FIELDS:
                told[member][field] = value
        return told

    def text_of(self, number):
        """The event of that number."""
        name, data = self.log[number - 1]
        return f"id: {self.life}.{number}\nevent: {name}\ndata: {json.dumps(data, separators=(',', ':'))}\n\n"

    def tell(self, name, data):
        self.log.append((name, data))
        self.send(self.text_of(len(self.log)))
        if self.hostile and name == "decision":
            for odd in ODD_EVENTS:
                self.send(odd)

    def send(self, text):
        if self.muted:
            return
        for listener in list(self.listeners):
            try:
                listener.put_nowait(text)
            except queue.Full:             # one that doesn't read is closed, never waited for
                self.listeners.remove(listener)
                listener.dead = True

    def decide(self, q, at, count=True, bit=None):
        bit = self.random.randrange(2) if bit is None else bit
        ms = 8 + int(self.random.expovariate(1 / 20))
        self.states[q] = str(bit)
        for m in self.members:
            if m["state"] == "up":
                m["decided"] += 1
                m["statements"] += 6 * self.n + 3 + self.random.randrange(3)
        if count:
            self.lately[-1] += 1
            self.tell("decision", {"question": q, "bit": bit, "ms": ms, "time": at})
        last = self.members[-1]
        if not self.quiet and self.n > 3 and self.random.random() < 0.01 and len(last["contradicts"]) < 40:
            last["contradicts"].append({"question": q, "says": 1 - bit})
            if count:
                self.tell("contradiction", {"member": last["member"], "question": q, "says": 1 - bit})

    def run(self):
        ticks = 0
        due = 0.0
        while True:
            time.sleep(0.1)
            ticks += 1
            with self.lock:
                if ticks % 10 == 0:
                    self.lately = self.lately[1:] + [0]
                if ticks % 50 == 0:
                    self.send(f'event: beat\ndata: {{"time":{int(time.time() * 1000)}}}\n\n')
                if not self.quiet and ticks % 40 == 0:
                    self.trouble()
                up = sum(m["state"] == "up" for m in self.members)
                due += self.rate / 10 * (0.5 + self.random.random())
                while due >= 1 and up >= self.n - self.t:
                    due -= 1
                    opened = [q for q, s in enumerate(self.states) if s == "p"]
                    if len(opened) < 12:
                        for q in range(self.questions):
                            if self.states[q] == "-":
                                self.states[q] = "p"
                                opened.append(q)
                                self.tell("proposed", {"question": q})
                                break
                    if opened and (len(opened) > 6 or "-" not in self.states):
                        q = self.random.choice(opened)
                        if self.random.random() < 0.003:
                            self.states[q] = "x"
                            self.tell("spent", {"question": q})
                        else:
                            self.decide(q, int(time.time() * 1000))
                due = min(due, 50)

    def trouble(self):
        n = self.n
        if n < 4:
            return
        one = self.members[1]
        if 1 not in self.hand and self.random.random() < 0.4:
            one["state"] = "up" if one["state"] != "up" else "silent"
            if one["state"] == "up":       # it catches up
                one["decided"] = self.members[0]["decided"]
                one["statements"] = self.members[0]["statements"] + self.random.randrange(20)
            self.tell("member", {"member": 1, "state": one["state"]})
        gone = {m["member"] for m in self.members if m["state"] == "silent"}
        coming, going = [set(gone) for _ in range(n)], [set(gone) for _ in range(n)]      # of each member: whose link with it is down
        for _ in range(max(1, n // 8)):
            if self.random.random() < 0.6:
                a, b = self.random.sample(range(n), 2)
                going[a].add(b)
                coming[b].add(a)
        for m, no_in, no_out in zip(self.members, coming, going):
            m["in"], m["out"] = n - len(no_in), n - len(no_out)


def handler(cluster, a, token, page):
    script = re.search(r"script-src ('sha256-[^']*')", page)[1]
    style = re.search(r"style-src ('sha256-[^']*')", page)[1]
    policy = (f"default-src 'none'; connect-src 'self'; script-src {script}; style-src {style}; img-src data:; base-uri 'none'; "
              "form-action 'none'; frame-ancestors 'none'; require-trusted-types-for 'script'; trusted-types 'none'")
    names = {f"{host}:{a.port}" for host in ("127.0.0.1", "localhost", "[::1]")}

    class Handler(BaseHTTPRequestHandler):
        protocol_version = "HTTP/1.1"

        def log_message(self, *words):
            pass

        def reply(self, status, body, kind="application/json"):
            data = body.encode() if isinstance(body, str) else json.dumps(body, separators=(",", ":")).encode()
            self.send_response(status)
            self.send_header("Content-Type", kind)
            self.send_header("Content-Length", str(len(data)))
            self.send_header("Cache-Control", "no-store")
            self.send_header("X-Content-Type-Options", "nosniff")
            self.send_header("Referrer-Policy", "no-referrer")
            self.send_header("Cross-Origin-Resource-Policy", "same-origin")
            if kind.startswith("text/html"):
                self.send_header("Content-Security-Policy", policy)
            self.end_headers()
            self.wfile.write(data)

        def good_host(self):               # another name that leads here is a page of somebody else
            if self.headers.get("Host") in names:
                return True
            self.reply(421, {"error": "host"})
            return False

        def do_GET(self):
            if not self.good_host():
                return
            url = urlsplit(self.path)
            words = parse_qs(url.query)
            if url.path == "/":
                return self.reply(200, page, "text/html; charset=utf-8")
            if url.path == "/v1/members":
                with cluster.lock:
                    body = {"cluster": a.cluster, "n": cluster.n, "t": cluster.t, "questions": cluster.questions,
                            "propose": "token" if token else "open", "members": cluster.told_members()}
                    text = json.dumps(body, separators=(",", ":"))
                return self.reply(200, text)
            if url.path == "/v1/questions":
                start, end = int(words.get("from", ["0"])[0]), int(words.get("to", [str(cluster.questions)])[0])
                with cluster.lock:
                    body = {"questions": cluster.questions, "from": start, "to": end, "life": cluster.life,
                            "after": len(cluster.log), "lately": cluster.lately, "states": "".join(cluster.states[start:end])}
                return self.reply(200, body)
            if re.fullmatch(r"/v1/questions/\d{1,5}", url.path):
                return self.question(int(url.path.rsplit("/", 1)[1]))
            if url.path == "/v1/decisions":
                return self.follow(words)
            self.reply(404, {"error": "path"})

        def question(self, q):
            if q >= cluster.questions:
                return self.reply(404, {"error": "question"})
            with cluster.lock:
                s = cluster.states[q]
                says = []
                for m in cluster.members:
                    if m["state"] != "up":
                        continue
                    other = [c["says"] for c in m["contradicts"] if c["question"] == q]
                    says.append({"member": m["member"], "says": other[0] if other else int(s) if s in "01" else None})
            body = {"question": q, "state": {"-": "unproposed", "p": "proposed", "x": "spent"}.get(s, "decided"), "members": says}
            if s in "01":
                body["bit"] = int(s)
            self.reply(200, body)

        def follow(self, words):
            last = self.headers.get("Last-Event-ID") or words.get("after", [""])[0]
            life, _, number = last.partition(".")
            self.send_response(200)
            self.send_header("Content-Type", "text/event-stream")
            self.send_header("Cache-Control", "no-store")
            self.send_header("X-Content-Type-Options", "nosniff")
            self.send_header("Connection", "close")
            self.end_headers()
            self.close_connection = True
            mine = queue.Queue(maxsize=5000)
            mine.dead = False
            text = "retry: 2000\n\n"
            with cluster.lock:
                if life != cluster.life or not number.isdigit():
                    text += f"id: {cluster.life}.{len(cluster.log)}\nevent: restarted\ndata: {{}}\n\n"
                else:
                    text += "".join(cluster.text_of(k) for k in range(int(number) + 1, len(cluster.log) + 1))
                cluster.listeners.append(mine)
            try:
                self.wfile.write(text.encode())
                while not mine.dead:
                    part = mine.get()
                    while not mine.empty() and len(part) < 60000:
                        part += mine.get()
                    self.wfile.write(part.encode())
            except OSError:
                pass
            with cluster.lock:
                if mine in cluster.listeners:
                    cluster.listeners.remove(mine)

        def do_POST(self):
            if not self.good_host():
                return
            length = self.headers.get("Content-Length", "")
            if not length.isdigit() or int(length) > 1000:
                self.close_connection = True
                return self.reply(413, "")
            body = self.rfile.read(int(length))
            origin = self.headers.get("Origin")
            if origin is not None and origin.partition("://")[2] not in names:
                return self.reply(403, {"error": "origin"})
            if self.headers.get("Content-Type", "").split(";")[0] != "application/json":
                return self.reply(415, {"error": "content-type"})
            if token and self.headers.get("Authorization") != "Bearer " + token:
                return self.reply(401, {"error": "token"})
            try:
                body = json.loads(body)
            except ValueError:
                return self.reply(400, {"error": "body"})
            if self.path == "/fake/members":
                with cluster.lock:
                    cluster.hand[body["member"]] = True
                    cluster.members[body["member"]]["state"] = body["state"]
                    cluster.tell("member", {"member": body["member"], "state": body["state"]})
                return self.reply(200, {})
            if self.path == "/fake/mute":
                with cluster.lock:
                    cluster.muted = True
                return self.reply(200, {})
            match = re.fullmatch(r"/v1/questions/(\d{1,5})", self.path)
            if not match or int(match[1]) >= cluster.questions:
                return self.reply(404, {"error": "question"})
            if body not in ({"bit": 0}, {"bit": 1}) or isinstance(body["bit"], bool):
                return self.reply(400, {"error": "body"})
            q = int(match[1])
            with cluster.lock:
                s = cluster.states[q]
                up = sum(m["state"] == "up" for m in cluster.members)
                if s in "01":
                    return self.reply(200, {"question": q, "state": "decided", "bit": int(s), "taken": 0, "have": up})
                if s == "-":
                    cluster.states[q] = "p"
                    cluster.tell("proposed", {"question": q})
            self.reply(202, {"question": q, "state": "proposed", "taken": up if s == "-" else 0, "have": 0 if s == "-" else up})

    return Handler


def main():
    words = argparse.ArgumentParser()
    words.add_argument("--port", type=int, default=25000)
    words.add_argument("--n", type=int, default=4)
    words.add_argument("--questions", type=int, default=256)
    words.add_argument("--rate", type=float, default=8)
    words.add_argument("--done", type=float, default=0.3)
    words.add_argument("--seed", type=int, default=1)
    words.add_argument("--token")
    words.add_argument("--quiet-members", action="store_true")
    words.add_argument("--hostile", action="store_true")
    words.add_argument("--cluster", type=int, default=7)
    words.add_argument("--page", default=os.path.join(os.path.dirname(os.path.abspath(__file__)), "..", "crates", "pages", "html", "live.html"))
    a = words.parse_args()
    token = open(a.token, encoding="utf-8").read().strip() if a.token else None
    with open(a.page, encoding="utf-8") as file:
        page = file.read()
    cluster = Cluster(a)
    threading.Thread(target=cluster.run, daemon=True).start()
    server = ThreadingHTTPServer(("127.0.0.1", a.port), handler(cluster, a, token, page))
    server.daemon_threads = True
    print(f"fake gateway at http://127.0.0.1:{a.port}/", flush=True)
    try:
        server.serve_forever()
    except KeyboardInterrupt:
        pass


if __name__ == "__main__":
    main()
