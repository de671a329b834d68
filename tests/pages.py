#!/usr/bin/env python3
"""tests/pages.py [PROGRAM]

Tries both pages of the program in headless Chromium: `bracha simulate --page` with worked scripts and with drawn ones, against the
object that tests/reference/page.py makes of the trace, and the page of a cluster against made-up gateways. PROGRAM is
crates/bracha/out/bracha unless another is named. Needs Debian's chromium, which is installed if CI is set and it is missing; it
takes the ports 28300 to 28309 and a minute. With PAGES_PICTURES=FOLDER it leaves pictures there. Prints what is wrong, and in
its last line `N passed, M failed`; the status is 1 where M isn't 0.
"""
import contextlib
import json
import os
import re
import subprocess
import sys
import tempfile
import time
import urllib.request

import browser
from reference import page as reference

TOP = os.path.dirname(os.path.dirname(os.path.realpath(__file__)))
PROGRAM = os.path.realpath(sys.argv[1] if len(sys.argv) > 1 else f"{TOP}/crates/bracha/out/bracha")
PICTURES = os.environ.get("PAGES_PICTURES")
SIZES = ((360, 780), (900, 900), (1920, 1080))
RUN = '<script type="application/json" id="run">\n'
READY = 'document.documentElement.dataset.ready === "yes"'
HEAD = "n {}\nt {}\nquestions {}\nliars{}\nseed {}\n"
NASTY = "</script><img src=x onerror=window.hacked=1>\"\\\u00e9.script".replace("/", "\u2215")

# Scripts beside the worked ones: of several sizes, with liars, crashes, disks that fail, groups, both bits and several questions.
SCRIPTS = {
    "nothing": HEAD.format(1, 0, 1, "", 1),
    "two-liars": HEAD.format(7, 2, 3, " 5 6", 7) + "".join(f"propose {m} {q} {(m + q) % 2}\n" for m in range(5) for q in range(3)) + "random 4000\nrounds 20\n",
    "fair": HEAD.format(4, 1, 2, " 3", 11) + "fair 3000\n",
    "fuses": HEAD.format(4, 1, 1, "", 3) + "propose 0 0 1\nfuse 1 3\npropose 1 0 1\npropose 2 0 0\npropose 3 0 0\nrounds 6\ncrash 1 fill 5a\nfuse 2 0\n"
             "rounds 2\ncrash 2 kept\nrestart 1\nrestart 2\nfuse 1 off\nreset 0 1\nrounds 30\n",
    "cut-lies": HEAD.format(4, 1, 2, " 3", 5) + "propose 0 0 1\nlie 3 0 00080301\nlie 3 0 000003010101\nlie 3 1 001004020100000301010001000103010100\n"
                "lie 3 2 0001000009020000000000000000\nlie 3 2 000803020001030101010008\nreset 3 2\nlie 3 2 00080302000103010101\nlie 3 1 ff\nlie 3 1 000100\nrestart 1\n"
                "crash 1 lost\nrestart 1\nlie 3 1 00080301000003010201\n",
    "groups": HEAD.format(4, 1, 1, " 2", 9) + "".join(f"propose {m} 0 0\n" for m in (0, 1, 3)) + "".join(
        f"group {a} {b} 256\n" for _ in range(12) for a in (0, 1, 3) for b in (0, 1, 3)),
    "many": HEAD.format(64, 21, 1, "".join(f" {m}" for m in range(43, 64)), 2) + "".join(f"propose {m} 0 {m % 2}\n" for m in range(43)) + "random 3000\n",
    "long": HEAD.format(4, 1, 4096, "", 1) + "".join(f"propose {m} {q} {q % 2}\n" for q in range(300) for m in range(4)) + "rounds 2000\n",
}

# In a page of a run: each statement and decision that a member says is lawful by what the page believes that the member has heard.
LAWFUL = r"""(() => {
  const b = window.brachaRun, R = b.R, n = R.n, t = R.t, quorum = Math.floor((n + t) / 2) + 1, wrong = [];
  let said = 0, decided = 0;
  R.events.forEach((ev, i) => {
    const e = i + 1, saved = ev[ev.length - 1];
    if (!saved.length || "rp".includes(ev[1]) || (e > 3000 && e % 7)) return;
    const m = "digls".includes(ev[1]) ? ev[3] : ev[2];
    for (const c of saved) {
      if (c < 0) {
        const d = b.decisionOf(c), v = b.validOf(b.know(m, d.q, e), d.r)[(d.r - 1) * 3 + 2];
        decided++;
        if (v.tally[d.bit] < 2 * t + 1) wrong.push([ev[0], "decision"]);
        continue;
      }
      const kind = Math.floor(c / 5) % 3, p = Math.floor(c / 15), v = c % 5, step = p % 4, round = Math.floor(p / 4) % 64, q = Math.floor(p / 16384);
      const k = b.know(m, q, e), at = k.places.get(p) || { initial: -1, echo: [0, 0, 0, 0, 0], ready: [0, 0, 0, 0, 0] };
      const due = at.echo[v] >= quorum || at.ready[v] >= t + 1;
      said++;
      if (kind === 1 && !(at.initial === v || due)) wrong.push([ev[0], "Echo"]);
      if (kind === 2 && !due) wrong.push([ev[0], "Ready"]);
      if (kind === 0 && (round > 1 || step > 1)) {
        const before = step > 1 ? [round, step - 1] : [round - 1, 3], x = b.validOf(k, before[0])[(before[0] - 1) * 3 + before[1] - 1];
        if (!b.gives(before[1], x.tally, v)) wrong.push([ev[0], "Initial"]);
      }
    }
  });
  return { said, decided, wrong: wrong.slice(0, 5) };
})()"""


class Checks:
    """What was looked at, and what of it is wrong."""

    def __init__(self):
        self.passed = self.failed = 0

    def same(self, what, found, wanted):
        if found == wanted:
            self.passed += 1
        else:
            self.failed += 1
            print(f"{what}: {str(found)[:300]!r}, and not {str(wanted)[:300]!r}", flush=True)


def played(folder, name, script):
    """The page of a script's run, and its trace, as files."""
    path, trace, page = (f"{folder}/{it}" for it in (name, f"{name}.trace", f"{name}.html"))
    with open(path, "w", encoding="utf-8") as file:
        file.write(script)
    subprocess.run([PROGRAM, "simulate", "--trace", trace, "--page", page, path], check=True, stdout=subprocess.DEVNULL, timeout=60)
    return path, trace, page


def parts_of(page):
    """A page up to its run, the run, and the rest, as a browser reads it: the element ends at the first end of a script."""
    with open(page, encoding="utf-8") as file:
        before, rest = file.read().split(RUN, 1)
    end = rest.index("</script>")
    return before, rest[:end], rest[end:]


TEMPLATE = parts_of(f"{TOP}/crates/pages/html/play.html")[::2]


def check_object(checks, script, trace, page):
    """The run in the page is the object that the reference makes of the trace."""
    before, run, after = parts_of(page)
    name = os.path.basename(script)
    checks.same(f"{name}: the page around its run", (before, after), TEMPLATE)
    checks.same(f"{name}: its run", run, reference.object_of(script, trace, name))
    return json.loads(run)


def picture(page, name):
    if PICTURES:
        os.makedirs(PICTURES, exist_ok=True)
        page.picture(f"{PICTURES}/{name}.png")


def check_sizes(checks, tab, name):
    for width, height in SIZES:
        tab.resize(width, height)
        time.sleep(0.15)
        checks.same(f"{name}, {width} pixels: wider than the window by", tab.sideways(), 0)
        picture(tab, f"{name}-{width}")


def check_run(checks, chromium, page, run, dark):
    """A page of a run, looked at in the browser."""
    name = run["name"]
    with contextlib.closing(chromium.page(f"file://{page.replace('%', '%25').replace('?', '%3f')}", dark=dark)) as tab:
        checks.same(f"{name}: ready", tab.until(READY, 30), True)
        checks.same(f"{name}: events", tab.run("document.documentElement.dataset.events"), str(len(run["rows"]) - 1))
        checks.same(f"{name}: title", tab.run("document.title"), "Run of " + name)
        checks.same(f"{name}: members", tab.run('document.querySelectorAll("#stage g[data-m]").length'), run["n"])
        checks.same(f"{name}: six-sided members", tab.run('document.querySelectorAll("#stage g[data-m] > polygon").length'), len(run["liars"]))
        checks.same(f"{name}: decisions", tab.run('document.querySelectorAll("#decisions tr").length'), min(200, len(run["decided"]) - 1))
        lawful = tab.run(LAWFUL)
        checks.same(f"{name}: said unlawfully", lawful["wrong"], [])
        checks.same(f"{name}: markup was read", tab.run("[window.hacked ?? null, document.images.length]"), [None, 0])
        check_keys(checks, tab, name, len(run["rows"]) - 1)
        check_sizes(checks, tab, name)
        checks.same(f"{name}: unnamed controls", tab.unnamed(), [])
        checks.same(f"{name}: console", tab.faults(), [])


def check_keys(checks, tab, name, events):
    """The keyboard, the slider, and the view in columns."""
    at = "window.brachaRun.at()"
    tab.press("End")
    checks.same(f"{name}: End", tab.run(at), events)
    tab.press("Home")
    checks.same(f"{name}: Home", tab.run(at), 0)
    tab.press("ArrowRight")
    checks.same(f"{name}: one event on", tab.run(at), min(1, events))
    if tab.run("window.brachaRun.kinds.decision.length"):
        tab.press("d")
        checks.same(f"{name}: to a decision", tab.run("window.brachaRun.kinds.decision[0]"), tab.run(at))
        checks.same(f"{name}: told", "decided" in tab.run('document.getElementById("now").textContent'), True)
    tab.run(f'(() => {{ const s = document.getElementById("slide"); s.value = {events}; s.oninput(); }})()')
    checks.same(f"{name}: slider", tab.run(at), events)
    tab.run('document.getElementById("chart").click()')
    checks.same(f"{name}: a row of the columns", tab.run('document.querySelectorAll("#stage svg text").length > 0'), True)
    tab.press("Home", " ")
    if events:
        checks.same(f"{name}: plays", tab.until(f"{at} > 0"), True)
        tab.press(" ")


@contextlib.contextmanager
def gateway(port, *words):
    """A made-up gateway at that port."""
    process = subprocess.Popen([sys.executable, f"{TOP}/tests/fake_gateway.py", "--port", str(port), *words], stdout=subprocess.PIPE, text=True)
    process.stdout.readline()
    try:
        yield process
    finally:
        process.kill()
        process.wait()
        process.stdout.close()


def post(url, body, **heads):
    """The status of a POST."""
    asked = urllib.request.Request(url, json.dumps(body).encode(), {"Content-Type": "application/json", **heads})
    try:
        with urllib.request.urlopen(asked, timeout=5) as answer:
            return answer.status
    except urllib.error.HTTPError as fault:
        return fault.code


STATE = "window.brachaLive.state()"


def check_live(checks, chromium, port, n, questions, dark):
    """The page of a cluster: its squares, members, events and proposals."""
    url = f"http://127.0.0.1:{port}/"
    name = f"live {n}"
    with contextlib.closing(chromium.page(url, dark=dark)) as tab:
        checks.same(f"{name}: members", tab.until(f'{READY} && document.querySelectorAll("#members tr").length === {n}'), True)
        state = tab.run(STATE)
        checks.same(f"{name}: questions", (state["Q"], len(state["states"]), sum(state["tally"].values())), (questions,) * 3)
        checks.same(f"{name}: ring", tab.run('document.querySelectorAll("#ring svg g > circle, #ring svg g > polygon, #ring svg g > rect").length'), n)
        checks.same(f"{name}: an event", tab.until('document.querySelector("#feed li") !== null'), True)
        tab.run('document.getElementById("grid").focus()')
        tab.press("Home", "ArrowRight", "ArrowRight")
        checks.same(f"{name}: the square", tab.run(f"{STATE}.cursor"), 2)
        checks.same(f"{name}: read out", tab.run('document.getElementById("grid").getAttribute("aria-valuetext")').startswith("Question 2: "), True)
        tab.press("Enter")
        checks.same(f"{name}: asked", tab.until('document.getElementById("says").textContent.startsWith("Question 2 is ")'), True)
        check_sizes(checks, tab, name)
        checks.same(f"{name}: unnamed controls", tab.unnamed(), [])
        checks.same(f"{name}: console", tab.faults(), [])


def check_propose(checks, chromium, port, folder):
    """The form: without the token, and with it."""
    with open(f"{folder}/token", "w", encoding="ascii") as file:
        file.write("s3cret\n")
    told = 'document.getElementById("said").textContent'
    with gateway(port, "--rate", "0", "--quiet-members", "--token", f"{folder}/token"):
        with contextlib.closing(chromium.page(f"http://127.0.0.1:{port}/")) as tab:
            tab.until(f"{READY} && {STATE}.Q > 0")
            for token, words in (("", "Refused: the token is missing"), ("wrong", "Refused: the token is missing"), ("s3cret", "Proposed 1 for question 200")):
                tab.run(f'(() => {{ const $ = (id) => document.getElementById(id); $("pq").value = 200; $("token").value = "{token}"; '
                        '$("said").textContent = ""; document.querySelector("[name=bit][value=\'1\']").checked = true; $("send").click(); })()')
                checks.same(f"propose with {token!r}", tab.until(f'{told}.startsWith("{words}")'), True)
            checks.same("propose: its square", tab.until(f'{STATE}.states[200] === "p"'), True)
            checks.same("propose: console", tab.faults(allowed=["401"]), [])
    with gateway(port, "--rate", "0", "--quiet-members"):
        for heads, status in (({}, 202), ({"Origin": "http://elsewhere.example"}, 403), ({"Host": "elsewhere.example"}, 421)):
            checks.same(f"propose with {heads}", post(f"http://127.0.0.1:{port}/v1/questions/209", {"bit": 0}, **heads), status)


def check_gone(checks, chromium, port):
    """A gateway that goes away and comes back, started anew."""
    url, banner = f"http://127.0.0.1:{port}/", 'document.getElementById("gone")'
    with contextlib.ExitStack() as stack:
        with gateway(port, "--rate", "20"):
            tab = stack.enter_context(contextlib.closing(chromium.page(url)))
            checks.same("gone: at first", tab.until(f"{READY} && {STATE}.n === 4 && !{STATE}.gone"), True)
            life = tab.run(f"{STATE}.life")
            post(url + "fake/members", {"member": 2, "state": "stopped"})
            checks.same("gone: a member is stopped", tab.until('document.querySelector("tr[data-m=\'2\']").textContent.includes("stopped")'), True)
        checks.same("gone: told", tab.until(f"{STATE}.gone && !{banner}.hidden"), True)
        picture(tab, "gone")
        with gateway(port, "--rate", "20"):
            checks.same("gone: back", tab.until(f"!{STATE}.gone && {banner}.hidden && {STATE}.life !== '{life}'", 30), True)
            checks.same("gone: console", tab.faults(allowed=["ERR_CONNECTION_REFUSED", "ERR_INCOMPLETE_CHUNKED", "ERR_CONNECTION_RESET", "ERR_EMPTY_RESPONSE"]), [])


def check_silent(checks, chromium, port):
    """A stream that stays open and tells nothing: the page loads the squares anew. A cluster's number is shown whole."""
    url, decided = f"http://127.0.0.1:{port}/", f"{STATE}.tally[0] + {STATE}.tally[1]"
    with gateway(port, "--rate", "2", "--done", "0", "--quiet-members", "--cluster", str(2 ** 63 - 1)):
        with contextlib.closing(chromium.page(url)) as tab:
            name = f'document.getElementById("name").textContent === "bracha cluster {2 ** 63 - 1}"'
            checks.same("silent: its number", tab.until(f"{READY} && {name}"), True)
            checks.same("silent: decisions", tab.until(f"{decided} > 0"), True)
            checks.same("silent: muted", post(url + "fake/mute", {}), 200)
            before = tab.run(decided)
            checks.same("silent: loaded anew", tab.until(f"{decided} > {before} + 4", 30), True)
            checks.same("silent: console", tab.faults(), [])


def check_hostile(checks, chromium, port):
    """A gateway that tells markup, wrong types and numbers out of range."""
    with gateway(port, "--n", "7", "--questions", "2048", "--rate", "5", "--hostile"):
        with contextlib.closing(chromium.page(f"http://127.0.0.1:{port}/")) as tab:
            checks.same("hostile: events", tab.until(f"{READY} && {STATE}.feed > 2"), True)
            checks.same("hostile: markup was read", tab.run("[window.hacked ?? null, document.images.length]"), [None, 0])
            checks.same("hostile: gone", tab.run(f"{STATE}.gone"), False)
            checks.same("hostile: console", tab.faults(), [])


def check_runs(checks, chromium, folder):
    scripts = dict(SCRIPTS)
    examples = f"{TOP}/crates/bracha/examples"
    for name in sorted(os.listdir(examples)):
        with open(f"{examples}/{name}", encoding="utf-8") as file:
            scripts[name] = file.read()
    scripts[NASTY] = scripts["small.script"]
    for number, (name, script) in enumerate(scripts.items()):
        path, trace, page = played(folder, name, script)
        run = check_object(checks, path, trace, page)
        checks.same(f"{name}: its name", run["name"], name)
        if chromium:
            plain = f"{folder}/{number}.html"
            os.rename(page, plain)
            check_run(checks, chromium, plain, run, number % 2 == 1)


def check_pages(checks, chromium, folder):
    with gateway(28300), gateway(28301, "--n", "64", "--questions", "4096", "--rate", "40", "--done", "0.5"):
        check_live(checks, chromium, 28300, 4, 256, False)
        check_live(checks, chromium, 28301, 64, 4096, True)
    check_propose(checks, chromium, 28302, folder)
    check_gone(checks, chromium, 28303)
    check_hostile(checks, chromium, 28304)
    check_silent(checks, chromium, 28305)


def main():
    checks = Checks()
    program = browser.find()
    if program is None:
        print("tests/pages.py: chromium is missing, so no page is looked at: apt-get install chromium")
    with tempfile.TemporaryDirectory() as folder, contextlib.ExitStack() as stack:
        chromium = stack.enter_context(contextlib.closing(browser.Browser(program))) if program else None
        check_runs(checks, chromium, folder)
        if chromium:
            check_pages(checks, chromium, folder)
    print(f"{checks.passed} passed, {checks.failed} failed")
    return 1 if checks.failed else 0


if __name__ == "__main__":
    sys.exit(main())
