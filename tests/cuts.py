#!/usr/bin/env python3
"""tests/cuts.py [--clusters K] [--seed S] [--limit L] [PROGRAM]

Members of a cluster, each on a host of its own, on a network that fails and comes back. In each scene n - t members can
reach each other by new connections from some moment on, whatever becomes of the old ones, and have to decide within L
seconds (3) of it:

- a firewall forgets one connection: nothing that one member sends on it arrives any more, and new ones pass;
- what one member sends on its link to another is dropped for 2, 4, 7, 10 and 20 seconds;
- one host of four is cut off for 6 to 9.5 seconds, and two of four, so that no side can decide;
- K clusters (20) of four or seven members: pairs of them are cut and healed, one way and both, and members are killed and
  started again, for 8 to 20 seconds; then n - t can reach each other, and what the others can reach is left to chance. What
  this does goes by the seed S + i (S is 1).

In the end the journals are compared: no two members decided a question differently, and none said a statement twice.

The hosts are network namespaces on a bridge, which are taken away again. It wants root, iproute2 and nftables, and some 15
minutes; the machine should have nothing else to do. PROGRAM is crates/bracha/out/bracha unless another is named. The last
line is `N passed, M failed`.
"""
import argparse
import contextlib
import os
import random
import shutil
import socket
import statistics
import subprocess
import sys
import tempfile
import time

TOP = os.path.dirname(os.path.dirname(os.path.realpath(__file__)))
HOSTS, LINKS, DESK = 7, 21700, 21710
BRIDGE = f"cuts-{os.getpid()}-bridge"


def sh(words, check=True):
    return subprocess.run(words.split(), check=check, capture_output=True, text=True).stdout


def host(me):
    """The name of the namespace that is member me's host."""
    return f"cuts-{os.getpid()}-{me}"


def address(me):
    return f"10.77.0.{me + 1}"


class Network:
    """Seven hosts on a bridge. What a host takes in is filtered by two sets: hosts that it hears nothing from, and
    connections."""

    def __init__(self):
        self.cut_ways = set()
        sh(f"ip netns add {BRIDGE}")
        sh(f"ip -n {BRIDGE} link add hub type bridge")
        sh(f"ip -n {BRIDGE} link set hub up")
        for me in range(HOSTS):
            self.add_host(me)

    @staticmethod
    def add_host(me):
        sh(f"ip netns add {host(me)}")
        sh(f"ip -n {host(me)} link set lo up")
        sh(f"ip link add line netns {host(me)} type veth peer name to{me} netns {BRIDGE}")
        sh(f"ip -n {BRIDGE} link set to{me} master hub")
        sh(f"ip -n {BRIDGE} link set to{me} up")
        sh(f"ip -n {host(me)} addr add {address(me)}/24 dev line")
        sh(f"ip -n {host(me)} link set line up")
        Network.filter(me, "add table inet cuts")
        Network.filter(me, "add set inet cuts hosts { type ipv4_addr; }")
        Network.filter(me, "add set inet cuts flows { type ipv4_addr . inet_service; }")
        Network.filter(me, "add chain inet cuts in { type filter hook input priority 0; }")
        Network.filter(me, "add rule inet cuts in ip saddr @hosts drop")
        Network.filter(me, "add rule inet cuts in ip saddr . tcp sport @flows drop")

    @staticmethod
    def filter(me, command):
        subprocess.run(["ip", "netns", "exec", host(me), "nft", command], check=True, capture_output=True)

    def cut(self, here, there):
        """What the first says the second doesn't hear any more."""
        if (here, there) not in self.cut_ways:
            self.cut_ways.add((here, there))
            self.filter(there, f"add element inet cuts hosts {{ {address(here)} }}")

    def heal(self, here, there):
        if (here, there) in self.cut_ways:
            self.cut_ways.discard((here, there))
            self.filter(there, f"delete element inet cuts hosts {{ {address(here)} }}")

    def forget_link(self, here, there):
        """The connection of the link from the first to the second is forgotten: what comes on it is dropped."""
        found = sh(f"ip netns exec {host(here)} ss -tnH state established dst {address(there)} dport = {LINKS}").splitlines()
        for line in found:
            port = line.split()[2].rpartition(":")[2]
            self.filter(there, f"add element inet cuts flows {{ {address(here)} . {port} }}")

    @staticmethod
    def drop_links(here, there):
        """What the first sends to the second's door for links is dropped, on old and new connections."""
        Network.filter(there, f"add rule inet cuts in ip saddr {address(here)} tcp dport {LINKS} drop")

    @staticmethod
    def plug(me, is_in):
        sh(f"ip -n {BRIDGE} link set to{me} {'up' if is_in else 'down'}")

    def mend(self):
        """All is as it was in the beginning."""
        for here, there in list(self.cut_ways):
            self.heal(here, there)
        for me in range(HOSTS):
            self.plug(me, True)
            self.filter(me, "flush set inet cuts flows")
            self.filter(me, "flush chain inet cuts in")
            self.filter(me, "add rule inet cuts in ip saddr @hosts drop")
            self.filter(me, "add rule inet cuts in ip saddr . tcp sport @flows drop")

    @staticmethod
    def remove():
        for name in [*map(host, range(HOSTS)), BRIDGE]:
            sh(f"ip netns del {name}", check=False)


class Cluster:
    """The members of a cluster in a new folder. Clients reach their desks by Unix sockets, through any cut."""

    def __init__(self, program, folder, n, questions):
        self.program, self.folder, self.n, self.running = program, folder, n, {}
        peers = ", ".join(f'"{address(it)}:{LINKS}"' for it in range(n))
        for me in range(n):
            with open(f"{folder}/member-{me}.toml", "w", encoding="ascii") as file:
                file.write(f'cluster = 7\nn = {n}\nt = {(n - 1) // 3}\nquestions = {questions}\nme = {me}\npeers = [{peers}]\n'
                           f'journal = "{folder}/journal-{me}"\ndesk = "127.0.0.1:{DESK}"\ndesk-socket = "{folder}/desk-{me}"\n'
                           f'seed = "{me + 1:064x}"\n')
            subprocess.run([program, "init", f"{folder}/member-{me}.toml"], check=True)
            self.start(me)

    def start(self, me):
        with contextlib.suppress(FileNotFoundError):
            os.remove(f"{self.folder}/desk-{me}")
        with open(f"{self.folder}/log-{me}", "a", encoding="utf-8") as log:
            words = ["ip", "netns", "exec", host(me), self.program, "run", "--stay", "--log", f"{self.folder}/member-{me}.toml"]
            member = subprocess.Popen(words, stdin=subprocess.DEVNULL, stdout=subprocess.PIPE, stderr=log)
        assert member.stdout.readline() == b"member %d ready\n" % me, f"member {me} isn't ready"
        self.running[me] = member

    def kill(self, me):
        member = self.running.pop(me)
        member.kill()
        member.wait()

    def say(self, me, lines):
        """The replies of a member to these lines of a client; none where it doesn't answer."""
        if not lines:
            return []
        try:
            with socket.socket(socket.AF_UNIX, socket.SOCK_STREAM) as client:
                client.settimeout(5)
                client.connect(f"{self.folder}/desk-{me}")
                client.sendall("".join(f"{it}\n" for it in lines).encode())
                with client.makefile("r", encoding="ascii") as replies:
                    return [replies.readline().rstrip("\n") for _ in lines]
        except OSError:
            return []

    def propose(self, members, questions, bits):
        """Has each of these members propose the bit of each question. One that listens still is asked again."""
        for me in members:
            lines = [f"PROPOSE {it} {bits(it, me)}" for it in questions]
            end = time.monotonic() + 20
            while not all(it == "OK" or it.startswith("HAVE") for it in self.say(me, lines) or [""]):
                assert time.monotonic() < end, f"member {me} takes no proposal"
                time.sleep(0.05)

    def decided(self, members, questions, limit):
        """After how many seconds all these members have decided all these questions; none where they haven't by then."""
        start, left = time.monotonic(), {me: list(questions) for me in members}
        while any(left.values()):
            if time.monotonic() - start > limit:
                return None
            for me, open_ones in left.items():
                replies = self.say(me, [f"ASK {it}" for it in open_ones])
                left[me] = [it for it, said in zip(open_ones, replies) if not said.startswith("DEC")] if replies else open_ones
            time.sleep(0.02)
        return time.monotonic() - start

    def end(self):
        for me in list(self.running):
            self.kill(me)

    def contradictions(self):
        """What the journals have that no two journals may have, and none."""
        verdicts, found = {}, []
        for me in range(self.n):
            said = {}
            dump = subprocess.run([self.program, "dump", f"{self.folder}/journal-{me}"], check=True, capture_output=True, text=True)
            for line in dump.stdout.splitlines()[1:]:
                words = line.split()
                place = tuple(words[:2] if words[0] == "decided" else words[:5])
                if place in said:
                    found.append(f"member {me} said {line} twice")
                said[place] = True
                if words[0] == "decided" and verdicts.setdefault(words[1], words[3]) != words[3]:
                    found.append(f"question {words[1]} was decided for 0 and for 1")
        return found


@contextlib.contextmanager
def cluster(net, program, n=4, questions=64):
    """A cluster that is killed in the end, and whose journals are compared then; the network is mended."""
    with tempfile.TemporaryDirectory(prefix="bracha-cuts.") as folder:
        it = Cluster(program, folder, n, questions)
        try:
            yield it
        finally:
            it.end()
            net.mend()
        found = it.contradictions()
        assert not found, "; ".join(found[:3])


def settled(it, members):
    """Has all members decide question 0, so that their links stand."""
    time.sleep(2)
    it.propose(members, [0], lambda question, me: 1)
    assert it.decided(members, [0], 20) is not None, "all is well, and they don't decide"


def within(took, limit, what):
    assert took is not None and took <= limit, f"{what}: {'not decided' if took is None else f'{took:.1f} s'}"
    print(f"  {what}: {took:.1f} s", flush=True)


def a_connection_is_forgotten(net, program, limit):
    with cluster(net, program) as it:
        settled(it, range(4))
        it.kill(3)
        net.forget_link(1, 0)
        it.propose(range(3), [1], lambda question, me: 1)
        within(it.decided(range(3), [1], 20), limit, "one connection is forgotten")


def a_link_is_dropped(net, program, limit):
    for seconds in (2, 4, 7, 10, 20):
        with cluster(net, program) as it:
            settled(it, range(4))
            it.kill(3)
            net.drop_links(1, 0)
            it.propose(range(3), [1], lambda question, me: 1)
            time.sleep(seconds)
            net.mend()
            within(it.decided(range(3), [1], 30), limit, f"one link is dropped for {seconds} s")


def hosts_are_cut_off(net, program, limit, hosts):
    with cluster(net, program) as it:
        settled(it, range(4))
        for question, seconds in enumerate((6, 7, 8, 9, 9.5), start=1):
            for me in hosts:
                net.plug(me, False)
            it.propose(range(4), [question], lambda question, me: 1)
            time.sleep(seconds)
            for me in hosts:
                net.plug(me, True)
            within(it.decided(range(4), [question], 30), limit, f"{len(hosts)} of 4 hosts are cut off for {seconds} s")
            time.sleep(3)


def disturb(it, net, chance, proposed, bits, seconds):
    """Cuts and heals pairs, kills and starts members, and has them propose a few questions each, for so long."""
    pairs = [(here, there) for here in range(it.n) for there in range(it.n) if here != there]
    end = time.monotonic() + seconds
    while time.monotonic() < end:
        what = chance.random()
        if what < 0.45:
            here, there = chance.choice(pairs)
            net.cut(here, there)
            if chance.random() < 0.6:
                net.cut(there, here)
        elif what < 0.7 and net.cut_ways:
            net.heal(*chance.choice(sorted(net.cut_ways)))
        elif what < 0.8:
            me = chance.randrange(it.n)
            it.kill(me)
            it.start(me)
        else:
            me = chance.randrange(it.n)
            fresh = range(proposed[me], min(proposed[me] + 6, len(bits)))
            replies = it.say(me, [f"PROPOSE {question} {bits[question][me]}" for question in fresh])
            proposed[me] += sum(reply == "OK" or reply.startswith("HAVE") for reply in replies)
        time.sleep(chance.random() * chance.choice([0.1, 0.5, 3]))


def at_random(net, program, limit, seed, times):
    """Notes how long the members that reach each other took behind the last cut."""
    chance = random.Random(seed)
    n = chance.choice([4, 4, 4, 7])
    bits = [[bit] * n if question % 4 else [chance.randrange(2) for _ in range(n)]
            for question, bit in enumerate(chance.randrange(2) for _ in range(48))]
    with cluster(net, program, n, len(bits)) as it:
        disturb(it, net, chance, [0] * n, bits, chance.choice([8, 14, 20]))
        linked = sorted(chance.sample(range(n), n - (n - 1) // 3))
        for here in range(n):
            for there in range(n):
                if here in linked and there in linked:
                    net.heal(here, there)
                elif here != there and chance.random() < 0.7:
                    net.cut(here, there)
        start = time.monotonic()
        it.propose(linked, range(len(bits)), lambda question, me: bits[question][me])
        proposed = time.monotonic() - start
        took = it.decided(linked, range(len(bits)), 30)
        took = None if took is None else took + proposed
        times.append(took or 30)
        within(took, limit, f"seed {seed}, {linked} of {n} reach each other again")


def main():
    words = argparse.ArgumentParser(description=__doc__, formatter_class=argparse.RawDescriptionHelpFormatter, usage=argparse.SUPPRESS)
    words.add_argument("--clusters", type=int, default=20)
    words.add_argument("--seed", type=int, default=1)
    words.add_argument("--limit", type=float, default=3)
    words.add_argument("program", nargs="?", default=f"{TOP}/crates/bracha/out/bracha")
    words = words.parse_args()
    program = os.path.realpath(words.program)
    if os.geteuid() or not all(map(shutil.which, ("ip", "ss", "nft"))):
        sys.exit("cuts.py: it wants root, iproute2 (ip, ss) and nftables (nft)")
    times, failed, passed = [], 0, 0
    scenes = [
        lambda net: a_connection_is_forgotten(net, program, words.limit),
        lambda net: a_link_is_dropped(net, program, words.limit),
        lambda net: hosts_are_cut_off(net, program, words.limit, [3]),
        lambda net: hosts_are_cut_off(net, program, words.limit, [2, 3]),
        *(lambda net, seed=words.seed + at: at_random(net, program, words.limit, seed, times) for at in range(words.clusters)),
    ]
    net = None
    try:
        net = Network()
        for scene in scenes:
            try:
                scene(net)
                passed += 1
            except AssertionError as fault:
                print(f"  FAILED: {fault}", flush=True)
                failed += 1
    finally:
        Network.remove()
    if times:
        print(f"clusters at random: median {statistics.median(times):.1f} s, most {max(times):.1f} s")
    print(f"{passed} passed, {failed} failed")
    sys.exit(failed > 0)


if __name__ == "__main__":
    main()
