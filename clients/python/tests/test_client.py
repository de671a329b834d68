"""The client next to desks of faulty members, and against a cluster that runs. BRACHA names the program; without it the tests that
need one are left out."""

import asyncio
import gc
import os
import socket
import subprocess
import sys
import tempfile
import threading
import time
import tracemalloc
import unittest
from itertools import count, islice, repeat
from pathlib import Path
from unittest import mock

from bracha import (AsyncCluster, BadSettings, Closed, Cluster, NoSuchMember, NoSuchQuestion, Reading, Settings, Stage, State,
                    Undecided, Unreachable)
from tests.members import PROGRAM, Fake, Kills, Members, closed_port, comes, links_to, says, silent


def true(line):
    """The desk of a correct member that decided 1 on question 3."""
    return ["DECIDED 3 1\n", 60.0] if line.startswith("FOLLOW") else ["DECIDED 1\n"]


def own_threads():
    return [thread for thread in threading.enumerate() if thread.name == "bracha"]


class Beside(unittest.TestCase):
    """Four desks, of which one is a faulty member's, at each place."""

    FAULTS = {
        "another bit": lambda line: ["DECIDED 3 0\n", 60.0] if line.startswith("FOLLOW") else ["DECIDED 0\n"],
        "no reply": says("WHAT"),
        "a number that is none": says("DECIDED 3 +1"),
        "a question past the end": says("DECIDED 64 0"),
        "a long line": says("x" * 5000),
        "no text": says("DECIDED \u00e9"),
        "silent": silent,
        "closes": lambda line: [None],
        "drips": lambda line: ["D", 0.2] * 60,
        "floods without a line": lambda line: repeat("x" * 65536),
        "floods empty lines": lambda line: repeat("\n" * 65536),
        "floods decisions": lambda line: repeat("DECIDED 3 0\n" * 4096),
        "floods replies": lambda line: repeat("DECIDED 0\n" * 4096),
    }

    def desks(self, *answers):
        fakes = [Fake(answer) for answer in answers]
        for fake in fakes:
            self.addCleanup(fake.close)
        return fakes

    def cluster(self, desks, t=1):
        cluster = Cluster(Settings(7, len(desks), t, 64, tuple(desks)))
        self.addCleanup(cluster.close)
        return cluster

    def test_one_fault_is_outvoted(self):
        right = [fake.desk for fake in self.desks(true, true, true)]
        for name, answer in (*self.FAULTS.items(), ("down", None)):
            fake = Fake(answer) if answer else None
            desk = fake.desk if fake else closed_port()
            for place in range(4):
                settings = Settings(7, 4, 1, 64, (*right[:place], desk, *right[place:]))
                with self.subTest(fault=name, place=place), Cluster(settings) as cluster:
                    begun = time.monotonic()
                    self.assertIs(cluster.ask(3), True)
                    self.assertIs(cluster.wait(3, timeout=5), True)
                    self.assertIs(next(cluster.follow()).bit, True)
                    self.assertLess(time.monotonic() - begun, 4)
            if fake:
                fake.close()

    def test_nobody_holds_up_a_question_without_a_decision(self):
        open_yet = [fake.desk for fake in self.desks(*[says("UNDECIDED")] * 3)]
        for name, answer in self.FAULTS.items():
            with self.subTest(fault=name):
                fake = Fake(answer)
                cluster = self.cluster([*open_yet, fake.desk])
                begun = time.monotonic()
                self.assertIsNone(cluster.ask(5))
                self.assertLess(time.monotonic() - begun, 4)
                fake.close()

    def test_a_flood_takes_bounded_memory(self):
        for name in self.FAULTS:
            if name.startswith("floods"):
                with self.subTest(fault=name):
                    fake, = self.desks(self.FAULTS[name])
                    with Cluster(Settings(7, 1, 0, 64, (fake.desk,))) as cluster:
                        tracemalloc.start()
                        for _ in range(20):
                            try:
                                cluster.ask(7, timeout=0.05)
                                cluster.wait(9, timeout=0.05)
                            except (Undecided, Unreachable):
                                pass
                        self.assertLess(tracemalloc.get_traced_memory()[1], 4_000_000)
                        tracemalloc.stop()
                    fake.close()

    def test_one_alone_is_not_believed(self):
        fakes = self.desks(says("DECIDED 0"), *[lambda line: [0.3, "UNDECIDED\n"]] * 3)
        cluster = self.cluster([fake.desk for fake in fakes])
        self.assertIsNone(cluster.ask(5))
        with self.assertRaises(Undecided):
            cluster.wait(5, timeout=1)
        self.assertIs(cluster.ask(5, trust=0), False)
        self.assertIsNone(cluster.ask(5, trust=1))

    def test_two_values_are_not_mixed(self):
        fakes = self.desks(says("DECIDED 0"), says("DECIDED 1"), says("UNDECIDED"), says("UNDECIDED"))
        self.assertIsNone(self.cluster([fake.desk for fake in fakes]).ask(5))

    def test_a_liar_that_decides_everything_is_not_followed(self):
        flood = "".join(f"DECIDED {question} {int(question == 2)}\n" for question in range(64)) * 50

        def correct(line):
            return ["DECIDED 9 1\n", 0.2, "DECIDED 2 0\n", 30.0]

        for place in range(4):
            fakes = self.desks(correct, correct, correct)
            fakes.insert(place, *self.desks(lambda line: [flood, 30.0]))
            decisions = self.cluster([fake.desk for fake in fakes]).follow(known=[4])
            self.assertEqual([(it.question, it.bit) for it in islice(decisions, 2)], [(9, True), (2, False)])

    def test_a_follower_goes_on_where_it_was(self):
        def answer(line):
            number = int(line.split()[1])
            return [f"DECIDED {number + 10} {number % 2}\n", "\n", None]

        fake, = self.desks(answer)
        decisions = self.cluster([fake.desk], t=0).follow(trust=0, number=2)
        self.assertEqual([(it.number, it.question, it.bit) for it in islice(decisions, 3)], [(2, 12, False), (3, 13, True), (4, 14, False)])
        self.assertEqual(fake.lines[:3], ["FOLLOW 2", "FOLLOW 3", "FOLLOW 4"])

    def test_proposals(self):
        fakes = self.desks(says("OK"), says("HAVE 0"), says("STOPPED"), says("HAVE 1"))
        cluster = self.cluster([fake.desk for fake in fakes])
        self.assertEqual([it.stands for it in cluster.propose(63, True)], [True, False, None, True])
        self.assertEqual(fakes[0].lines, ["PROPOSE 63 1"])
        for question in (64, -1):
            self.assertRaises(NoSuchQuestion, cluster.propose, question, True)
            self.assertRaises(NoSuchQuestion, cluster.decide, question, True)
            self.assertRaises(NoSuchQuestion, cluster.ask, question)
            self.assertRaises(NoSuchQuestion, cluster.wait, question)
        self.assertRaises(NoSuchMember, cluster.ask, 0, trust=4)
        self.assertRaises(NoSuchMember, next, cluster.follow(trust=-1))
        self.assertRaises(TypeError, cluster.ask, "0")

    def test_a_silent_member_has_no_answer(self):
        fakes = self.desks(says("OK"), silent, says("OK"), says("OK"))
        cluster = self.cluster([fake.desk for fake in fakes])
        self.assertEqual([it.stands for it in cluster.propose(1, False, timeout=1)], [False, None, False, False])
        self.assertEqual([it.stands for it in cluster.propose(2, False, timeout=1)], [False, None, False, False])

    def test_each_member_says_how_far_it_is(self):
        replies = ["OPEN 32 2", "SPENT", "UNPROPOSED", "DECIDED 1", "DECIDED 0", "STOPPED", "OPEN 33 1", "OPEN 1 4", "OPEN 0 1", "OPEN 1"]
        fakes = self.desks(*map(says, replies))
        told = self.cluster([fake.desk for fake in fakes], t=3).state(5)
        self.assertEqual([fake.lines for fake in fakes], [["STATE 5"]] * 10)
        self.assertEqual(told, [
            State(0, Stage.OPEN, round=32, step=2), State(1, Stage.SPENT), State(2, Stage.UNPROPOSED),
            State(3, Stage.DECIDED, bit=True), State(4, Stage.DECIDED, bit=False), *(State(member, None) for member in range(5, 10))])
        self.assertEqual(self.cluster([closed_port()], t=0).state(5), [State(0, None)])

    def test_all_are_down(self):
        cluster = self.cluster([closed_port() for _ in range(4)])
        with self.assertRaises(Unreachable) as caught:
            cluster.ask(0)
        self.assertEqual(caught.exception.silent, [0, 1, 2, 3])
        self.assertRaises(Unreachable, cluster.ask, 0, trust=2)
        self.assertRaises(Undecided, cluster.decide, 0, True, timeout=1)
        self.assertEqual([it.up for it in cluster.status()], [False] * 4)

    def test_a_member_that_breaks_the_protocol_is_cut_off(self):
        past_the_end = (f"DECIDED {question} 0\n" for question in count(64))
        for flood in (repeat("DECIDED 3 0\n" * 4096), repeat("\n" * 4096), repeat("x" * 4096), past_the_end):
            with self.subTest(flood=flood):
                fake, = self.desks(lambda line: flood)
                self.assertRaises(Undecided, self.cluster([fake.desk], t=0).wait, 5, timeout=1)
                self.assertTrue(comes(lambda: fake.ended))

    def test_a_connection_that_hangs_is_made_anew(self):
        fake, = self.desks(lambda line: ["DECIDED 1\n"] if fake.lines[1:] else [60.0])
        cluster = self.cluster([fake.desk], t=0)
        with mock.patch("bracha.desk.PATIENCE", 0.2):
            self.assertRaises(Unreachable, cluster.ask, 5, timeout=1)
            self.assertIs(cluster.ask(5), True)
        self.assertEqual(len(fake.links), 2)

    def test_a_connection_that_ended_is_made_anew(self):
        fake, = self.desks(lambda line: ["DECIDED 1\n", None])
        cluster = self.cluster([fake.desk], t=0)
        self.assertEqual([cluster.ask(5, trust=0) for _ in range(5)], [True] * 5)
        self.assertEqual(len(fake.links), 5)

    def test_what_nobody_asked_for_is_no_reply(self):
        fake, = self.desks(lambda line: ["UNDECIDED\nDECIDED 1\n"])
        cluster = self.cluster([fake.desk], t=0)
        self.assertEqual([cluster.ask(5, trust=0) for _ in range(5)], [None] * 5)
        self.assertEqual(len(fake.links), 5)

    def test_a_decision_costs_a_line(self):
        def answer(line):
            return ["".join(f"DECIDED {question} 1\n" for question in range(64)), 60.0] if line.startswith("FOLLOW") else ["OK\n"]

        fakes = self.desks(*[answer] * 4)
        cluster = self.cluster([fake.desk for fake in fakes])
        for question in range(20):
            self.assertIs(cluster.decide(question, True), True)
        cluster.propose(63, True)
        for fake in fakes:
            self.assertTrue(comes(lambda: "FOLLOW 0" in fake.lines))
            proposed = [line for line in fake.lines if line.startswith("PROPOSE ")]
            self.assertEqual((len(proposed) <= 21, len(fake.lines) - len(proposed)), (True, 1))

    def test_lines_share_a_connection(self):
        async def many():
            async with AsyncCluster(Settings(7, 1, 0, 64, (fake.desk,))) as cluster:
                return await asyncio.gather(*(cluster.status() for _ in range(200)))

        fake, = self.desks(says("UP 18 1"))
        told = asyncio.run(many())
        self.assertEqual({(it.up, it.statements, it.decided) for status in told for it in status}, {(True, 18, 1)})
        self.assertEqual(len(fake.links), 1)

    def test_a_wait_for_the_next_decision_may_be_given_up(self):
        def answer(line):
            return ["DECIDED 3 1\n", 0.5, "DECIDED 4 0\n", 60.0] if line.startswith("FOLLOW") else ["DECIDED 1\n"]

        async def follows():
            async with AsyncCluster(Settings(7, 4, 1, 64, tuple(fake.desk for fake in fakes))) as cluster:
                decisions, told = cluster.follow(), []
                while len(told) < 2:
                    try:
                        async with asyncio.timeout(0.1):
                            told.append(await anext(decisions))
                    except TimeoutError:
                        pass
                self.assertEqual(await anext(cluster.follow(known=[3])), told[1])
                return [(it.question, it.bit) for it in told]

        fakes = self.desks(*[answer] * 4)
        self.assertEqual(asyncio.run(follows()), [(3, True), (4, False)])

    def test_close_ends_all_calls_at_once(self):
        fakes = self.desks(*[silent] * 4)
        before = own_threads()
        cluster, ended = Cluster(Settings(7, 4, 1, 64, tuple(fake.desk for fake in fakes))), []
        calls = (lambda: cluster.ask(3), lambda: cluster.wait(3), lambda: cluster.decide(3, True), lambda: cluster.propose(3, True),
                 cluster.status, lambda: next(cluster.follow()), lambda: next(cluster.follow(trust=0)), lambda: cluster.ask(3, trust=1))

        def end(call):
            try:
                call()
            except Closed:
                ended.append(call)

        callers = [threading.Thread(target=end, args=(call,)) for call in calls]
        for caller in callers:
            caller.start()
        time.sleep(0.3)
        begun = time.monotonic()
        cluster.close()
        for caller in callers:
            caller.join()
        self.assertLess(time.monotonic() - begun, 2)
        self.assertEqual(len(ended), len(calls))
        cluster.close()
        self.assertRaises(Closed, cluster.ask, 3)
        self.assertEqual((links_to(fakes), own_threads()), (0, before))

    def test_close_ends_who_follows_one_member(self):
        async def follows(desk):
            cluster = AsyncCluster(Settings(7, 1, 0, 64, (desk,)))
            waits = asyncio.create_task(anext(cluster.follow(trust=0, number=1)))
            late, told = cluster.follow(trust=0), cluster.follow(trust=0)
            if desk == fake.desk:
                self.assertIs((await anext(told)).bit, True)
            await asyncio.sleep(0.1)
            links = len(fake.links)
            cluster.close()
            for one in (waits, anext(late)):
                with self.assertRaises(Closed):
                    async with asyncio.timeout(2):
                        await one
            await asyncio.sleep(0)  # in which the transports close their sockets
            self.assertEqual((links_to([fake]), len(fake.links)), (0, links))

        async def never(*_, **__):
            await asyncio.sleep(60)

        fake, = self.desks(lambda line: ["DECIDED 3 1\n", 60.0] if line == "FOLLOW 0" else [60.0])
        asyncio.run(follows(fake.desk))
        asyncio.run(follows(closed_port()))
        with mock.patch("asyncio.open_connection", never), mock.patch("bracha.desk.CONNECT", 60):
            asyncio.run(follows("127.0.0.1:1"))

    def test_a_dropped_iterator_leaves_nothing(self):
        fakes = self.desks(*[true] * 4)
        with Cluster(Settings(7, 4, 1, 64, tuple(fake.desk for fake in fakes))) as cluster:
            self.assertIs(next(cluster.follow()).bit, True)
            threads = len(own_threads())

            def left():
                gc.collect()
                return len(asyncio.all_tasks(cluster._loop)), len(own_threads()), links_to(fakes)

            self.assertTrue(comes(lambda: left() == (4, threads, 4)))
            for _ in range(20):
                self.assertIs(next(cluster.follow()).bit, True)
                self.assertIs(next(cluster.follow(trust=2)).bit, True)
            self.assertTrue(comes(lambda: left() == (4, threads, 4)))

    def test_an_iterator_that_the_collector_drops_holds_up_no_call(self):
        fakes = self.desks(*[true] * 4)
        cluster = Cluster(Settings(7, 4, 1, 64, tuple(fake.desk for fake in fakes)))
        decisions = cluster.follow()
        next(decisions)
        ring = [decisions]
        ring.append(ring)  # from now on only the collector finds it
        del decisions, ring
        submit = asyncio.run_coroutine_threadsafe

        def collect_and_submit(call, loop):
            gc.collect()  # it may run within any call
            return submit(call, loop)

        with mock.patch("asyncio.run_coroutine_threadsafe", collect_and_submit):
            asks = threading.Thread(target=cluster.ask, args=(3,), daemon=True)
            asks.start()
            asks.join(5)
        self.assertFalse(asks.is_alive())
        cluster.close()


class Words(unittest.TestCase):
    def test_readings(self):
        reading = Reading(7, 2)
        for member, bit in ((0, True), (0, True), (1, True), (2, False), (1, False), (3, False), (4, False)):
            self.assertIsNone(reading.decision)
            reading.take(member, bit)
        self.assertIs(reading.decision, False)
        reading.take(5, True)
        reading.take(6, True)
        self.assertIs(reading.decision, False)
        self.assertRaises(NoSuchMember, reading.take, 7, True)
        self.assertRaises(NoSuchMember, reading.take, -1, True)

    def test_settings(self):
        with tempfile.TemporaryDirectory() as folder:
            path = Path(folder) / "client.toml"
            whole = {"cluster": "7", "n": "4", "t": "1", "questions": "64",
                     "desks": '["localhost:1", "127.0.0.1:2", "10.0.0.2:2", "10.0.0.1:65535"]'}

            def write(**other):
                path.write_text("".join(f"{key} = {value}\n" for key, value in (whole | other).items() if value))

            write()
            self.assertEqual(Settings.read(path).n, 4)
            firsts = ("127.0.0.1:2", "localhost:2", "host:1", "[::1]:1", "10.0.0.1:0", "10.0.0.1:65536", "10.0.0.1:+1", "10.0.0.1", "unix:/x")
            rows = {"cluster": ["", "-1", '"7"', "7.0"], "n": ["", "3", "5", "65", "true", "x"], "t": ["", "2"], "questions": ["", "0", "4097"],
                    "desks": ["", '"a"', '["127.0.0.1:1"]', *(f'["{first}", "127.0.0.1:2", "10.0.0.2:2", "10.0.0.3:3"]' for first in firsts)]}
            for key, values in rows.items():
                for value in values:
                    write(**{key: value})
                    with self.subTest(f"{key} = {value}"), self.assertRaises(BadSettings):
                        Settings.read(path)
            path.unlink()
            self.assertRaises(BadSettings, Cluster.open, path)


@unittest.skipUnless(PROGRAM, "BRACHA names no program")
class Running(unittest.TestCase):
    """A cluster of four that runs, with kills, and with the desk of a liar in place of one member's."""

    def setUp(self):
        self.members = Members(PROGRAM, 1024)
        self.addCleanup(self.members.close)
        self.settings = Settings.read(self.members.client)

    def settings_with(self, place, fake):
        desks = list(self.settings.desks)
        desks[place] = fake.desk
        return Settings(7, 4, 1, 1024, tuple(desks))

    def test_decisions_next_to_a_liar_and_kills(self):
        def lies(line):
            words = line.split()
            if words[0] == "FOLLOW":
                return ["".join(f"DECIDED {question} {1 - question % 2}\n" for question in range(int(words[1]), 1024)), 60.0]
            return [f"DECIDED {1 - int(words[1]) % 2}\n" if words[0] == "ASK" else "OK\n"]

        async def decides(place):
            # The member at the liar's place runs as well, and is proposed to: so the others decide while one of them is down.
            async with AsyncCluster(self.settings_with(place, fake)) as cluster, AsyncCluster(self.settings) as all_desks:
                for first in range(place * 250, place * 250 + 250, 50):
                    questions = range(first, first + 50)
                    asyncio.gather(*(all_desks.decide(question, bool(question % 2)) for question in questions), return_exceptions=True)
                    told = await asyncio.gather(*(cluster.decide(question, bool(question % 2)) for question in questions))
                    self.assertEqual(told, [bool(question % 2) for question in questions])
                    asked = await asyncio.gather(*(cluster.ask(question) for question in questions))
                    self.assertEqual(asked, told)
                followed = cluster.follow(known=range(place * 250))
                for question, bit in sorted([(it.question, it.bit) for it in [await anext(followed) for _ in range(250)]]):
                    self.assertIs(bit, bool(question % 2))

        fake = Fake(lies)
        self.addCleanup(fake.close)
        for place in range(4):
            kills = Kills(self.members, [member for member in range(4) if member != place])
            try:
                asyncio.run(decides(place))
            finally:
                kills.close()

    def test_the_lines_of_the_readme(self):
        top = Path(__file__).parents[1]
        lines = [line[4:] for line in (top / "README.md").read_text().split("\n## ")[0].splitlines() if line.startswith("    ")]
        command = [sys.executable, "-u", "-c", "\n".join(lines)]
        environment = os.environ | {"PYTHONPATH": str(top)}
        with subprocess.Popen(command, cwd=self.members.path, stdout=subprocess.PIPE, text=True, env=environment) as process:
            self.addCleanup(process.kill)
            timer = threading.Timer(20, process.kill)
            timer.start()
            self.assertEqual(process.stdout.readline(), "question 7 is decided: True\n")
            self.assertEqual(process.stdout.readline(), "None\n")
            self.assertEqual([process.stdout.readline().split()[:2] for _ in range(4)], [[str(member), "True"] for member in range(4)])
            with Cluster.open(self.members.client) as cluster:
                self.assertIs(cluster.decide(8, False), False)
            self.assertEqual(process.stdout.readline(), "8 False\n")
            timer.cancel()
            process.kill()

    def test_half_a_proposal_is_repaired(self):
        with Cluster.open(self.members.client) as cluster:
            host, _, port = cluster.settings.desks[1].rpartition(":")
            with socket.create_connection((host, int(port))) as link, link.makefile("r") as replies:
                link.sendall(b"PROPOSE 9 1\n")
                self.assertEqual(replies.readline(), "OK\n")
            time.sleep(0.3)
            self.assertIsNone(cluster.ask(9))
            bit = cluster.decide(9, False)
            self.assertEqual([cluster.ask(9), cluster.wait(9)], [bit] * 2)
            self.assertTrue(comes(lambda: [it.bit for it in cluster.state(9)] == [bit] * 4))
            self.assertEqual({it.stage for it in cluster.state(10)}, {Stage.UNPROPOSED})
            self.assertIs(cluster.propose(9, True)[1].stands, True)
            self.assertEqual([it.up for it in cluster.status()], [True] * 4)
        with Cluster.open(self.members.client) as another:
            self.assertIs(another.decide(9, not bit), bit)

    def test_one_member_is_followed_over_its_restarts(self):
        with Cluster.open(self.members.client) as cluster:
            for question in range(20):
                cluster.decide(question, True)
            told = list(islice(cluster.follow(trust=2), 20))
            self.assertEqual([it.number for it in told], list(range(20)))
            rest = cluster.follow(trust=2, number=15)
            self.assertEqual([next(rest) for _ in range(5)], told[15:])
            self.members.kill(2)
            for question in range(20, 30):
                self.assertIs(cluster.decide(question, False), False)
            self.members.start(2)
            self.assertEqual([(it.number, it.bit) for it in islice(rest, 10)], [(number, False) for number in range(20, 30)])


if __name__ == "__main__":
    unittest.main()
