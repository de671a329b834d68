"""The client of a chain of epochs: its parts, next to desks that answer as members of a chain do, and against one that runs. BRACHA
names the program; without it the tests that need one are left out."""

import asyncio
import gc
import threading
import time
import unittest
from concurrent.futures import ThreadPoolExecutor
from contextlib import suppress
from functools import partial
from itertools import count, islice, repeat
from unittest import mock

from bracha import (AsyncCluster, Closed, Cluster, Gone, NoSuchQuestion, Refusal, Settings, Stage, TooFar, Undecided, Unreachable)
from bracha.board import Board
from bracha.course import KEPT, Course
from bracha.window import Window
from tests.members import PROGRAM, Fake, Members, comes, links_to, says

FAR = 2**40
LAST = 2**64 - 1


def chain(questions=64, t=1, desks=()):
    """The settings of a chain of 3 t + 1 members, or of those with these desks."""
    desks = desks or tuple(f"127.0.0.1:{port}" for port in range(1, 3 * t + 2))
    return Settings(7, len(desks), t, questions, tuple(desks), chain=True)


def bit_of(slot):
    return slot % 3 == 1


def member(told, reply):
    """What a desk does that says one text to FOLLOW, and then nothing, and another to each other line."""
    return lambda line: [told, 60.0] if line.startswith("FOLLOW") else [reply + "\n"]


def follows(fake):
    return [line for line in fake.lines if line.startswith("FOLLOW")]


class Places(unittest.TestCase):
    """The numbers of one member's decisions."""

    def course(self, number, questions=16):
        course = Course(chain(questions), number)
        course.begin()
        return course

    def test_without_a_chain_each_question_is_told_once(self):
        course = Course(Settings(7, 1, 0, 70, ("127.0.0.1:1",)), 5)
        self.assertEqual(course.begin(), 5)
        self.assertEqual([*map(course.take, (69, 0, 69, 70, 1))], [5, 6, None, None, 7])
        self.assertEqual(course.begin(), 8)
        self.assertEqual([*map(course.take, (0, 2))], [None, 8])

    def test_a_number_is_of_its_epoch(self):
        course = self.course(0)
        self.assertEqual([*map(course.take, (3, 2, 3))], [0, 1, None])
        # Epoch 0 is passed with open slots, and epoch 2 wholly; a decision of each comes late.
        self.assertEqual([*map(course.take, (17, 48, 4, 40))], [16, 48, 2, 32])
        self.assertEqual(course.begin(), 49)
        self.assertEqual([*map(course.take, (47, 48, 50))], [None, None, 49])

    def test_an_epoch_that_is_complete_leads_to_the_next(self):
        course = self.course(0)
        self.assertEqual([*map(course.take, range(15, -1, -1))], [*range(16)])
        self.assertEqual(course.begin(), 16)
        self.assertEqual([*map(course.take, (3, 20))], [None, 16])

    def test_slots_have_no_end(self):
        course = self.course(LAST - 15)
        self.assertEqual([*map(course.take, range(LAST, LAST - 16, -1))], [*range(LAST - 15, LAST + 1)])
        self.assertEqual([*map(course.take, (LAST, 0, LAST + 1))], [None] * 3)
        self.assertEqual(course.begin(), LAST)

    def test_memory_is_bounded(self):
        course = self.course(0)
        self.assertEqual(course.take(5), 0)
        for slot in range(16, 2000):
            self.assertEqual(course.take(slot), slot)
            self.assertLessEqual(len(course._epochs), KEPT)
        # Those with open slots are kept, rather than those that were told to their end.
        self.assertEqual([*map(course.take, (5, 6))], [None, 1])


class Held(unittest.IsolatedAsyncioTestCase):
    """What a board keeps of slots."""

    async def test_only_what_calls_hold_is_kept(self):
        board = Board(chain())
        with board.hold(7000) as held:
            for slot in range(8000):
                for member in range(4):
                    board.take(member, slot, slot % 3 == 0)
            self.assertIs(held.decision, False)
            with board.hold(6999) as other, board.hold(7000) as again:
                self.assertIsNone(other.decision)  # it was told before
                self.assertIs(again.decision, False)
            self.assertIs(held.decision, False)
            self.assertEqual([*board._entries], [7000])
        self.assertEqual((board._entries, board._decisions), ({}, []))

    async def ends_with(self, held, kind, members):
        with self.assertRaises(kind) as caught:
            async with asyncio.timeout(5):
                await held.wait()
        self.assertEqual(caught.exception.members, members)

    async def test_a_slot_that_n_minus_t_refuse_is_not_waited_for(self):
        for cause, kind in ((Refusal.GONE, Gone), (Refusal.TOO_FAR, TooFar)):
            board = Board(chain())
            with self.subTest(cause), board.hold(5) as held:
                held.take(3, True)
                held.refuse(0, cause)
                held.refuse(0, cause)
                self.assertIsNone(held.outcome())
                self.assertIsInstance(held.failure(1), Undecided)
                held.refuse(1, cause)
                self.assertIsNone(held.outcome())  # two are left, and more than t
                self.assertEqual((type(held.failure(1)), held.failure(1).members), (kind, [0, 1]))
                waits = asyncio.create_task(self.ends_with(held, kind, [0, 1, 2]))
                await asyncio.sleep(0)
                held.refuse(2, cause)
                await waits
                held.refuse(1, None)
                self.assertIsNone(held.outcome())
                held.take(1, True)
                self.assertIs(await held.wait(), True)

    async def test_two_causes_are_not_mixed(self):
        with Board(chain()).hold(5) as held:
            held.refuse(0, Refusal.GONE)
            held.refuse(1, Refusal.TOO_FAR)
            held.refuse(2, Refusal.TOO_FAR)
            self.assertIsNone(held.outcome())
            self.assertEqual((type(held.failure(1)), held.failure(1).members), (TooFar, [1, 2]))


class Windows(unittest.IsolatedAsyncioTestCase):
    """The decisions of a chain, for one who takes them. 512 slots are kept, or four epochs."""

    async def asyncSetUp(self):
        asyncio.get_running_loop().set_debug(False)  # which would take most of the time

    def window(self, questions, slot=0):
        patch = mock.patch("bracha.window.SLOTS", 512)
        patch.start()
        self.addCleanup(patch.stop)
        return Window(chain(questions), slot)

    async def next(self, window):
        try:
            async with asyncio.timeout(0.02):
                decision = await window.next()
        except TimeoutError:
            return None
        return decision.question, decision.bit

    def tells(self, window, member, slots):
        """Begins to tell these slots as a member that lies if it is member 3."""

        async def tell():
            for slot in slots:
                await window.take(member, slot, bit_of(slot) != (member == 3))
                await asyncio.sleep(0)  # in which the others tell

        async def until_closed():
            with suppress(Closed):
                await tell()

        return asyncio.create_task(until_closed())

    async def stays(self, count, number):
        """Waits until this counts so many, and looks whether it stays so."""
        async with asyncio.timeout(20):
            while count() < number:
                await asyncio.sleep(0.01)
        for _ in range(500):
            await asyncio.sleep(0)
        self.assertEqual(count(), number)

    async def taken(self, window, number):
        async with asyncio.timeout(15):
            told = [await window.next() for _ in range(number)]
        self.assertTrue(all(it.bit == bit_of(it.question) for it in told))
        return [it.question for it in told]

    async def test_each_decision_once_more_than_t_tell_it(self):
        window = self.window(4096)
        await window.take(3, 5, True)
        await window.take(3, 5, False)
        await window.take(0, 9, False)
        self.assertIsNone(await self.next(window))
        for member, slot in ((0, 5), (1, 9), (1, 5), (2, 9), (3, 9), (2, 5)):
            await window.take(member, slot, False)
        self.assertEqual([await self.next(window) for _ in range(3)], [(9, False), (5, False), None])

    async def test_an_epoch_that_is_complete_is_dropped_and_not_told_again(self):
        window = self.window(1, 7)
        await window.take(0, 6, True)
        await window.take(1, 6, True)
        for member in range(3):
            await self.tells(window, member, range(7, 100))
        self.assertEqual(await self.taken(window, 93), [*range(7, 100)])
        self.assertIsNone(await self.next(window))
        self.assertEqual((window._first, len(window._epochs)), (100, 0))

    async def test_a_liar_holds_nobody_up_and_fills_nothing(self):
        window, slots = self.window(64), 4000
        tells = [self.tells(window, member, range(slots)) for member in range(3)] + [self.tells(window, 3, count(1, 64))]
        self.assertEqual(sorted(await self.taken(window, slots)), [*range(slots)])
        self.assertLessEqual(len(window._epochs), 8)
        window.close()
        await asyncio.gather(*tells)

    async def test_one_that_is_ahead_waits_for_the_others(self):
        window = self.window(64)
        ahead, far = self.tells(window, 0, range(3000)), self.tells(window, 2, [100_000])
        await self.stays(lambda: window._reached[0], 8)
        slow = self.tells(window, 1, range(3000))
        self.assertEqual(await self.taken(window, 3000), [*range(3000)])
        await slow
        window.close()
        await asyncio.gather(ahead, far)

    async def test_a_slot_that_stays_open_is_passed(self):
        window = self.window(256)
        tells = [self.tells(window, member, range(1, 4000)) for member in range(3)]
        self.assertEqual(sorted(await self.taken(window, 3999)), [*range(1, 4000)])
        await asyncio.gather(*tells)
        self.assertLessEqual(len(window._epochs), 4)

    async def test_who_takes_nothing_is_told_no_more(self):
        window = self.window(16)
        tells = [self.tells(window, member, range(3000)) for member in range(2)]
        await self.stays(lambda: len(window._decisions), 512)
        self.assertEqual(await self.taken(window, 3000), [*range(3000)])
        await asyncio.gather(*tells)


class Beside(unittest.TestCase):
    """A chain of epochs of 64 slots whose desks answer as members of one do, or as liars."""

    def desks(self, *answers):
        fakes = [Fake(answer) for answer in answers]
        for fake in fakes:
            self.addCleanup(fake.close)
        return fakes

    def settings(self, fakes, t=1):
        return chain(64, t, tuple(fake.desk for fake in fakes))

    def cluster(self, fakes, t=1):
        cluster = Cluster(self.settings(fakes, t))
        self.addCleanup(cluster.close)
        return cluster

    def refused(self, kind, members, call, *arguments, **options):
        with self.assertRaises(kind) as caught:
            call(*arguments, **options)
        self.assertEqual(caught.exception.members, members)

    def test_slots_have_no_end(self):
        fakes = self.desks(*[member(f"DECIDED {LAST} 1\n", "OK")] * 4)
        cluster = self.cluster(fakes)
        self.assertIs(cluster.decide(LAST, True, timeout=5), True)
        self.assertIs(cluster.propose(65536, False)[2].stands, False)
        told = next(cluster.follow(first=LAST))
        self.assertEqual((told.question, told.bit), (LAST, True))
        self.assertTrue({f"PROPOSE {LAST} 1", "PROPOSE 65536 0"} <= set(fakes[2].lines))
        self.assertEqual(set(follows(fakes[0])), {f"FOLLOW {LAST - 63}"})
        self.assertRaises(NoSuchQuestion, cluster.wait, LAST + 1)
        for first in (-1, LAST + 1):
            self.assertRaises(NoSuchQuestion, next, cluster.follow(first=first))

    def test_one_fault_is_outvoted(self):
        def far(line):
            return ("".join(f"DECIDED {slot} 0\n" for slot in range(first, first + 4096)) for first in count(0, 4096))

        def liar(line):
            return far(line) if line.startswith("FOLLOW") else ["DECIDED 0\n"]

        async def follows_all(settings):
            async with AsyncCluster(settings) as cluster:
                decisions = cluster.follow()
                told = [await anext(decisions) for _ in range(1000)]
                with self.assertRaises(TimeoutError):
                    async with asyncio.timeout(0.2):
                        await anext(decisions)
                return told

        right = self.desks(*[member("".join(f"DECIDED {slot} 1\n" for slot in range(1000)), "DECIDED 1")] * 3)
        for place in range(4):
            fakes = [*right[:place], *self.desks(liar), *right[place:]]
            with self.subTest(place), Cluster(self.settings(fakes)) as cluster:
                self.assertIs(cluster.ask(700), True)
                self.assertIs(cluster.wait(701, timeout=5), True)
                self.assertIs(cluster.decide(999, True, timeout=5), True)
                told = asyncio.run(follows_all(self.settings(fakes)))
                self.assertEqual(sorted(it.question for it in told), [*range(1000)])
                self.assertEqual({it.bit for it in told}, {True})

    def test_a_flood_of_slots_holds_up_nobody(self):
        def flood(line):
            lies = ("".join(f"DECIDED {slot} 0\n" for slot in range(first, first + 4096)) for first in count(0, 4096))
            return lies if line.startswith("FOLLOW") else ["UNDECIDED\n"]

        fakes = self.desks(flood, *[member("", "UNDECIDED")] * 3)
        cluster = self.cluster(fakes)
        self.assertRaises(Undecided, cluster.wait, 5, timeout=0.5)  # all are followed from now on
        begun = time.monotonic()
        for slot in range(20):
            self.assertIsNone(cluster.ask(slot, trust=1))
        self.assertLess(time.monotonic() - begun, 12)  # some two seconds each, if all that has come was read at a time

    def test_what_followers_are_not_told_is_asked_for(self):
        decided = threading.Event()

        def answer(line):
            if line.startswith("ASK"):
                return ["DECIDED 1\n"] if decided.is_set() else ["UNDECIDED\n"]
            return [60.0] if line.startswith("FOLLOW") else ["OK\n"]

        fakes = self.desks(*[answer] * 4)
        cluster = self.cluster(fakes)
        self.assertRaises(Undecided, cluster.wait, 4, timeout=3)
        asked = fakes[0].lines.count("ASK 4")
        self.assertIn(asked, range(4, 6))  # at once, and after 0.25, 0.75, 1.75 and 2.75 seconds
        with ThreadPoolExecutor() as pool:
            decides = pool.submit(cluster.decide, 5, True, timeout=10)
            self.assertTrue(comes(lambda: "PROPOSE 5 1" in fakes[0].lines))
            decided.set()
            self.assertIs(decides.result(), True)
        self.assertIs(cluster.wait(6, timeout=5), True)  # it was decided before
        self.assertIs(cluster.decide(7, True, timeout=5), True)
        lines = [line for fake in fakes for line in fake.lines if line.endswith(" 7") or line.startswith("PROPOSE 7")]
        self.assertEqual(set(lines), {"ASK 7"})

    def test_members_are_followed_from_the_epoch_of_a_slot(self):
        fakes = self.desks(*[member("", "UNDECIDED")] * 4)
        cluster = self.cluster(fakes)
        # One that is far ahead is followed from there, but only until an earlier one is waited for.
        for slot, line in ((FAR, f"FOLLOW {FAR}"), (200, "FOLLOW 192")):
            self.assertRaises(Undecided, cluster.wait, slot, timeout=0.5)
            self.assertTrue(comes(lambda: all(line in fake.lines for fake in fakes)))
        self.assertRaises(Undecided, cluster.wait, 2**50, timeout=0.5)
        self.assertEqual([len(follows(fake)) for fake in fakes], [2] * 4)
        self.assertTrue(comes(lambda: links_to(fakes) == 8))

    def test_a_member_that_told_a_decision_is_not_followed_from_before_it(self):
        fakes = self.desks(*[member("DECIDED 200 1\n", "UNDECIDED")] * 4)
        cluster = self.cluster(fakes)
        self.assertIs(cluster.wait(200, timeout=5), True)
        self.assertTrue(comes(lambda: all(follows(fake) == ["FOLLOW 192"] for fake in fakes)))
        time.sleep(0.2)
        self.assertRaises(Undecided, cluster.wait, 5, timeout=0.5)
        self.assertEqual([follows(fake) for fake in fakes], [["FOLLOW 192"]] * 4)
        self.assertEqual(next(cluster.follow(first=200)).question, 200)

        async def follows_later():
            async with AsyncCluster(self.settings(fakes)) as another, asyncio.timeout(0.5):
                await anext(another.follow(first=201))

        self.assertRaises(TimeoutError, asyncio.run, follows_later())

    def test_slots_that_are_gone(self):
        gone, open_yet = self.desks(*[member("", "ERR 5 gone")] * 3), self.desks(*[member("", "UNDECIDED")] * 3)
        three = self.cluster([gone[0], open_yet[0], gone[1], gone[2]])
        begun = time.monotonic()
        for call in (three.ask, three.wait, partial(three.decide, bit=True)):
            self.refused(Gone, [0, 2, 3], call, 5, timeout=10)
        self.assertLess(time.monotonic() - begun, 8)
        self.refused(Gone, [0], three.ask, 5, trust=0)
        self.assertIsNone(three.ask(5, trust=1))
        answers = three.propose(5, True)
        self.assertEqual([(it.stands, it.refusal) for it in answers[:2]], [(None, Refusal.GONE), (None, None)])
        self.assertEqual([it.stage for it in three.state(5)[:2]], [Stage.GONE, None])
        # One alone is not believed, and two leave enough others.
        one = self.cluster([gone[0], *open_yet])
        self.assertIsNone(one.ask(5))
        self.assertRaises(Undecided, one.wait, 5, timeout=0.5)
        two = self.cluster([gone[0], gone[1], *open_yet[:2]])
        self.refused(Gone, [0, 1], two.wait, 5, timeout=0.5)
        decided = self.desks(*[member("", "DECIDED 0")] * 2)
        known = self.cluster([gone[0], decided[0], gone[1], decided[1]])
        self.assertIs(known.ask(5), False)
        self.assertIs(known.wait(5, timeout=5), False)

    def test_slots_that_are_too_far_ahead(self):
        def far(line):
            replies = {"FOLLOW": [60.0], "ASK": ["UNDECIDED\n"], "STATE": ["UNPROPOSED\n"], "PROPOSE": ["ERR 2 question\n"]}
            return replies[line.split()[0]]

        fakes = self.desks(far, far, far, member("", "OK"))
        cluster = self.cluster(fakes)
        begun = time.monotonic()
        self.refused(TooFar, [0, 1, 2], cluster.decide, FAR, True, timeout=10)
        self.assertLess(time.monotonic() - begun, 8)
        answers = cluster.propose(FAR, True)
        self.assertEqual([(it.stands, it.refusal) for it in answers[2:]], [(None, Refusal.TOO_FAR), (True, None)])
        self.assertIsNone(cluster.ask(FAR))
        self.assertIs(cluster.state(FAR)[0].stage, Stage.UNPROPOSED)
        self.assertRaises(Undecided, cluster.wait, FAR, timeout=0.5)

    def test_a_proposal_that_is_too_early_ends_no_call_that_proposes_nothing(self):
        decided = threading.Event()

        def answer(line):
            if line.startswith("ASK"):
                return ["DECIDED 1\n"] if decided.is_set() else ["UNDECIDED\n"]
            return [60.0] if line.startswith("FOLLOW") else ["ERR 2 question\n"]

        fakes = self.desks(*[answer] * 4)
        cluster = self.cluster(fakes)
        with ThreadPoolExecutor() as pool:
            waits = pool.submit(cluster.wait, 7000, timeout=20)
            self.assertTrue(comes(lambda: "ASK 7000" in fakes[0].lines))
            self.assertRaises(TooFar, cluster.decide, 7000, True, timeout=5)
            self.assertIsNone(cluster.ask(7000))
            decided.set()
            self.assertIs(waits.result(), True)

    def test_refusals_are_of_chains_alone(self):
        fakes = self.desks(*[says("ERR 5 gone")] * 3, says("ERR 2 question"))
        with Cluster(Settings(7, 4, 1, 64, tuple(fake.desk for fake in fakes))) as cluster:
            self.assertRaises(Unreachable, cluster.ask, 5)
            self.assertRaises(Unreachable, cluster.ask, 5, trust=0)
            self.assertRaises(Undecided, cluster.decide, 5, True, timeout=0.5)
            self.assertEqual([(it.stands, it.refusal) for it in cluster.propose(5, True)], [(None, None)] * 4)
            self.assertEqual([it.stage for it in cluster.state(5)], [None] * 4)

    def test_one_member_is_followed_over_epochs(self):
        def answer(line):
            if line == "FOLLOW 62":
                return ["DECIDED 3 1\nDECIDED 1 0\nDECIDED 70 1\n", None]
            if line == "FOLLOW 65":  # it passed epoch 2, and tells a decision of it late
                return ["DECIDED 200 1\n\nDECIDED 129 0\nDECIDED 201 0\n", None]
            return ["DECIDED 202 1\n", 60.0]

        fake, = self.desks(answer)
        told = islice(self.cluster([fake], t=0).follow(trust=0, number=62), 7)
        numbers = [(it.number, it.question) for it in told]
        self.assertEqual(numbers, [(62, 3), (63, 1), (64, 70), (192, 200), (128, 129), (193, 201), (194, 202)])
        self.assertEqual(fake.lines, ["FOLLOW 62", "FOLLOW 65", "FOLLOW 194"])

    def test_a_member_that_breaks_the_protocol_is_cut_off(self):
        for text in ("DECIDED 200 0\n", "DECIDED 127 0\n", f"DECIDED {LAST + 1} 0\n", "\n"):
            fake, = self.desks(lambda line: ["UNDECIDED\n"] if line.startswith("ASK") else repeat(text * 4096))
            with self.subTest(text), Cluster(self.settings([fake], t=0)) as cluster:
                self.assertRaises(Undecided, cluster.wait, 130, timeout=0.5)
                self.assertTrue(comes(lambda: fake.ended))
                self.assertEqual(follows(fake), ["FOLLOW 128"])

    def test_close_ends_all_calls_at_once(self):
        fakes = self.desks(*[member("", "UNDECIDED")] * 4)
        cluster, ended = Cluster(self.settings(fakes)), []
        calls = (lambda: cluster.wait(3), lambda: cluster.decide(3, True), lambda: next(cluster.follow()))

        def end(call):
            try:
                call()
            except Closed:
                ended.append(call)

        callers = [threading.Thread(target=end, args=(call,)) for call in calls]
        for caller in callers:
            caller.start()
        self.assertTrue(comes(lambda: all(len(follows(fake)) == 2 for fake in fakes)))
        cluster.close()
        for caller in callers:
            caller.join(5)
        self.assertEqual((len(ended), links_to(fakes)), (len(calls), 0))

    def test_a_dropped_iterator_leaves_nothing(self):
        fakes = self.desks(*[member("DECIDED 3 1\n", "DECIDED 1")] * 4)

        async def follows():
            async with AsyncCluster(self.settings(fakes)) as cluster:
                before = len(asyncio.all_tasks())
                for _ in range(5):
                    decisions = cluster.follow()
                    self.assertIs((await anext(decisions)).bit, True)
                    self.assertEqual(len(asyncio.all_tasks()), before + 4)
                    del decisions
                    await asyncio.sleep(0.1)
                    self.assertEqual((len(asyncio.all_tasks()), len(cluster._tasks), links_to(fakes)), (before, 0, 0))
                closed = cluster.follow()
                await closed.aclose()
                await asyncio.sleep(0.1)
                self.assertEqual(len(cluster._tasks), 0)
                decisions = cluster.follow()
            with self.assertRaises(Closed):
                async with asyncio.timeout(5):
                    await anext(decisions)

        asyncio.run(follows())
        with Cluster(self.settings(fakes)) as cluster:
            for _ in range(5):
                self.assertIs(next(cluster.follow()).bit, True)
            gc.collect()
            self.assertTrue(comes(lambda: (len(asyncio.all_tasks(cluster._loop)), links_to(fakes)) == (0, 0)))

    @mock.patch("bracha.window.SLOTS", 512)
    def test_slots_without_end_take_bounded_memory(self):
        slots = 4000

        def answer(line):
            if line.startswith("ASK"):
                return ["UNDECIDED\n"]
            first = int(line.split()[1])
            return ["".join(f"DECIDED {slot} 1\n" for slot in range(first, slots)), 60.0]

        def objects():
            gc.collect()
            return len(gc.get_objects())

        cluster = self.cluster(self.desks(*[answer] * 4))
        begun = objects()
        self.assertIs(cluster.wait(0, timeout=20), True)  # those that told it read on
        followed = cluster.follow()
        self.assertEqual(sum(it.bit for it in islice(followed, slots)), slots)
        idle = cluster.follow()
        next(idle)
        time.sleep(0.5)  # whoever takes no decisions holds no memory either
        self.assertLess(objects() - begun, 6000)  # a slot that is kept has two or more
        followed.close()
        idle.close()


@unittest.skipUnless(PROGRAM, "BRACHA names no program")
class Running(unittest.TestCase):
    """A chain of four that runs, with kills, a liar, and journals put away."""

    def members(self, questions):
        members = Members(PROGRAM, questions, "--epochs")
        self.addCleanup(members.close)
        return members

    def decide_all(self, cluster, slots):
        """Decides these slots by eight threads, each in the order of its slots."""

        def decide(part):
            return [cluster.decide(slot, bit_of(slot)) for slot in slots[part::8]]

        with ThreadPoolExecutor(8) as pool:
            for part, told in enumerate(pool.map(decide, range(8))):
                self.assertEqual(told, [bit_of(slot) for slot in slots[part::8]])

    async def slots_after(self, cluster, first, number):
        """Returns so many slots as they are followed from that one on, sorted, and what comes after them in a quarter of a second."""
        decisions = cluster.follow(first=first)
        told = [await anext(decisions) for _ in range(number)]
        self.assertTrue(all(it.bit == bit_of(it.question) for it in told))
        with suppress(TimeoutError):
            async with asyncio.timeout(0.25):
                told.append(await anext(decisions))
        return sorted(it.question for it in told)

    def test_a_chain_goes_on_over_epochs_and_kills(self):
        members = self.members(16)
        with Cluster.open(members.client) as cluster:
            self.assertTrue(cluster.settings.chain)
            self.decide_all(cluster, range(40))
            members.kill(2)
            self.decide_all(cluster, range(40, 80))
            members.start(2)
            self.decide_all(cluster, range(80, 96))
            self.assertTrue(all(cluster.ask(slot) is bit_of(slot) for slot in range(96)))
            self.assertRaises(Undecided, cluster.wait, 96, timeout=0.5)

        # Whoever comes later follows from the beginning or from any slot on.
        async def follows():
            async with AsyncCluster.open(members.client) as another:
                for first in (0, 37, 80):
                    self.assertEqual(await self.slots_after(another, first, 96 - first), [*range(first, 96)])
                self.assertIs(await another.decide(3, not bit_of(3)), bit_of(3))

        asyncio.run(follows())
        with Cluster.open(members.client) as another:
            told = list(islice(another.follow(trust=0, number=30), 66))
        self.assertEqual([it.number for it in told], [*range(30, 96)])
        self.assertTrue(all(it.bit == bit_of(it.question) for it in told))

    def test_slots_that_are_far_or_gone(self):
        members = self.members(8)
        cluster = Cluster.open(members.client)
        self.addCleanup(cluster.close)
        for far in (70_000, LAST):
            self.assertIsNone(cluster.ask(far))
            self.assertEqual({it.stage for it in cluster.state(far)}, {Stage.UNPROPOSED})
            self.assertRaises(TooFar, cluster.decide, far, True)
            self.assertEqual({it.refusal for it in cluster.propose(far, True)}, {Refusal.TOO_FAR})
        self.decide_all(cluster, range(40))
        members.put_away(1, 2)
        self.assertRaises(Gone, cluster.ask, 3, trust=1)
        self.assertIs(cluster.ask(16, trust=1), bit_of(16))
        self.assertIs(cluster.state(15)[1].stage, Stage.GONE)
        answer = cluster.propose(3, True)[1]
        self.assertEqual((answer.stands, answer.refusal), (None, Refusal.GONE))
        self.assertIs(cluster.ask(3), bit_of(3))
        self.assertIs(cluster.decide(3, not bit_of(3)), bit_of(3))
        members.put_away(2, 2)
        members.put_away(3, 2)
        for call in (cluster.ask, cluster.wait, lambda slot: cluster.decide(slot, True)):
            with self.assertRaises(Gone) as caught:
                call(3)
            self.assertEqual(caught.exception.members, [1, 2, 3])
        self.decide_all(cluster, range(40, 56))
        self.assertEqual(sorted(it.question for it in islice(cluster.follow(), 40)), [*range(16, 56)])

    def test_a_slot_that_was_left_out_is_decided_late(self):
        members = self.members(8)
        with Cluster.open(members.client) as cluster, Cluster.open(members.client) as another, ThreadPoolExecutor() as pool:
            self.decide_all(cluster, range(5))
            self.decide_all(cluster, range(6, 24))  # followers are held back at slot 5
            self.assertIsNone(cluster.ask(5))
            waits = pool.submit(another.wait, 5)
            self.assertIs(cluster.decide(5, True), True)
            self.assertIs(waits.result(), True)
            self.decide_all(cluster, range(24, 32))

    def test_a_liar_and_kills(self):
        def lies(line):
            what, *words = line.split()
            if what == "FOLLOW":
                first = int(words[0])
                return ("".join(f"DECIDED {slot} {int(not bit_of(slot))}\n" for slot in range(begin, begin + 1000))
                        for begin in count(first, 1000))
            return [f"DECIDED {int(not bit_of(int(words[0])))}\n" if what == "ASK" else "OK\n"]

        members, fake = self.members(16), Fake(lies)
        self.addCleanup(fake.close)
        settings = Settings.read(members.client)
        # The member at the liar's place runs as well, and is proposed to by another client.
        beside = chain(16, 1, (*settings.desks[:3], fake.desk))
        with Cluster(beside) as cluster, Cluster(settings) as other, ThreadPoolExecutor() as pool:
            decides = pool.submit(self.decide_all, other, range(160))
            for member in range(3):
                self.decide_all(cluster, range(48 * member, 48 * member + 48))
                members.restart(member)
            decides.result()
            told = list(islice(cluster.follow(), 144))
        self.assertEqual(sorted(it.question for it in told), [*range(144)])
        self.assertTrue(all(it.bit == bit_of(it.question) for it in told))


if __name__ == "__main__":
    unittest.main()
