#!/usr/bin/env python3
"""tests/chance.py [--seed S] [--rounds K] [--seconds T] [PROGRAM]

Chains under chance, K rounds (10) of T seconds (40), each with the next seed from S (1) on: of one, four or seven members, and of few
questions an epoch, so that epochs come and go. Members are killed, stopped and started again; clients say lines that are drawn, and leave
some slots open; followers come and go. All that members tell has to fit:

- a slot has one decision, a bit that was proposed to somebody, and a line its own kind of reply;
- a follower is told nothing twice on one connection, nor of an epoch before the one with which it began, and something within 16 seconds
  of a member that runs.

At the end all that was proposed is proposed to all, and decided by all within 90 seconds; and a new follower of each member is told all
of it, epoch by epoch. PROGRAM is crates/bracha/out/bracha unless another is named. By hand; it takes ports from 21000 on, and two
minutes a round. Prints what doesn't fit, and in its last line `N passed, M failed`: rounds. The status is 1 where M isn't 0.
"""
import argparse
import collections
import os
import random
import shutil
import signal
import socket
import sys
import threading
import time

parser = argparse.ArgumentParser(usage=__doc__)
parser.add_argument("--seed", type=int, default=1)
parser.add_argument("--rounds", type=int, default=10)
parser.add_argument("--seconds", type=float, default=40)
parser.add_argument("program", nargs="*")
WORDS = parser.parse_args()
sys.argv[1:] = WORDS.program

import epochs  # pylint: disable=wrong-import-position

SILENCE = 16


def replies_to(word):
    """The first words of the replies to a line, apart from decisions."""
    return {
        "PROPOSE": ("OK", "HAVE"), "ASK": ("UNDECIDED",), "AWAIT": ("UNDECIDED",), "STATE": ("UNPROPOSED", "OPEN", "SPENT"), "STATUS": ("UP",),
        "LINKS": ("LINKS",), "EPOCHS": ("EPOCHS",), "TRANSCRIPT": ("UNDECIDED", "THIN", "transcript"),
    }[word]


class Round:
    """A chain under chance, and what is known of it."""

    def __init__(self, seed):
        self.seed, self.chance, self.begun = seed, random.Random(seed), time.monotonic()
        self.n, t = self.chance.choice([(4, 1), (4, 1), (1, 0), (7, 2)])
        self.chain = epochs.Chain(21000, questions=self.chance.choice([2, 3, 4, 8, 16]), n=self.n, t=t)
        self.decided, self.proposed = {}, collections.defaultdict(set)
        self.lock, self.stop, self.wrong = threading.Lock(), threading.Event(), 0
        # The members that run, and when each was last disturbed.
        self.runs, self.disturbed = set(), collections.defaultdict(float)

    def fails(self, what):
        with self.lock:
            self.wrong += 1
            print(f"seed {self.seed}, after {time.monotonic() - self.begun:.1f} s: {what}", flush=True)

    def expect(self, holds, what):
        if not holds:
            self.fails(what)

    def newest(self):
        with self.lock:
            return max(self.decided, default=0)

    def hear(self, slot, bit, who):
        """Somebody told a decision."""
        with self.lock:
            known, bits = self.decided.setdefault(slot, bit), set(self.proposed[slot])
        self.expect(known == bit and bit in bits, f"{who}: slot {slot} is {bit}, told {known} before, proposed {bits}")

    def is_quiet(self, me, seconds):
        """Whether a member has run undisturbed for so long."""
        return me in self.runs and time.monotonic() - self.disturbed[me] > seconds and not self.stop.is_set()

    def dial(self, me, timeout):
        return socket.create_connection(("127.0.0.1", self.chain.port + 50 + me), timeout=timeout)

    def follows(self, me, number):
        """Follows a member, from the place at which the connection before ended."""
        chance, place = random.Random(self.seed * 1000 + me * 10 + number), 0
        counts = collections.Counter()
        while not self.stop.is_set():
            try:
                with self.dial(me, SILENCE) as link:
                    place = self.follow(me, link, place, counts, time.monotonic() + chance.choice([0.5, 2, 5, 30, 60]))
            except TimeoutError:
                self.expect(not self.is_quiet(me, SILENCE + 1), f"a follower of {me} from {place} on heard nothing for {SILENCE} s")
            except OSError:
                time.sleep(0.1)

    def follow(self, me, link, place, counts, end):
        """Follows over one connection, and gives the place at which it ends."""
        questions, told = self.chain.questions, set()
        lowest = place // questions * questions
        link.sendall(f"FOLLOW {place}\n".encode())
        for line in link.makefile("r"):
            if line != "\n":
                word, slot, bit = line.split()
                slot = int(slot)
                self.expect(word == "DECIDED" and slot >= lowest and slot not in told, f"a follower of {me} from {place} on is told {line!r}")
                self.hear(slot, int(bit), f"a follower of {me}")
                told.add(slot)
                first = slot // questions * questions
                counts[first] = max(counts[first], place - first if first == lowest else 0) + 1
                if first >= place // questions * questions:
                    place = first + counts[first]
            if time.monotonic() > end or self.stop.is_set():
                break
        return place

    def draw(self, chance, me):
        """A line for that member."""
        questions, newest = self.chain.questions, self.newest()
        word = chance.choice(["PROPOSE"] * 5 + ["ASK"] * 2 + ["STATE", "AWAIT", "STATUS", "LINKS", "EPOCHS", "TRANSCRIPT"])
        if word in ("STATUS", "LINKS", "EPOCHS"):
            return word, None
        slot = max(0, newest + chance.randrange(-3 * questions, 3 * questions)) if chance.random() < 0.8 else chance.randrange(newest + 1)
        if word == "PROPOSE" and slot % 7 == 5 and chance.random() < 0.97:
            word = "ASK"  # so these slots stay open
        if word != "PROPOSE":
            return f"{word} {slot}", slot
        bit = chance.randrange(2) if slot % 3 == 0 else slot % 2
        with self.lock:
            self.proposed[slot].add(bit)
        return f"PROPOSE {slot} {bit}", slot

    def talks(self, number):
        """Says lines that are drawn, in pieces that are drawn, and looks at the replies."""
        chance = random.Random(self.seed * 77 + number)
        while not self.stop.is_set():
            me = chance.randrange(self.n)
            try:
                with self.dial(me, 45) as link:
                    replies = link.makefile("r")
                    for _ in range(chance.randrange(1, 12)):
                        lines = [self.draw(chance, me) for _ in range(chance.choice([1, 1, 1, 2, 5, 20]))]
                        link.sendall("".join(f"{line}\n" for line, _ in lines).encode())
                        if chance.random() < 0.03:
                            break
                        for line, slot in lines:
                            self.take(me, line, slot, replies)
            except TimeoutError:
                self.expect(not self.is_quiet(me, 46), f"a client of {me} had no reply for 45 s")
            except OSError:
                time.sleep(0.1)

    def take(self, me, line, slot, replies):
        """Looks at the reply to a line."""
        reply = replies.readline()
        if not reply.endswith("\n"):
            raise ConnectionError
        word, first, *more = line.split()[0], *reply.split()
        if first == "DECIDED" and word in ("ASK", "AWAIT", "STATE"):
            self.hear(slot, int(more[0]), f"{line} at {me}")
        else:
            self.expect(first in replies_to(word), f"{line} at {me}: {reply!r}")
        for _ in range(int(more[4]) if first == "transcript" else 0):
            replies.readline()

    def disturb(self):
        """Kills a member and starts it again, or stops it for a while, or neither."""
        me, which = self.chance.randrange(self.n), self.chance.random()
        if which > 0.5:
            return
        self.runs.discard(me)
        if which < 0.35:
            self.chain.kill(me)
            time.sleep(self.chance.choice([0, 0, 0.5, 3, 12, 20]))
            self.chain.start(me, 60)
        else:
            self.chain.runs[me].send_signal(signal.SIGSTOP)
            time.sleep(self.chance.choice([0.2, 1, 3, 6]))
            self.chain.runs[me].send_signal(signal.SIGCONT)
        self.disturbed[me] = time.monotonic()
        self.runs.add(me)

    def play(self):
        for me in range(self.n):
            self.chain.start(me)
            self.runs.add(me)
        threads = [threading.Thread(target=self.follows, args=(me, it), daemon=True) for me in range(self.n) for it in range(2)]
        threads += [threading.Thread(target=self.talks, args=(it,), daemon=True) for it in range(3)]
        for thread in threads:
            thread.start()
        end = time.monotonic() + WORDS.seconds
        while time.monotonic() < end:
            time.sleep(self.chance.random() * 4)
            self.disturb()
            for me, run in self.chain.runs.items():
                epochs.expect(run.poll() is None, f"member {me} ends with {run.returncode}: {self.chain.log(me)[-300:]}")
        self.stop.set()
        self.finish()

    def finish(self):
        """Has all decided that was proposed, and told to a new follower of each member."""
        newest = self.newest()
        with self.lock:
            slots = sorted(slot for slot, bits in self.proposed.items() if bits and slot <= newest + 5 * self.chain.questions)
            for slot in slots:
                self.proposed[slot].add(slot % 2)
        proposers = [threading.Thread(target=self.propose_all, args=(me, slots)) for me in range(self.n)]
        for thread in proposers:
            thread.start()
        for thread in proposers:
            thread.join()
        for me in range(self.n):
            desk, left, end = self.chain.desk(me), slots, time.monotonic() + 90
            while left and time.monotonic() < end:
                replies = desk.ask(*[f"ASK {slot}" for slot in left[:200]])
                for slot, reply in zip(left, replies):
                    if reply != "UNDECIDED":
                        self.hear(slot, int(reply.split()[1]), f"ASK {slot} at {me}")
                left = [slot for slot, reply in zip(left, replies) if reply == "UNDECIDED"] + left[200:]
                time.sleep(0.1)
            self.expect(not left, f"member {me} doesn't know {left[:9]} of {len(slots)}")
            follower = self.chain.desk(me)
            follower.connect()
            follower.stream.sendall(b"FOLLOW 0\n")
            told = epochs.told_by(follower, len(slots), 60.0)
            of = [slot // self.chain.questions for slot in told]
            self.expect(len(set(told)) == len(told) and of == sorted(of), f"a follower of {me} is told {told}")
            self.expect(set(slots) <= set(told), f"a follower of {me} isn't told {sorted(set(slots) - set(told))[:9]} of {len(slots)}")

    def propose_all(self, me, slots):
        desk = self.chain.desk(me)
        for slot in slots:
            reply = desk.ask(f"PROPOSE {slot} {slot % 2}")[0]
            self.expect(reply.split()[0] in replies_to("PROPOSE"), f"PROPOSE {slot} at {me}: {reply}")
        desk.close()


def passes(seed):
    it = Round(seed)
    try:
        it.play()
    except (epochs.Wrong, OSError) as error:
        it.fails(error)
    finally:
        it.stop.set()
        it.chain.end()
    print(f"seed {seed}: n {it.n}, {it.chain.questions} questions, {len(it.decided)} decided; {it.wrong or 'nothing'} wrong", flush=True)
    if not it.wrong:
        shutil.rmtree(it.chain.folder)
    return not it.wrong


def main():
    passed = sum(passes(seed) for seed in range(WORDS.seed, WORDS.seed + WORDS.rounds))
    print(f"{passed} passed, {WORDS.rounds - passed} failed")
    os._exit(1 if passed < WORDS.rounds else 0)  # followers may wait in a read


if __name__ == "__main__":
    main()
