#!/usr/bin/env python3
"""bench/borders.py [PROGRAM]

What the borders between the epochs of a chain cost: four members decide 6 epochs of 1,024 questions with 64 slots open at a time,
and then a single cluster of 4,096 questions does. Prints for each how many it decides a second, and of the chain how long slots
near a border (64 on either side) and all others take, the median and 99 of 100. PROGRAM is bracha; left out, it is
crates/bracha/out/bracha, which `rt run` makes. Ports from 27300 are used.
"""
import importlib.util
import os
import statistics
import sys
import time

TOP = os.path.dirname(os.path.dirname(os.path.realpath(__file__)))
QUESTIONS, EPOCHS, WIDTH = 1024, 6, 64


def epochs_of_tests():
    spec = importlib.util.spec_from_file_location("epochs", f"{TOP}/tests/epochs.py")
    module = importlib.util.module_from_spec(spec)
    spec.loader.exec_module(module)
    return module


def say(desks, lines):
    """The replies of each desk to the lines, which go to all desks before any reply is read."""
    for desk in desks:
        desk.stream.sendall("".join(f"{line}\n" for line in lines).encode())
    return [[desk.lines.readline().decode().strip() for _ in lines] for desk in desks]


def decide(desks, count):
    """Has so many decided, and returns what each took, in seconds, and all of them."""
    began, took, left, coming = {}, {}, [], 0
    start = time.perf_counter()
    while coming < count or left:
        fresh = list(range(coming, min(count, coming + WIDTH - len(left))))
        coming += len(fresh)
        left += fresh
        for slot in fresh:
            began[slot] = time.perf_counter()
        if fresh:
            say(desks, [f"PROPOSE {slot} {slot % 2}" for slot in fresh])
        told = say(desks, [f"ASK {slot}" for slot in left])
        now = time.perf_counter()
        done = {slot for at, slot in enumerate(left) if all(it[at] == f"DECIDED {slot % 2}" for it in told)}
        took.update({slot: now - began[slot] for slot in done})
        left = [slot for slot in left if slot not in done]
        if not done:
            time.sleep(0.0005)
    return took, time.perf_counter() - start


def times(took):
    ordered = sorted(took)
    return f"median {1000 * statistics.median(ordered):.1f} ms, 99 of 100 {1000 * ordered[len(ordered) * 99 // 100]:.1f} ms"


def measure(epochs, port, questions, count):
    with epochs.chain(port, questions=questions) as it:
        desks = [it.desk(me) for me in range(4)]
        for desk in desks:
            desk.ask("ASK 0")
        time.sleep(2)
        return decide(desks, count)


def main():
    epochs = epochs_of_tests()
    took, seconds = measure(epochs, 27300, QUESTIONS, QUESTIONS * EPOCHS)
    print(f"chain: {len(took) / seconds:.0f} a second")
    near = {slot for slot in took if min(slot % QUESTIONS, QUESTIONS - 1 - slot % QUESTIONS) < WIDTH and WIDTH <= slot < len(took) - WIDTH}
    print(f"near a border: {times([took[slot] for slot in near])}")
    print(f"all others: {times([took[slot] for slot in took if slot not in near])}")
    took, seconds = measure(epochs, 27320, 4096, 4096)
    print(f"one epoch alone: {len(took) / seconds:.0f} a second")


if __name__ == "__main__":
    main()
