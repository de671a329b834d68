#!/usr/bin/env python3
"""bench/reckon.py [--hosts H] [--cores C] [--syncs S] [--gigabits G] [--price P]

What many small chains beside one another would settle on H hosts (100) of C cores (4), each with a disk that takes S syncs a second
(4,100) and a network of G gigabits a second (1), at P a host and hour (0.2). Slots are shared out over the chains by a hash, and each
host bears members of several. Prints a row for each size of a chain, and what is short first.

Nothing here is measured but what a slot costs a member: processor and syncs by `bench/open.py` with 64 slots open (of the unproved
program, beside other work), bytes of a statement by `bench/bytes.py`. Statements and records are counted.
"""
import argparse

# n: milliseconds of a processor and syncs, a slot and member
COSTS = {4: (0.6, 4.5), 7: (1.7, 8.5), 10: (2.7, 13.1)}
STATEMENT = 14.7  # bytes on the network, TCP and IP included, many slots at once
RECORD = 6


def main():
    parser = argparse.ArgumentParser()
    for name, value in (("hosts", 100), ("cores", 4), ("syncs", 4100), ("gigabits", 1.0), ("price", 0.2)):
        parser.add_argument(f"--{name}", type=type(value), default=value)
    have = parser.parse_args()
    print("| n | processor ms | syncs | bytes sent | journal bytes | slots a second | short of | a million slots cost |")
    print("|---|---|---|---|---|---|---|---|")
    for n, (processor, syncs) in COSTS.items():
        heard = 6 * (n - 1) * (2 * n + 1)  # statements that a member hears of a slot, and sends
        journal = RECORD * (2 * (3 + 6 * n) + 1)  # two rounds of three own statements, Echo and Ready of 3n, and the decision
        bounds = {
            "processor": have.hosts * have.cores / (n * processor / 1000),
            "syncs": have.hosts * have.syncs / (n * syncs),
            "network": have.hosts * have.gigabits * 1.25e8 / (n * heard * STATEMENT),
        }
        short = min(bounds, key=bounds.get)
        slots = bounds[short]
        cost = have.hosts * have.price / 3600 / slots * 1e6
        print(f"| {n} | {n * processor:.1f} | {n * syncs:.0f} | {n * heard * STATEMENT:,.0f} | {n * journal:,} | {slots:,.0f} | {short} | {cost:.2f} |")


if __name__ == "__main__":
    main()
