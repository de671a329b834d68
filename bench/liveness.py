#!/usr/bin/env python3
"""How many rounds questions take: the tables and the picture of docs/LIVENESS.md.

    bench/liveness.py measure PROGRAM [MOST]    plays the questions by `PROGRAM rounds`, those of clusters of at most MOST members
                                                (all, if it isn't said), and prints a line for each run; it takes half an hour
    bench/liveness.py tables                    prints the page's tables, in Markdown, from bench/liveness.txt
    bench/liveness.py draw                      draws docs/pictures/liveness.svg from it
    bench/liveness.py compare PROGRAM [MOST]    measures again, and prints the lines that differ from bench/liveness.txt

bench/liveness.txt is what `measure` printed: `N T LIARS ORDER SEEDS: K K .. open K`, the counts of rounds 1, 2 and so on.
"""
import os
import subprocess
import sys

TOP = os.path.dirname(os.path.dirname(os.path.realpath(__file__)))
KEPT = f"{TOP}/bench/liveness.txt"
ORDERS = ["random", "adversary", "links"]
THIRDS = [(4, 1, 1000), (7, 2, 1000), (10, 3, 1000), (13, 4, 200), (16, 5, 200), (32, 10, 20)]
FEWER = [(7, 1, 1000), (10, 1, 1000), (10, 2, 1000), (13, 1, 200), (13, 2, 200), (13, 3, 200), (16, 1, 200), (16, 2, 200),
         (16, 3, 200), (16, 4, 200), (32, 1, 20), (32, 2, 20), (32, 3, 20), (32, 5, 20)]
COLORS = ["#1b6ca8", "#2a9d5c", "#c78a00", "#c4472b", "#7a3fa0", "#444444"]


def runs():
    """What is measured: n, t, liars, order and seeds."""
    for n, t, seeds in THIRDS:
        yield from ((n, t, liars, order, seeds) for liars in (0, t) for order in ORDERS)
    yield from ((n, t, t, "adversary", seeds) for n, t, seeds in FEWER)
    yield from ((16, 5, liars, "adversary", 200) for liars in (1, 2, 3))
    yield from ((64, 21, liars, order, 4) for liars in (0, 21) for order in ORDERS[:2])


def measured(program, run):
    n, t, liars, order, seeds = run
    words = ["rounds", "--n", n, "--t", t, "--liars", liars, "--order", order, "--seeds", seeds, "--quiet"]
    told = subprocess.run([program, *map(str, words)], check=True, capture_output=True, text=True).stdout
    rows = dict(line.split(": ") for line in told.splitlines())
    counts = [rows[key] for key in rows if key.startswith("round ")]
    return f"{n} {t} {liars} {order} {seeds}: {' '.join([*counts, 'open', rows['open']])}"


def kept():
    """The counts by run: those of the rounds, and the open ones."""
    found = {}
    for line in open(KEPT, encoding="utf-8"):
        run, _, counts = line.partition(": ")
        n, t, liars, order, seeds = run.split()
        *rounds, _, still = counts.split()
        found[int(n), int(t), int(liars), order, int(seeds)] = [int(it) for it in rounds], int(still)
    return found


def share(part, of):
    return "0" if part == 0 else "all" if part == of else f"{100 * part / of:.1f} %".replace(".0 %", " %")


def median(rounds, still):
    """The round by which half of them were decided."""
    half, seen = (sum(rounds) + still + 1) // 2, 0
    for number, count in enumerate(rounds, 1):
        seen += count
        if seen >= half:
            return str(number)
    return "none"


def random_table(found):
    yield "| n, t | liars | seeds | round 1 | round 2 | round 3 | later | last | open |"
    yield "|---|---|---|---|---|---|---|---|---|"
    for n, t, _ in [*THIRDS, (64, 21, 4)]:
        for (n1, t1, liars, order, seeds), (rounds, still) in found.items():
            if (n1, t1, order) == (n, t, "random"):
                first = [share(it, seeds) for it in (rounds + [0, 0, 0])[:3]]
                yield f"| {n}, {t} | {liars} | {seeds} | {' | '.join(first)} | {share(sum(rounds[3:]), seeds)} | {len(rounds)} | {still} |"


def adversary_table(found):
    yield "| n, t | seeds | no liar | no liar, links in order | t liars | t liars, links in order |"
    yield "|---|---|---|---|---|---|"
    for n, t, seeds in [*THIRDS, (64, 21, 4)]:
        cells = []
        for liars in (0, t):
            for order in ORDERS[1:]:
                it = found.get((n, t, liars, order, seeds))
                cells.append(f"{it[1]} ({median(*it)})" if it else "not played")
        yield f"| {n}, {t} | {seeds} | {' | '.join(cells)} |"


def fewer_table(found):
    sizes = [7, 10, 13, 16, 32]
    yield "| t | " + " | ".join(f"n {n}" for n in sizes) + " |"
    yield "|---|" + "---|" * len(sizes)
    for t in (1, 2, 3, 4, 5, 10):
        cells = []
        for n in sizes:
            at = [(it, key[4]) for key, it in found.items() if key[:4] == (n, t, t, "adversary")]
            cells.append(f"{share(at[0][0][1], at[0][1])} ({median(*at[0][0])})" if at else "")
        yield f"| {t} | {' | '.join(cells)} |"


def curve(rounds, still, x, y):
    """The points of the share that is open behind each round."""
    left = total = sum(rounds) + still
    points = [(0, 1.0)]
    for number in range(1, 33):
        left -= rounds[number - 1] if number <= len(rounds) else 0
        points.append((number, left / total))
    return " ".join(f"{x + 9 * number:g},{y + 180 * (1 - part):.1f}" for number, part in points)


def panel(found, x, title, liars_of, order):
    yield f'<text x="{x}" y="26" font-weight="bold">{title}</text>'
    yield f'<path d="M{x} 40V220H{x + 290}" fill="none" stroke="#888"/>'
    for part in (0, 50, 100):
        yield f'<text x="{x - 5}" y="{224 - 1.8 * part:g}" text-anchor="end">{part} %</text>'
    for number in (0, 8, 16, 24, 32):
        yield f'<text x="{x + 9 * number}" y="236" text-anchor="middle">{number}</text>'
    for color, (n, t, seeds) in zip(COLORS, THIRDS):
        it = found.get((n, t, liars_of(t), order, seeds))
        if it:
            yield f'<polyline points="{curve(*it, x, 40)}" fill="none" stroke="{color}" stroke-width="2"><title>n {n}</title></polyline>'


def picture(found):
    yield '<svg xmlns="http://www.w3.org/2000/svg" viewBox="0 0 1060 300" font-family="sans-serif" font-size="12">'
    yield '<rect width="1060" height="300" fill="white"/>'
    yield from panel(found, 50, "drawn order, t liars", lambda t: t, "random")
    yield from panel(found, 400, "adversary, no liar", lambda t: 0, "adversary")
    yield from panel(found, 750, "adversary, t liars, links in order", lambda t: t, "links")
    yield '<text x="530" y="258" text-anchor="middle">share of questions that are open after each round</text>'
    for at, (color, (n, t, _)) in enumerate(zip(COLORS, THIRDS)):
        yield f'<path d="M{180 + 120 * at} 280h24" stroke="{color}" stroke-width="3"/><text x="{210 + 120 * at}" y="284">n {n}, t {t}</text>'
    yield "</svg>"


def main(words):
    match words:
        case ["measure" | "compare" as what, program, *most]:
            limit = int(most[0]) if most else 64
            old = open(KEPT, encoding="utf-8").read().splitlines() if what == "compare" else []
            for run in runs():
                if run[0] <= limit and (line := measured(program, run)) not in old:
                    print(line, flush=True)
        case ["tables"]:
            found = kept()
            print("\n".join([*random_table(found), "", *adversary_table(found), "", *fewer_table(found)]))
        case ["draw"]:
            with open(f"{TOP}/docs/pictures/liveness.svg", "w", encoding="utf-8") as file:
                file.write("\n".join(picture(kept())) + "\n")
        case _:
            sys.exit(__doc__)


if __name__ == "__main__":
    main(sys.argv[1:])
