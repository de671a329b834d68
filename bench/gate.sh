#!/usr/bin/env bash
# bench/gate.sh: runs `rt ci` in a fresh clone of HEAD and prints what it cost in seconds of a processor, by crate and by
# kind: proofs, tests (their proofs), wrong bodies, and all the rest (compiling, linking, runs, rt itself). It asks the
# system four times a second for the times of the gate's own processes, so what lives shorter counts as the rest.
# The gate's own output goes to the file that is named, or to gate.log. The status is the gate's.
set -euo pipefail
top=$(cd "$(dirname "$0")/.." && pwd)
log=$(realpath -m "${1:-gate.log}")
room=$(mktemp -d)
trap 'rm -rf "$room"' EXIT
git clone -q "$top" "$room/clone"
cd "$room/clone"
python3 - "$log" <<'SCRIPT'
import collections, os, re, resource, subprocess, sys, time

TICK = os.sysconf("SC_CLK_TCK")


def read(path):
    try:
        with open(path, "rb") as file:
            return file.read().decode(errors="replace")
    except OSError:
        return ""


def processes():
    """Each process: its parent, when it began, and the seconds of a processor that it took so far."""
    found = {}
    for pid in filter(str.isdigit, os.listdir("/proc")):
        fields = read(f"/proc/{pid}/stat").rpartition(")")[2].split()
        if len(fields) > 19:
            found[int(pid)] = int(fields[1]), int(fields[19]), (int(fields[11]) + int(fields[12])) / TICK
    return found


def label(pid):
    """The crate and kind of a check, or None for a process that is none."""
    words = read(f"/proc/{pid}/cmdline").split("\0")
    if "--crate-name" not in words or not re.search(r"/rattle$", words[0]):
        return None
    crate = words[words.index("--crate-name") + 1]
    try:
        is_edit = "rt-edit-" in os.readlink(f"/proc/{pid}/cwd")
    except OSError:
        is_edit = False
    return crate, "wrong bodies" if is_edit else "tests" if "--test" in words else "proofs"


def sample(root, labels, taken):
    """Adds what the gate's processes took. A copy that a check makes of itself counts as that check."""
    found = processes()
    children = collections.defaultdict(list)
    for pid, (parent, _, _) in found.items():
        children[parent].append(pid)
    left = [(root, None)]
    while left:
        pid, of_parent = left.pop()
        if pid not in found:
            continue
        key = pid, found[pid][1]
        if not labels.get(key):  # it may not have begun its program when it was seen first
            labels[key] = of_parent or label(pid)
        taken[key] = found[pid][2]
        left += [(it, labels[key]) for it in children[pid]]


began, labels, taken = time.time(), {}, {}
with open(sys.argv[1], "w") as log:
    gate = subprocess.Popen(["rt", "ci"], stdout=log, stderr=subprocess.STDOUT)
    while gate.poll() is None:
        sample(gate.pid, labels, taken)
        time.sleep(0.25)
used = resource.getrusage(resource.RUSAGE_CHILDREN)
whole = used.ru_utime + used.ru_stime
kinds = ("proofs", "tests", "wrong bodies")
sums = collections.Counter()
for key, seconds in taken.items():
    if labels[key]:
        sums[labels[key]] += seconds
crates = sorted({crate for crate, _ in sums}, key=lambda it: -sum(sums[it, kind] for kind in kinds))
print(f"{'crate':20}" + "".join(f"{it:>14}" for it in (*kinds, "all")))
for crate in crates:
    row = [sums[crate, kind] for kind in kinds]
    print(f"{crate:20}" + "".join(f"{it:14.0f}" for it in (*row, sum(row))))
row = [sum(sums[crate, kind] for crate in crates) for kind in kinds]
print(f"{'all, minutes':20}" + "".join(f"{it / 60:14.1f}" for it in (*row, sum(row))))
print(f"the rest: {(whole - sum(row)) / 60:.1f} minutes; the gate: {whole / 60:.1f} minutes of a processor, {(time.time() - began) / 60:.1f} by the clock")
sys.exit(gate.returncode)
SCRIPT
