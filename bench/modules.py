#!/usr/bin/env python3
"""bench/modules.py [--jobs N] [--top N] CRATE

Runs `rt check` in crates/CRATE and prints what it took: the seconds of a processor of each kind of module that the check writes for a
function (Lts: its steps; Tie, Proof: what holds at them; Layout: its types), and the functions that took most, each with its dearest
modules. What an earlier check kept costs nothing, so remove crates/CRATE/out first. Needs root, since it has the system say which thread
wrote a file (fanotify). N is 4 jobs and 30 functions if it isn't said.
"""
import argparse
import collections
import ctypes
import os
import re
import struct
import subprocess
import sys
import time

CLOSE_WRITE, ON_CHILD, NONBLOCK, UNLIMITED_QUEUE, REPORT_TID, MARK_ADD, CWD = 8, 0x08000000, 2, 0x10, 0x100, 1, -100
EVENT = struct.Struct("<IBBHQii")
LIBC = ctypes.CDLL("libc.so.6", use_errno=True)


def checked(call):
    if call < 0:
        raise OSError(ctypes.get_errno(), os.strerror(ctypes.get_errno()))
    return call


def seconds_of(thread):
    """The seconds of a processor that a thread took so far, or None if it has ended."""
    try:
        with open(f"/proc/{thread}/schedstat", encoding="ascii") as file:
            return int(file.read().split()[0]) / 1e9
    except OSError:
        return None


class Watch:
    """Who writes the modules of a check, and what its thread took since the one before."""

    def __init__(self, folder):
        self.folder, self.marked, self.last, self.found = folder, set(), {}, []
        self.queue = checked(LIBC.fanotify_init(NONBLOCK | UNLIMITED_QUEUE | REPORT_TID, os.O_RDONLY | os.O_CLOEXEC))

    def mark(self):
        """Marks the folders that came since."""
        if os.path.isdir(self.folder):
            for name in set(os.listdir(self.folder)) - self.marked:
                path = os.fsencode(f"{self.folder}/{name}")
                checked(LIBC.fanotify_mark(self.queue, MARK_ADD, ctypes.c_uint64(CLOSE_WRITE | ON_CHILD), CWD, path))
                self.marked.add(name)

    def read(self):
        """Notes what was written since."""
        try:
            events = os.read(self.queue, 1 << 16)
        except BlockingIOError:
            return
        at = 0
        while at < len(events):
            length, _, _, _, _, file, thread = EVENT.unpack_from(events, at)
            at += length
            if file < 0:
                continue
            name = os.path.basename(os.readlink(f"/proc/self/fd/{file}"))
            os.close(file)
            now, before = seconds_of(thread), self.last.get(thread, 0.0)
            self.last[thread] = before if now is None else now
            self.found.append((name, self.last[thread] - before))


def parts_of(name, crate):
    """The function that a module is of, and its kind."""
    path = re.sub(rf"^Rattle-{crate}-(proofs|specs)\.|(\.decls)?\.oantt.*$", "", name)
    kind = re.search(r"\.((?:[A-Z]\w*)(?:-[\d-]+)?)(?:\.[\w-]+)?$", path)
    return (path[:kind.start()], kind[1]) if kind else (path, "itself")


def main():
    words = argparse.ArgumentParser(usage=__doc__)
    words.add_argument("--jobs", type=int, default=4)
    words.add_argument("--top", type=int, default=30)
    words.add_argument("crate")
    said = words.parse_args()
    top = os.path.dirname(os.path.dirname(os.path.realpath(__file__)))
    folder = f"{top}/crates/{said.crate}"
    watch = Watch(f"{folder}/out/incremental")
    with subprocess.Popen(["rt", "check", "--jobs", str(said.jobs)], cwd=folder, stdout=subprocess.DEVNULL) as check:
        while check.poll() is None:
            watch.mark()
            watch.read()
            time.sleep(0.02)
    kinds, functions, modules = collections.Counter(), collections.Counter(), collections.defaultdict(list)
    for name, seconds in watch.found:
        function, kind = parts_of(name, said.crate)
        kinds[kind] += seconds
        functions[function] += seconds
        modules[function].append((seconds, kind))
    print(f"{sum(kinds.values()):8.1f} all")
    for kind, seconds in kinds.most_common(12):
        print(f"{seconds:8.1f} {kind}")
    for function, seconds in functions.most_common(said.top):
        print(f"{seconds:8.1f} {function}:", ", ".join(f"{kind} {took:.1f}" for took, kind in sorted(modules[function], reverse=True)[:4]))
    return check.returncode


if __name__ == "__main__":
    sys.exit(main())
