#!/usr/bin/env python3
"""What a run of the gate costs: processor minutes by part and by crate, while it runs.

Usage: bench/gate_minutes.py [COMMAND..]      (rt ci without words), at the top of the repository

Runs the command, and looks twice a second at the processes of the prover below it: their crate, whether they prove the crate itself, its tests or one
of its edits, and the processor time that they and their ended children have taken. At the end it prints the minutes by part, those of each crate,
the longest chain of crates that stand on one another, by their own proofs, and the elapsed time. What runs shorter than half a second is not seen.
"""
import collections
import os
import re
import subprocess
import sys
import threading
import time

TICKS = os.sysconf("SC_CLK_TCK")


def processes():
    """Each process: its number, its parent and its words."""
    for name in os.listdir("/proc"):
        if name.isdigit():
            try:
                with open("/proc/%s/stat" % name) as file:
                    fields = file.read().rsplit(")", 1)[1].split()
                with open("/proc/%s/cmdline" % name, "rb") as file:
                    words = file.read().decode(errors="replace").split("\0")
                seconds = sum(int(fields[at]) for at in (11, 12, 13, 14)) / TICKS
                yield int(name), int(fields[1]), words, seconds, fields[19]
            except (OSError, ValueError, IndexError):
                pass


def part_of(pid, words):
    """The crate that a process of the prover works at, and for which part of the gate."""
    if os.path.basename(words[0]) != "rattle" or "--crate-name" not in words:
        return None
    crate = words[words.index("--crate-name") + 1]
    try:
        place = os.readlink("/proc/%d/cwd" % pid)
    except OSError:
        place = ""
    if "rt-edit" in place or any("rt-edits" in word for word in words):
        return crate, "edits"
    if "--test" in words:
        return crate, "tests"
    return crate, "proofs"


class Watch(threading.Thread):
    """Looks at the processes below one until it ends."""

    def __init__(self, top):
        super().__init__(daemon=True)
        self.top = top
        self.seen = {}
        self.is_over = threading.Event()
        self.start()

    def run(self):
        while not self.is_over.wait(0.5):
            found = list(processes())
            below = {self.top}
            for pid, parent, *_ in sorted(found):
                if parent in below:
                    below.add(pid)
            for pid, _, words, seconds, begun in found:
                part = pid in below and words and words[0] and part_of(pid, words)
                if part:
                    self.seen[pid, begun] = (part, seconds)

    def minutes(self):
        self.is_over.set()
        self.join()
        total = collections.Counter()
        for part, seconds in self.seen.values():
            total[part] += seconds / 60
        return total


def stands_on():
    """The crates of the repository below each, from crates.txt."""
    below = {}
    with open("crates.txt") as file:
        for line in file:
            name, _, others = re.sub("#.*", "", line).partition(":")
            if name.strip():
                below[name.split()[0]] = others.split()
    return {name: [other for other in others if other in below] for name, others in below.items()}


def longest_chain(own):
    """The crates of the longest chain, by the minutes of their own proofs."""
    below, best = stands_on(), {}

    def chain(name):
        if name not in best:
            longest = max((chain(other) for other in below[name]), key=lambda it: it[0], default=(0, []))
            best[name] = (longest[0] + own[name], [*longest[1], name])
        return best[name]

    return max((chain(name) for name in below), key=lambda it: it[0])


def main():
    command = sys.argv[1:] or ["rt", "ci"]
    begun = time.time()
    process = subprocess.Popen(command)
    watch = Watch(process.pid)
    status = process.wait()
    minutes = watch.minutes()
    own = collections.Counter({crate: spent for (crate, part), spent in minutes.items() if part == "proofs"})
    for part in "proofs", "tests", "edits":
        rows = sorted(((spent, crate) for (crate, of), spent in minutes.items() if of == part), reverse=True)
        print("%s %.1f processor minutes" % (part, sum(spent for spent, _ in rows)))
        for spent, crate in rows:
            print("    %-16s %5.1f" % (crate, spent))
    spent, chain = longest_chain(own)
    print("longest chain %.1f: %s" % (spent, " ".join("%s %.1f" % (crate, own[crate]) for crate in chain)))
    print("elapsed %.1f minutes, load %s at the end" % ((time.time() - begun) / 60, " ".join("%.1f" % x for x in os.getloadavg())))
    sys.exit(status)


main()
