#!/usr/bin/env python3
"""Globs over many known metrics in the built program: memory a metric, and what a match costs.

Usage: bench/globs.py [NAMES]      (1,000,000 without a number)

Puts one point for each of so many names, in mixed order, and asks three globs that find 1, 100 and 10,000 of them; each also over a time
before all that is kept, where it finds the same but has no series to read and to write. Prints the memory that a name takes beyond its text, with
its pending point; the processor time of a match in microseconds, of several questions in a row; and the instructions of a match, counted
by `valgrind --tool=callgrind` over a tenth of the names. The memory of a name without a pending point is that of a program that was started over
the ring files of a tenth of the names, made in a folder in memory. Nothing timed here is a test. Run ./carbon build first.
"""
import os
import random
import sys

from live import Counted, Script, folder, need_program, write_rules

NOW = 1_700_000_030
CLOCK = b"!clock %d\n" % NOW
LIMIT = ["--limit", "10000000"]
ONE_POINT = b"[all]\npattern = .*\nretentions = 60s:1m\n"
GLOBS = [(1, b"servers.web0001.m01"), (100, b"servers.web0001.*"), (10_000, b"servers.web00*.m*")]
SHOWN = b"&from=%d&until=%d" % (NOW - 60, NOW)
GONE = b"&from=%d&until=%d" % (NOW - 86_400 * 365 - 60, NOW - 86_400 * 365)


def names(count):
    found = [b"servers.web%04d.m%02d" % (k // 100, k % 100) for k in range(count)]
    random.Random(7).shuffle(found)
    return found


def puts(found):
    return b"".join(b"%s 1 %d\n" % (name, NOW) for name in found)


def ask(glob, ends):
    return b"!ask target=" + glob + ends + b"\n"


def with_points(found):
    """Bytes a name with a pending point, and the seconds of each glob's questions."""
    text = sum(map(len, found))
    with folder() as place:
        script = Script(place, LIMIT)
        script.tell(CLOCK)
        script.settle()
        before, _ = script.memory()
        script.tell(puts(found))
        script.settle()
        held, _ = script.memory()
        print("%-72s %12.0f" % ("bytes a name with a pending point, beyond its text", (held - before - text) / len(found)))
        for matches, glob in GLOBS:
            for what, ends in (("found, read and written", SHOWN), ("found alone", GONE)):
                times = max(3, 10_000 // matches)
                answer = script.ask(ask(glob, ends))
                seen = matches if ends is SHOWN else 0
                if answer.count(b'"target"') != seen:
                    sys.exit("unexpected answer: %r" % answer[:200])
                began = script.seconds()[0]
                for _ in range(times):
                    script.ask(ask(glob, ends))
                each = (script.seconds()[0] - began) / (times * matches)
                print("%-72s %12.2f" % ("microseconds a match of %d, %s" % (matches, what), each * 1e6), flush=True)
        script.leave()


def without_points(found):
    """Bytes a name of which a ring file alone is there."""
    text = sum(map(len, found))
    with folder() as place:
        write_rules(place, ONE_POINT)
        held = []
        for made in (found[:1], found):
            script = Script(place, LIMIT)
            script.tell(CLOCK + puts(made))
            script.ask(b"!drain\n")
            script.leave()
            script = Script(place, LIMIT)
            script.settle()
            held.append(script.memory())
            script.leave()
        for k, what in enumerate(("bytes a name with a ring file, beyond its text", "the most while it starts")):
            print("%-72s %12.0f" % (what, (held[1][k] - held[0][k] - text) / len(found)), flush=True)


def counted(found):
    """Instructions of a match."""
    with folder() as place, folder() as counts:
        script = Counted(place, os.path.join(counts, "globs"), LIMIT)
        script.tell(CLOCK + puts(found))
        script.settle()
        for matches, glob in GLOBS:
            for what, ends in (("found, read and written", SHOWN), ("found alone", GONE)):
                times = max(1, 100 // matches)
                each = script.count([ask(glob, ends)] * times)[0] / (times * matches)
                print("%-72s %12.0f" % ("instructions a match of %d, %s" % (matches, what), each), flush=True)
        script.leave()


def main():
    need_program()
    count = int(sys.argv[1]) if len(sys.argv) > 1 else 1_000_000
    if count < 10_000:
        sys.exit("bench/globs.py: the globs find up to 10,000 names")
    found = names(count)
    with_points(found)
    without_points(found[: count // 10])
    counted(names(max(count // 10, 10_000)))


if __name__ == "__main__":
    main()
