#!/usr/bin/env python3
"""Metric lines through the built program, on one thread: lines per second and peak memory.

Usage: bench/lines.py [LINES]      (1,000,000 without a number)

The kinds of lines:
  one path       one metric, in time order (also a tenth of the lines, to see that time grows with them)
  many paths     10,000 metrics, each with its share of the lines, in mixed order
  refused        short lines that are read to their third field and refused there: framing, reading and counting alone
  long           lines of 16,384 bytes, of which only the blanks between the fields are many (a hundredth of the lines)

Processor time of the program and of the kernel for it, and the most memory that was held, both until the last line is obeyed: nothing is drained.
Nothing is checked, and nothing timed here is a test: the numbers are for reading. Run ./carbon build first.
"""
import random
import sys

from live import Script, folder, need_program

FIRST = 1_700_000_000


def one_path(lines):
    return b"".join(b"servers.web01.load %d.5 %d\n" % (i % 1000, FIRST + i) for i in range(lines))


def many_paths(lines):
    metrics = 10_000
    each = max(1, lines // metrics)
    pairs = [(m, t) for m in range(metrics) for t in range(each)]
    random.Random(7).shuffle(pairs)
    return b"".join(b"servers.web%04d.load %d.25 %d\n" % (m, t, FIRST + 60 * t) for m, t in pairs)


def refused(lines):
    return b"".join(b"servers.web01.load %d.5 x\n" % (i % 1000) for i in range(lines))


def longest(lines):
    return b"".join((b"a.b 1 %d" % (FIRST + i)).rjust(16_384, b" ") + b"\n" for i in range(lines))


KINDS = {"one path": one_path, "many paths": many_paths, "refused": refused, "long": longest}


def run(kind, lines):
    text = KINDS[kind](lines)
    with folder() as place:
        script = Script(place, ["--limit", "10000000"])
        script.settle()
        begun, _ = script.seconds()
        script.tell(text)
        script.settle()
        took = script.seconds()[0] - begun
        _, peak = script.memory()
        script.leave()
    print(
        f"{kind:12} {lines:>9,} lines {len(text) / 1e6:8.1f} MB {took:7.3f} s"
        f" {lines / took:>11,.0f} lines/s {len(text) / 1e6 / took:7.0f} MB/s  peak {peak / 2**20:7.1f} MiB",
        flush=True,
    )


def main():
    need_program()
    lines = int(sys.argv[1]) if len(sys.argv) > 1 else 1_000_000
    for kind, count in [
        ("one path", lines // 10),
        ("one path", lines),
        ("many paths", lines),
        ("refused", lines),
        ("long", max(1, lines // 100)),
    ]:
        run(kind, count)


if __name__ == "__main__":
    main()
