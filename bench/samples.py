#!/usr/bin/env python3
"""A large input that is made from a number: seconds, most memory and instructions of `carbon sample`.

Usage: bench/samples.py [LINES]      (1,000,000 without a number)

Runs `carbon sample 7 LINES` twice over folders in memory. Instructions
are those that `valgrind --tool=callgrind` counts of a tenth as many lines, less those of a sample of one line. The outputs of the two runs are compared,
which is all that is checked. Nothing timed here is a test. Run ./carbon build first.
"""
import os
import re
import subprocess
import sys
import time

from live import PROGRAM, folder, need_program


def peak(pid):
    """The most bytes of memory that a process has held so far, or 0 once it is gone."""
    try:
        with open("/proc/%d/status" % pid) as file:
            found = re.search(r"^VmHWM:\s+(\d+)", file.read(), re.MULTILINE)
    except OSError:
        return 0
    return int(found[1]) * 1024 if found else 0


def run(lines, under=()):
    """A run's output, the processor time that it took, and the most memory that was seen."""
    with folder() as place:
        process = subprocess.Popen(
            [*under, PROGRAM, "sample", "7", str(lines)], cwd=place, stdin=subprocess.DEVNULL, stdout=subprocess.PIPE
        )
        most, ended = 0, 0
        while not ended:
            time.sleep(0.01)
            most = max(most, peak(process.pid))
            ended, status, usage = os.wait4(process.pid, os.WNOHANG)
        if status != 0:
            sys.exit("unexpected status %d" % status)
        return process.stdout.read(), usage, most


def instructions(lines):
    with folder() as counts:
        name = os.path.join(counts, "out")
        run(lines, ["valgrind", "-q", "--tool=callgrind", "--callgrind-out-file=" + name])
        with open(name) as file:
            return int(re.search(r"^(?:totals|summary): (\d+)", file.read(), re.MULTILINE).group(1))


def main():
    need_program()
    lines = int(sys.argv[1]) if len(sys.argv) > 1 else 1_000_000
    (first, usage, most), (second, again, _) = run(lines), run(lines)
    if first != second:
        sys.exit("two runs differ")
    print(first.decode().rstrip().splitlines()[-1])
    print("%d lines" % lines)
    print("seconds of the processor      %6.2f %6.2f" % (usage.ru_utime + usage.ru_stime, again.ru_utime + again.ru_stime))
    print("the kernel's part             %6.2f %6.2f" % (usage.ru_stime, again.ru_stime))
    print("most memory, MB               %6.1f" % (most / 1e6))
    some = max(lines // 10, 2)
    print("instructions a line, of %d %6.0f" % (some, (instructions(some) - instructions(1)) / (some - 1)))


main()
