#!/usr/bin/env python3
"""What a drain costs a metric when few or many metrics of one class wait.

Usage: bench/waiting.py [FOLDER [ORDER..]]

Puts one point for each of 3,000 and of 300,000 metrics of one class and drains them all, under each drain order that is named, `sorted` and
`naive` where none is, into a new folder in FOLDER, /dev/shm unless another is named: a folder in memory, so that the file system's own work stays
small. Prints the processor time of the puts and of the drain in microseconds a metric, and the kernel's part of the latter; of the few metrics
the mean of twenty runs. Nothing timed here is a test. Run ./carbon build first.
"""
import sys
import tempfile

from live import MEMORY, Script, class_of, need_program

NOW = 1_700_000_030
CLASS = 12


def names(count):
    """So many names of one class, which the hash of four digits and then of three more tells."""
    ends = [[b"%03d" % k for k in range(1_000) if class_of(b"%03d" % k, hashed) == CLASS] for hashed in range(16)]
    found = []
    front = 0
    while len(found) < count:
        name = b"servers.web%04d" % front
        found += [name + end for end in ends[class_of(name)]]
        front += 1
    return found[:count]


def measure(found, order, root):
    """Microseconds a metric of the puts, of the drain, and the kernel's part of the latter."""
    lines = b"".join(b"%s 1 %d\n" % (name, NOW) for name in found)
    with tempfile.TemporaryDirectory(dir=root) as folder:
        script = Script(folder, ["--limit", "10000000", "--order", order])
        script.settle()
        begun, _ = script.seconds()
        script.tell(b"!clock %d\n" % NOW + lines)
        script.settle()
        put, kernel = script.seconds()
        if script.ask(b"!drain\n") != b"drained %d\n" % len(found):
            sys.exit("unexpected answer")
        drained, kernel_too = script.seconds()
        script.leave()
    return tuple(1e6 * part / len(found) for part in (put - begun, drained - put, kernel_too - kernel))


def main():
    need_program()
    root = sys.argv[1] if len(sys.argv) > 1 else MEMORY
    many = names(300_000)
    print("us a metric")
    print("%-10s %8s %8s %8s %8s" % ("order", "metrics", "puts", "drain", "kernel"))
    for order in sys.argv[2:] or ("sorted", "naive"):
        for found, times in ((many[:3_000], 20), (many, 1)):
            runs = [measure(found, order, root) for _ in range(times)]
            means = tuple(sum(column) / times for column in zip(*runs))
            print("%-10s %8d %8.1f %8.1f %8.1f" % (order, len(found), *means), flush=True)


main()
