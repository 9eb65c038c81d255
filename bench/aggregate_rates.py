#!/usr/bin/env python3
"""What aggregation rules cost: lines a second over one connection under none, 1 and 100 rules, and the memory of what connections have open.

Usage: bench/aggregate_rates.py [LINES]      (500,000 without a number)

Each row is of a `./carbon serve` of its own over a folder in memory, whose disks fail while it is measured, since a file stands in the place of the
folder `data`: nothing is drained. Metrics bring a value a minute, all of them minute by minute.

  no file    no aggregation-rules.conf
  1          one rule, which fits each metric: one output
  100        ten rules that fit each metric, of all five methods, and before each nine that fit none, for another node or another number of nodes
  100 vain   a hundred of those that fit none

For each of these so many lines over one connection, of 1,000, of 10,000 and of 30,000 metrics: the lines a second from the first byte until the
daemon has closed the connection, and the microseconds of the processor a line. The outputs of a path are looked up once and kept, but for no more
than 40,000 paths and outputs of a connection: 10,000 metrics are looked up anew in each minute under ten rules that fit, and 30,000 under one.

Then the memory: metrics bring five values, so that five intervals of each output are open, and the connections stay open. What a daemon without rules
holds is taken off; the rest is what the rules hold, for an output, or for a point. It is told once more when the connections are closed and all is
emitted. How many points were stored is checked; nothing timed here is a test. Run ./carbon build first.
"""
import contextlib
import os
import re
import shutil
import socket
import sys
import time

from aggregator import end, write_rules_with
from live import folder, need_program
from serve import Asker, Daemon, send

METHODS = "sum", "avg", "min", "max", "last"
SCHEMAS = b"[all]\npattern = .*\nretentions = 60s:1h\n"
FITS = "fits.r%02d (60) = %s servers.*.load"
VAIN = "vain.r%02d (60) = sum other%02d.*.load", "vain.r%02d (60) = sum servers.*.load%02d", "vain.r%02d (60) = sum servers.*.load.m%02d"
OPEN = 5  # intervals
WAIT = 120


def fitting(number):
    return FITS % (number, METHODS[number % len(METHODS)])


def in_vain(number):
    return VAIN[number % len(VAIN)] % (number, number)


RULES = {
    "no file": None,
    "1": [fitting(0)],
    "100": [fitting(k // 10) if k % 10 == 9 else in_vain(k) for k in range(100)],
    "100 vain": [in_vain(k) for k in range(100)],
}
MOST = 1_000_000  # points that a connection has open


def value_of(metric, moment):
    return b"%d.25" % ((7 * metric + moment) % 1000)


def lines_of(front, metrics, moments):
    """A line for each metric and moment, moment by moment."""
    return b"".join(b"%s%05d.load %s %d\n" % (front, m, value_of(m, moment), moment) for moment in moments for m in range(metrics))


def moments_of(minutes, step):
    """So many minutes up to now, in steps of so many seconds."""
    end = int(time.time()) // 60 * 60
    return range(end - 60 * minutes, end, step)


class Held:
    """A daemon under these rules, of which the disks fail until it is stopped."""

    def __init__(self, place, rules):
        write_rules_with(place, SCHEMAS, rules and "".join(rule + "\n" for rule in rules))
        self.data = os.path.join(place, "data")
        self.daemon = Daemon(place)

    def fail(self):
        """Puts a file in the place of the folder."""
        shutil.rmtree(self.data)
        with open(self.data, "wb"):
            pass

    def stop(self):
        """Lets it drain all. How many points it stored."""
        os.remove(self.data)
        while not os.path.isdir(self.data):
            time.sleep(0.1)
        self.daemon.settle()
        said, _ = self.daemon.stop()
        counts = re.fullmatch(r"stored (\d+) replaced (\d+) full 0 drains \d+", said)
        if not counts:
            sys.exit("unexpected last line: %r" % said)
        return int(counts[1]) + int(counts[2])


@contextlib.contextmanager
def holding(rules):
    """The same in a folder of its own, ended behind whatever comes."""
    with folder() as place:
        held = Held(place, rules)
        try:
            held.fail()
            yield held
        finally:
            end(held.daemon.process)


def want(count, wanted, what):
    if count != wanted:
        sys.exit("%d %s, not %d" % (count, what, wanted))


def fits(rules):
    return sum(rule.startswith("fits") for rule in rules or ())


def rate(name, rules, metrics, count):
    minutes = max(1, count // metrics)
    lines = lines_of(b"servers.web", metrics, moments_of(minutes, 60))
    with holding(rules) as held:
        seconds = held.daemon.seconds()
        took = send(held.daemon.line_port, [lines])
        seconds = held.daemon.seconds() - seconds
        count = metrics * minutes
        want(held.stop(), count + fits(rules) * minutes, "points")
    row = "%-9s %9d %9d %12.0f %12.3f"
    print(row % (name, metrics, count, count / took, 1e6 * seconds / count), flush=True)


def wait_for(asker, metric, moment, value):
    """Waits until this is the metric's value of the moment's minute."""
    query = "target=%s&from=%d&until=%d&format=raw" % (metric, moment // 60 * 60 - 1, moment)
    until = time.monotonic() + WAIT
    while not asker.ask(query).endswith("|%s\n" % value):
        if time.monotonic() > until:
            sys.exit("no value of %s" % metric)
        time.sleep(0.05)


def memory(rules, links, metrics, step):
    """What so many connections of so many metrics add while they are open, and once they are closed, in bytes; the lines, and the points stored."""
    moments = moments_of(OPEN, step)
    last = metrics - 1
    with holding(rules) as held:
        asker = Asker(held.daemon.http_port)
        before = held.daemon.held()
        open_links = [socket.create_connection(("127.0.0.1", held.daemon.line_port)) for _ in range(links)]
        for number, link in enumerate(open_links):
            link.sendall(lines_of(b"servers.l%d-" % number, metrics, moments))
            wait_for(asker, "servers.l%d-%05d.load" % (number, last), moments[-1], value_of(last, moments[-1]).decode())
        opened = held.daemon.held() - before
        for link in open_links:
            link.shutdown(socket.SHUT_WR)
            while link.recv(4096):
                pass
            link.close()
        closed = held.daemon.held() - before
        return opened, closed, links * metrics * len(moments), held.stop()


def weigh(name, rule, links, metrics, step, outputs, unit):
    """What a rule holds beyond a daemon without rules, for each of its outputs or points."""
    plain, plain_closed, lines, stored = memory(None, links, metrics, step)
    want(stored, lines, "points without rules")
    ruled, ruled_closed, lines, stored = memory([rule], links, metrics, step)
    want(stored, lines + links * outputs * OPEN, "points under a rule")
    more, units = ruled - plain, lines if unit == "point" else links * outputs
    row = "%-30s %8.1f MiB without rules, %7.1f more: %7.1f bytes for each %s; %7.1f more once closed"
    print(row % (name, plain / 2**20, more / 2**20, more / units, unit, (ruled_closed - plain_closed) / 2**20), flush=True)


def main():
    count = int(sys.argv[1]) if len(sys.argv) > 1 else 500_000
    need_program()
    print("%-9s %9s %9s %12s %12s" % ("rules", "metrics", "lines", "lines/s", "us a line"))
    for metrics in 1_000, 10_000, 30_000:
        for name, rules in RULES.items():
            if fits(rules) * metrics * OPEN <= MOST:
                rate(name, rules, metrics, count)
    each = "host.<host>.load (60) = sum servers.<host>.load"
    for links, outputs in (1, 1_000), (1, 10_000), (1, 20_000), (8, 2_500):
        name = "%d connection%s of %d outputs" % (links, "" if links == 1 else "s", outputs)
        weigh(name, each, links, outputs, 60, outputs, "output")
    for metrics in 333, 3_333:
        weigh("1 output of %d points" % (metrics * 60 * OPEN), fitting(0), 1, metrics, 1, 1, "point")


if __name__ == "__main__":
    main()
