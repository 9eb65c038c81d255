#!/usr/bin/env python3
"""Questions for names, over many known ones: how long the daemon takes for what a browser of metrics asks.

Usage: bench/names.py [NAMES]      (1,000,000 without a number; a hundred of them are metrics of one host)

Sends a point of each of so many names to `./carbon serve`, and asks over a link that is kept. All points stay pending, since a file stands in the
place of the folder `data`. Each row is of one question, asked some times in a row: the milliseconds in which half of the times it was answered,
whole, and those of the processor that the daemon took for it, with the kernel; how many of the known names that are a second, since all of them
are under the question's locks, and how many it tells; and the bytes of the reply. That each of them tells so many names as it should is all that
is checked; nothing timed here is a test. The daemon is killed. Run ./carbon build first.
"""
import http.client
import json
import os
import shutil
import signal
import statistics
import sys
import time

from live import folder, need_program
from serve import WAIT, Daemon, send

HOST = 100  # metrics
LEAST = 100 * HOST
AT_ONCE = 100_000  # lines that are made and sent at once


def questions(count):
    """What is asked, how many names that finds, and how often it is asked."""
    hosts = count // HOST
    return [
        ("/metrics/find?query=*", 1, 200),
        ("/metrics/find?query=servers.*", hosts, 20),
        ("/metrics/find?query=servers.web00042.*", HOST, 200),
        ("/metrics/find?query=servers.web0004*.m0*", HOST // 10 * min(10, hosts - 40), 200),
        ("/metrics/find?query=servers.*.m00", hosts, 10),
        ("/metrics/expand?query=servers.*", hosts, 20),
        ("/metrics/expand?query=servers.web00042.*", HOST, 200),
        ("/metrics/expand?query=servers.*.m00", hosts, 10),
        ("/metrics/index.json", count, 5),
    ]


def lines(first, last, now):
    return b"".join(b"servers.web%05d.m%02d 1 %d\n" % (k // HOST, k % HOST, now) for k in range(first, last))


def names_in(body):
    """How many names a reply tells."""
    told = json.loads(body)
    return len(told["results"] if isinstance(told, dict) else told)


class Link:
    """A link for questions, kept from one to the next."""

    def __init__(self, port):
        self.link = http.client.HTTPConnection("127.0.0.1", port, timeout=WAIT)

    def ask(self, target):
        self.link.request("GET", target)
        reply = self.link.getresponse()
        body = reply.read()
        if reply.status != 200:
            sys.exit("%d: %r" % (reply.status, body[:200]))
        return body


def ask_often(daemon, link, count, target, told, times):
    body = link.ask(target)
    found = names_in(body)
    if found != told:
        sys.exit("%d names for %s" % (found, target))
    spans = []
    used = daemon.seconds()
    for _ in range(times):
        begun = time.perf_counter()
        link.ask(target)
        spans.append(time.perf_counter() - begun)
    used = (daemon.seconds() - used) / times
    half = statistics.median(spans)
    row = "%-56s %9.2f ms %9.2f processor ms %12.0f known/s %11.0f told/s %9d bytes"
    print(row % (target, half * 1e3, used * 1e3, count / half, told / half, len(body)), flush=True)


def kill(daemon):
    """Ends it as it stands: what is pending is lost."""
    os.kill(daemon.pid, signal.SIGKILL)
    daemon.process.communicate(timeout=WAIT)


def main():
    need_program()
    count = int(sys.argv[1]) if len(sys.argv) > 1 else 1_000_000
    if count < LEAST or count % HOST != 0:
        sys.exit("bench/names.py: hundreds of names, at least %d" % LEAST)
    now = int(time.time())
    with folder() as place:
        daemon = Daemon(place)
        try:
            shutil.rmtree(os.path.join(place, "data"))
            with open(os.path.join(place, "data"), "wb"):
                pass  # a file where the folder was: nothing is drained
            seconds, held = daemon.seconds(), daemon.held()
            took = sum(send(daemon.line_port, [lines(k, min(k + AT_ONCE, count), now)]) for k in range(0, count, AT_ONCE))
            seconds, held = daemon.seconds() - seconds, daemon.held() - held
            said = "%d names sent in %.2f s, %.2f processor s, %.0f bytes a name with its point"
            print(said % (count, took, seconds, held / count), flush=True)
            link = Link(daemon.http_port)
            for target, told, times in questions(count):
                ask_often(daemon, link, count, target, told, times)
        finally:
            kill(daemon)


if __name__ == "__main__":
    main()
