#!/usr/bin/env python3
"""What metric lines wait for while questions are asked: how long a batch of them takes from its bytes to the next read of its connection.

Usage: bench/put_waits.py [SECONDS [NAMES..]]      (10 seconds each, over 100,000 and 1,000,000 names where none are told)

Runs `carbon serve` in a folder in memory with a library before the system's `recv` (bench/put_waits_c.c), which writes down how long the thread that
reads a connection of lines is away between two reads: in that time it reads the lines that came and puts their points, and waits for every lock that
it needs. First all names are put, a point each, and stay pending but for a file a second. Then a process of its own sends a hundred lines a
millisecond of 10,000 of them, whose points are there and are replaced, and beside it one client asks one of these questions again and again. Metrics are
drained as they came first (`--order naive`), but in the first row:

  sorted     no question, by the order without an option: all metrics of a class are sorted when its queue is made, and each time that it is looked
             whether its next drain makes a file
  nothing    no question
  path       one series by its whole name
  branch     the hundred series of a branch
  star       one star for a node in the middle of the pattern, which finds a series of each branch
  long       a short pattern that is held against all names, and finds none
  braces     `{` and 400 times `*w*e*b*x`, each with another ending, `}` for a node: 4,000 bytes
  head       four targets of such patterns, which differ: about the most that a head of 16,384 bytes holds
  form       64 targets of four such patterns each, which differ, in a form of 1 MB
  find       `/metrics/find?query=*`, for which all names are gone over
  pending    the 10,000 metrics of the lines over an hour, once each of them has sixty points pending
  most       the same metrics over 399 minutes, once each of them has so many points pending: 3,990,000, about the most that a question may find

Printed are the answers and the milliseconds of half of them and of the longest, and of the batches of lines how many there were and the milliseconds that
half of them, 99 of 100, 999 of 1,000 and the longest took. A batch takes some time of its own, and waits for a processor too: that is what the first row
shows. Nothing timed here is a test. Wants a C compiler, `cc`. Run ./carbon build first.
"""
import array
import contextlib
import http.client
import mmap
import multiprocessing
import os
import socket
import struct
import subprocess
import sys
import tempfile
import threading
import time
import urllib.parse

from live import HERE, PROGRAM, folder, need_program

METRICS = 10_000
LINES = 100  # a millisecond
ROOM = 1 << 20  # batches
NOW = int(time.time()) // 60 * 60


def names_of(count):
    return ["servers.web%05d.m%02d" % (k // 100, k % 100) for k in range(count)]


def braces(salt):
    """A node's pattern of about 4,000 bytes that fits none of the names."""
    return "{" + ",".join("*w*e*b*%c%c" % (97 + (salt + k) % 26, 97 + (salt + k // 26) % 26) for k in range(390)) + "}"


def questions(count):
    """What is asked, by name: the way, and the form that goes with it where it is one."""

    def render(*globs):
        return urllib.parse.urlencode([("target", glob) for glob in globs] + [("from", "-5min"), ("format", "raw")], safe="{},*.()")

    hostile = ["servers.%s.m01" % braces(salt) for salt in range(256)]
    groups = ["group(%s)" % ",".join(hostile[at : at + 4]) for at in range(0, 256, 4)]
    return [
        ("path", "/render?" + render("servers.web00001.m01"), None),
        ("branch", "/render?" + render("servers.web00001.*"), None),
        ("star", "/render?" + render("servers.*.m01"), None),
        ("long", "/render?" + render("servers.*x.m*"), None),
        ("braces", "/render?" + render(hostile[0]), None),
        ("head", "/render?" + render(*hostile[:4]), None),
        ("form", "/render", render(*groups)),
        ("find", "/metrics/find?query=*", None),
    ]


def pending(count, minutes):
    """The question that finds every so manyth name, so that they are 10,000."""
    node = "m?0" if count // METRICS < 100 else "m00"
    window = [("from", NOW - 60 * minutes), ("until", NOW), ("format", "raw")]
    return "/render?" + urllib.parse.urlencode([("target", "servers.*." + node), *window])


def library(place):
    made = os.path.join(place, "put_waits.so")
    subprocess.run(["cc", "-O2", "-shared", "-fPIC", "-o", made, os.path.join(HERE, "put_waits_c.c"), "-ldl"], check=True)
    return made


def free_port():
    with socket.create_server(("127.0.0.1", 0)) as server:
        return server.getsockname()[1]


class Daemon:
    def __init__(self, place, preload, *order):
        self.told = os.path.join(place, "waits")
        with open(self.told, "wb") as file:
            file.truncate(8 + 16 * ROOM)
        self.lines, self.http = free_port(), free_port()
        surroundings = dict(os.environ, LD_PRELOAD=preload, WAITS=self.told, LINE_PORT=str(self.lines))
        words = ["--line-port", self.lines, "--http-port", self.http, "--limit", 10_000_000, "--creates", 1, *order]
        self.process = subprocess.Popen(
            [PROGRAM, "serve", *map(str, words)], stdin=subprocess.PIPE, stdout=subprocess.DEVNULL, stderr=subprocess.PIPE, cwd=place, env=surroundings
        )
        while b"carbon: lines on" not in self.process.stderr.readline():
            if self.process.poll() is not None:
                sys.exit("no ports: status %d" % self.process.returncode)
        threading.Thread(target=self.process.stderr.read, daemon=True).start()
        with open(self.told, "r+b") as file:
            self.map = mmap.mmap(file.fileno(), 0)

    def begin(self):
        """Forgets the batches so far."""
        self.map[:8] = bytes(8)

    def batches(self):
        """The milliseconds of each since then, in order of length."""
        count = min(struct.unpack("<Q", self.map[:8])[0], ROOM)
        pairs = array.array("Q", self.map[8 : 8 + 16 * count])
        return sorted(away / 1e6 for away in pairs[1::2])

    def put(self, names):
        with socket.create_connection(("127.0.0.1", self.lines)) as link:
            for at in range(0, len(names), 10_000):
                link.sendall("".join("%s 1 %d\n" % (name, NOW) for name in names[at : at + 10_000]).encode())
            link.shutdown(socket.SHUT_WR)
            link.recv(1)

    def put_minutes(self, names, first, end):
        """A point of each for each of these minutes ago."""
        with socket.create_connection(("127.0.0.1", self.lines)) as link:
            for minute in range(first, end):
                link.sendall("".join("%s 1 %d\n" % (name, NOW - 60 * minute) for name in names).encode())
            link.shutdown(socket.SHUT_WR)
            link.recv(1)

    def end(self):
        self.process.kill()
        self.process.wait()


def send(port, pieces):
    """Sends until it is killed."""
    with socket.create_connection(("127.0.0.1", port)) as link:
        link.setsockopt(socket.IPPROTO_TCP, socket.TCP_NODELAY, 1)
        due, number = time.monotonic(), 0
        while True:
            link.sendall(pieces[number % len(pieces)])
            number += 1
            due = max(due + 0.001, time.monotonic() - 0.01)
            time.sleep(max(0, due - time.monotonic()))


def ask(port, way, form, until):
    """The statuses, and the milliseconds of each answer."""
    statuses, took = set(), []
    while time.monotonic() < until:
        link = http.client.HTTPConnection("127.0.0.1", port, timeout=600)
        begun = time.perf_counter()
        if form is None:
            link.request("GET", way)
        else:
            link.request("POST", way, form, {"Content-Type": "application/x-www-form-urlencoded"})
        reply = link.getresponse()
        reply.read()
        took.append((time.perf_counter() - begun) * 1000)
        statuses.add(reply.status)
        link.close()
    return statuses, sorted(took)


def at(ordered, part):
    return ordered[min(len(ordered) - 1, int(len(ordered) * part))] if ordered else float("nan")


def row(daemon, count, seconds, what, way, form):
    daemon.begin()
    until = time.monotonic() + seconds
    if way is None:
        time.sleep(seconds)
        answers = "-"
    else:
        statuses, took = ask(daemon.http, way, form, until)
        answers = "%d times %s, %.1f, %.1f ms" % (len(took), "/".join(map(str, sorted(statuses))), at(took, 0.5), took[-1])
    waits = daemon.batches()
    told = count, what, answers, len(waits), at(waits, 0.5), at(waits, 0.99), at(waits, 0.999), waits[-1]
    print("%d | %-7s | %s | %d batches: %.2f, %.2f, %.2f, %.2f ms" % told, flush=True)


@contextlib.contextmanager
def fed(names, pieces, preload, *order):
    """A daemon that has these names and gets lines."""
    with folder() as place:
        daemon = Daemon(place, preload, *order)
        daemon.put(names)
        sender = multiprocessing.Process(target=send, args=(daemon.lines, pieces), daemon=True)
        sender.start()
        time.sleep(1)
        yield daemon
        sender.kill()
        daemon.end()


def measure(count, seconds, preload):
    names = names_of(count)
    pieces = [
        "".join("%s 2 %d\n" % (names[k * (count // METRICS)], NOW) for k in range(first, first + LINES)).encode() for first in range(0, METRICS, LINES)
    ]
    with fed(names, pieces, preload) as daemon:
        row(daemon, count, seconds, "sorted", None, None)
    with fed(names, pieces, preload, "--order", "naive") as daemon:
        for what, way, form in [("nothing", None, None), *questions(count), ("nothing", None, None)]:
            row(daemon, count, seconds, what, way, form)
        asked = [names[k * (count // METRICS)] for k in range(METRICS)]
        for what, first, end in ("pending", 1, 60), ("most", 60, 399):
            daemon.put_minutes(asked, first, end)
            row(daemon, count, seconds, what, pending(count, end), None)


def main():
    need_program()
    words = [float(word) for word in sys.argv[1:]]
    seconds, counts = (words[0] if words else 10), ([int(word) for word in words[1:]] or [100_000, 1_000_000])
    print("names | asked meanwhile | answers: half, longest | batches of lines: half, 99 of 100, 999 of 1,000, longest")
    with tempfile.TemporaryDirectory() as made:
        preload = library(made)
        for count in counts:
            measure(count, seconds, preload)


if __name__ == "__main__":
    main()
