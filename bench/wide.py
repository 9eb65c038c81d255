#!/usr/bin/env python3
"""What questions cost whose globs are held against very many names, and what they make others wait.

Usage: bench/wide.py [NAMES [SHAPE]]      (100,000 names, and both shapes, `branches` and `nodes`, where none is named)

Runs `carbon serve` over a folder in memory with so many names, a point each: once a hundred names below each of the branches `servers.web0000` and on,
once all of one node. Then each of these is asked, alone and while another client asks for one series by its whole name, again and again:

  usual      one star for a node, which finds a hundred names or none
  braces     `{` and 400 times `*w*e*b*x`, each with another ending, `}` for a node: 4,000 bytes
  a head     three targets of such globs, which differ: about the most that a head of 16,384 bytes holds
  a form     128 targets of such globs, which differ, in a form of half a megabyte
  names      the same globs as queries of `/metrics/expand`
  expand     one short glob that finds all names, 128 times as a query of it, by a GET of some two kilobytes
  stars      128 targets of a short glob that is held against all names and fits none
  narrow     one such glob, and two thousand with which no name begins, in one target of 16 KB
  functions  `integral` thirty times in itself over 300 series of a week, three million values
  wide       `scale` 29 times in itself over as many values of 5 * 10^26, whose products do not fit 128 bits
  buckets    `sumSeries` of 40 series, summarized by nine steps that have a common multiple of six hours and differ in their ends: 3.6 million values
  patterns   16 targets, each with `grep` thirty times in itself over these series, of a pattern whose states take more than half of what they may
  texts      32 targets, each with `grep` of a pattern of 16 KB, and each of another: a form of a megabyte
  replaced   `aliasSub` of each character, 29 times in itself, over names of a thousand bytes
  left       the last eleven again, whose client leaves at once: how long the daemon goes on computing

Printed are the status, the seconds until the answer and those of the processor, with no other client; and the longest time that another client waits
for one of its answers while the question is asked once more: it takes the same locks as a line's point, and more. That a form over 100,000 names or
more is refused, that a head over as many or fewer is answered within two seconds, that all others are, or are refused by then, and that no question
is computed for more than two seconds on behind a client that left, is checked: `NOT SO` stands behind what is otherwise, and the status at the end is
1. Nothing else timed here is a test. Run ./carbon build first.
"""
import http.client
import re
import socket
import subprocess
import sys
import threading
import time
import urllib.parse

from live import PROGRAM, folder, need_program

PORTS = re.compile(r"carbon: lines on (\d+), HTTP on (\d+)")
NOW = int(time.time()) // 60 * 60

# what has a bound
WORK = ("names", "expand", "stars", "narrow", "functions", "wide", "buckets", "patterns", "texts", "replaced")


def branches(count):
    return ["servers.web%04d.m%02d" % (k // 100, k % 100) for k in range(count)]


def nodes(count):
    return ["web%06dw" % k for k in range(count)]


def braces(salt):
    """A node's pattern of about 4,000 bytes that fits none of the names."""
    return "{" + ",".join("*w*e*b*%c%c" % (97 + (salt + k) % 26, 97 + (salt + k // 26) % 26) for k in range(390)) + "}"


def integrals(some):
    return "integral(" * 30 + "isNonNull(" + some + ")" * 31


def greps(some):
    """One that keeps all series, each of which has an `e` in its name."""
    return "grep(" * 30 + some + r",'[a-z]\w{40}|e')" * 30


def scales(some):
    """Values of 5 * 10^26, whose products with 10^9 do not fit 128 bits."""
    return "scale(" * 29 + "offset(isNonNull(" + some + "),5" + "0" * 26 + ")" + ",1)" * 29


def sums(some):
    return "sumSeries(" + ",".join("summarize(%s,'%ds')" % (some, 60 * step) for step in (1, 2, 3, 4, 5, 6, 8, 9, 10)) + ")"


def texts(some, salt):
    return "grep(%s,'%s')" % (some, r"\w" * 8000 + "%d" % salt)


def long_names(some):
    return "aliasSub(" * 29 + "alias(%s,'%s')" % (some, "ab" * 500) + r",'([ab]*a[ab]{400}c)|([ab])','\2')" * 29


def query_of(targets, way, since):
    field = "target" if way == "/render" else "query"
    return urllib.parse.urlencode([(field, target) for target in targets] + [("from", since), ("format", "raw")], safe="{},*.")


class Daemon:
    def __init__(self, place):
        self.process = subprocess.Popen(
            [PROGRAM, "serve", "--line-port", "0", "--http-port", "0", "--limit", "10000000"],
            stdin=subprocess.PIPE, stdout=subprocess.DEVNULL, stderr=subprocess.PIPE, cwd=place, text=True,
        )
        for line in self.process.stderr:
            ports = PORTS.search(line)
            if ports:
                break
        else:
            sys.exit("no ports: status %d" % self.process.wait())
        self.lines, self.http = int(ports[1]), int(ports[2])
        threading.Thread(target=self.process.stderr.read, daemon=True).start()

    def seconds(self):
        return time.clock_gettime((~self.process.pid << 3) | 2)

    def put(self, names):
        with socket.create_connection(("127.0.0.1", self.lines)) as link:
            link.sendall("".join("%s 1 %d\n" % (name, NOW) for name in names).encode())
            link.shutdown(socket.SHUT_WR)
            link.recv(1)

    def ask(self, targets, method="GET", way="/render", since="-5min"):
        query = query_of(targets, way, since)
        link = http.client.HTTPConnection("127.0.0.1", self.http, timeout=600)
        begun = time.perf_counter()
        if method == "GET":
            link.request("GET", way + "?" + query)
        else:
            link.request("POST", way, query, {"Content-Type": "application/x-www-form-urlencoded"})
        reply = link.getresponse()
        count = len(reply.read().splitlines())
        link.close()
        return reply.status, count, time.perf_counter() - begun

    def leave(self, targets, way, since):
        """Asks and leaves at once: how long the processor still works."""
        query = query_of(targets, way, since)
        head = "POST %s HTTP/1.1\r\nHost: a\r\nContent-Type: application/x-www-form-urlencoded\r\nContent-Length: %d\r\n\r\n" % (way, len(query))
        link = socket.create_connection(("127.0.0.1", self.http))
        link.sendall((head + query).encode())
        link.close()
        begun, last, at = time.perf_counter(), self.seconds(), time.perf_counter()
        while time.perf_counter() - at < 0.3:
            time.sleep(0.02)
            if self.seconds() - last > 0.002:
                last, at = self.seconds(), time.perf_counter()
        return at - begun

    def stop(self):
        self.process.stdin.write("stop\n")
        self.process.stdin.close()
        if self.process.wait(120):
            sys.exit("status %d at the end" % self.process.returncode)


class Other(threading.Thread):
    """The client that asks for one series by its whole name."""

    def __init__(self, daemon, name):
        super().__init__(daemon=True)
        self.port, self.name, self.is_over, self.longest = daemon.http, name, threading.Event(), 0.0
        self.start()

    def run(self):
        link = http.client.HTTPConnection("127.0.0.1", self.port, timeout=300)
        while not self.is_over.is_set():
            begun = time.perf_counter()
            link.request("GET", "/render?target=%s&from=-5min&format=raw" % self.name)
            link.getresponse().read()
            self.longest = max(self.longest, time.perf_counter() - begun)
            time.sleep(0.0005)

    def end(self):
        self.is_over.set()
        self.join()
        return self.longest


def is_so(what, count, status, seconds):
    """What has to be so over so many names, on whatever machine."""
    if what == "a form" and count >= 100_000:
        return status == 503
    if what in ("usual", "braces", "a head") and count <= 100_000:
        return status == 200 and seconds <= 2
    return what not in WORK or (status in (200, 503) and seconds <= 2)


def tell(row, so):
    """Prints a row, and whether it is as it has to be."""
    print(row if so else row + "  NOT SO", flush=True)
    return so


def measure(shape, names, usual, front, back, every, some, few):
    hostile = [front + braces(salt) + back for salt in range(128)]
    questions = [
        ("usual", [usual], "GET", "/render", "-5min"),
        ("braces", hostile[:1], "GET", "/render", "-5min"),
        ("a head", hostile[:3], "GET", "/render", "-5min"),
        ("a form", hostile, "POST", "/render", "-5min"),
        ("names", hostile, "POST", "/metrics/expand", "-5min"),
        ("expand", [every] * 128, "GET", "/metrics/expand", "-5min"),
        ("stars", [front + "*" + back + "x%02d" % salt for salt in range(128)], "POST", "/render", "-5min"),
        ("narrow", ["group(%sx,%s)" % (every, ",".join("x%03d.*" % k for k in range(2000)))], "POST", "/render", "-5min"),
        ("functions", [integrals(some)], "POST", "/render", "-7d"),
        ("wide", [scales(some)], "POST", "/render", "-7d"),
        ("buckets", [sums(few)], "POST", "/render", "-7d"),
        ("patterns", [greps(some)] * 16, "POST", "/render", "-5min"),
        ("texts", [texts(some, salt) for salt in range(32)], "POST", "/render", "-5min"),
        ("replaced", [long_names(some)], "POST", "/render", "-5min"),
    ]
    with folder() as place:
        daemon = Daemon(place)
        daemon.put(names)
        so = [ask_twice(daemon, shape, names, *question) for question in questions]
        so += [leave(daemon, shape, what, targets, way, since) for what, targets, _, way, since in questions[3:]]
        daemon.stop()
    return all(so)


def ask_twice(daemon, shape, names, what, targets, method, way, since):
    """Alone, and beside the other client."""
    before = daemon.seconds()
    status, count, seconds = daemon.ask(targets, method, way, since)
    spent = daemon.seconds() - before
    other = Other(daemon, names[0])
    time.sleep(0.2)
    daemon.ask(targets, method, way, since)
    told = shape, what, status, count, seconds, spent, 1000 * other.end()
    row = "%-9s %-9s %d, %d lines, %.3f s (%.3f of the processor), the other waited %.1f ms" % told
    return tell(row, is_so(what, len(names), status, seconds))


def leave(daemon, shape, what, targets, way, since):
    before = daemon.seconds()
    took = daemon.leave(targets, way, since)
    row = "%-9s %-9s left: computed on for %.2f s (%.2f of the processor)" % (shape, what, took, daemon.seconds() - before)
    return tell(row, what not in WORK or took <= 2)


SHAPES = {
    "branches": lambda count: measure(
        "branches", branches(count), "servers.*.m01", "servers.", ".m01", "servers.*.*", "servers.web000[0-2].m*", "servers.web0000.m[0-3]*"
    ),
    "nodes": lambda count: measure("one node", nodes(count), "web00001*", "", "", "*", "web0000[0-2]*", "web0000[0-3]?w"),
}


def main():
    need_program()
    count = int(sys.argv[1]) if len(sys.argv) > 1 else 100_000
    so = [SHAPES[shape](count) for shape in sys.argv[2:] or SHAPES]
    sys.exit(0 if all(so) else 1)


main()
