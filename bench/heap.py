#!/usr/bin/env python3
"""What the heap's thresholds cost and save: questions, page faults, and memory behind a burst of large answers.

Usage: bench/heap.py [--wait SECONDS] [SETTING..]

A setting is what GLIBC_TUNABLES may have, such as glibc.malloc.trim_threshold=67108864, or `none` for glibc's own; without one these and what the
launcher sets. Each gets a daemon of its own, over a folder in memory in which 1,000 metrics have a point of each minute of the last day:

  one       a metric of an hour, raw, over one connection: the median in milliseconds, processor milliseconds and page faults of a question
  wildcard  100 metrics of a day, thinned to 100 values, JSON: likewise
  sum       sumSeries of 1,000 metrics of an hour: likewise
  day       1,000 metrics of a day, thinned to 100 values: likewise
  burst     eight clients that each ask for 4,000,000 values at the same time: the most memory that the daemon held, what it holds when they have
            their answers, and what it holds SECONDS later (an hour without a number), after a question and a hundred points a second

The questions are asked once more behind the burst. Nothing timed here is a test. Run ./carbon build first.
"""
import argparse
import http.client
import os
import re
import socket
import statistics
import subprocess
import sys
import threading
import time

from live import HERE, PROGRAM, folder, need_program

LAUNCHER = os.path.join(os.path.dirname(HERE), "carbon")
PORTS = re.compile(r"carbon: lines on (\d+), HTTP on (\d+)")
METRICS = ["servers.web%04d.load" % k for k in range(1000)]
MINUTES = 1440
QUESTIONS = [
    ("one", "target=servers.web0500.load&from=-1h&format=raw", 400),
    ("wildcard", "target=servers.web03*.load&from=-1d&maxDataPoints=100", 100),
    ("sum", "target=sumSeries(servers.*.load)&from=-1h&format=raw", 60),
    ("day", "target=servers.*.load&from=-1d&maxDataPoints=100", 10),
]
LARGE = "target=servers.*.load&from=-3999min"
CLIENTS = 8


class Daemon:
    def __init__(self, place, setting):
        environment = {name: value for name, value in os.environ.items() if name != "GLIBC_TUNABLES"}
        if setting != "none":
            environment["GLIBC_TUNABLES"] = setting
        self.process = subprocess.Popen(
            [PROGRAM, "serve", "--line-port", "0", "--http-port", "0"],
            stdin=subprocess.PIPE, stdout=subprocess.DEVNULL, stderr=subprocess.PIPE, cwd=place, text=True, env=environment,
        )
        ports = next(filter(None, map(PORTS.search, self.process.stderr)), None)
        if not ports:
            sys.exit("no ports: status %d" % self.process.wait())
        self.line_port, self.http_port = int(ports[1]), int(ports[2])
        threading.Thread(target=self.process.stderr.read, daemon=True).start()

    def send(self, text):
        with socket.create_connection(("127.0.0.1", self.line_port)) as link:
            link.sendall(text.encode())
            link.shutdown(socket.SHUT_WR)
            link.recv(1)

    def link(self):
        return http.client.HTTPConnection("127.0.0.1", self.http_port, timeout=300)

    def seconds(self):
        return time.clock_gettime((~self.process.pid << 3) | 2)

    def faults(self):
        with open("/proc/%d/stat" % self.process.pid) as file:
            return int(file.read().rpartition(")")[2].split()[7])

    def memory(self):
        """Bytes that are held now, and the most that were."""
        with open("/proc/%d/status" % self.process.pid) as file:
            lines = dict(line.split(":", 1) for line in file)
        return tuple(int(lines[name].split()[0]) * 1024 for name in ("VmRSS", "VmHWM"))

    def stop(self):
        self.process.stdin.write("stop\n")
        self.process.stdin.close()
        if self.process.wait(120):
            sys.exit("status %d at the end" % self.process.returncode)


def asked(link, query):
    """The bytes of an answer, which are passed over."""
    link.request("GET", "/render?" + query)
    reply = link.getresponse()
    if reply.status != 200:
        sys.exit("status %d: %r" % (reply.status, reply.read(200)))
    return sum(map(len, iter(lambda: reply.read(1 << 20), b"")))


def measured(daemon, query, count):
    link = daemon.link()
    asked(link, query)
    faults, spent, took = daemon.faults(), daemon.seconds(), []
    for _ in range(count):
        begun = time.perf_counter()
        asked(link, query)
        took.append(1000 * (time.perf_counter() - begun))
    link.close()
    return statistics.median(took), 1000 * (daemon.seconds() - spent) / count, (daemon.faults() - faults) / count


def show_questions(daemon, when):
    for name, query, count in QUESTIONS:
        print("  %-15s %-9s %9.3f ms %9.3f processor ms %9.1f faults" % (when, name, *measured(daemon, query, count)), flush=True)


def burst(daemon):
    def client():
        link = daemon.link()
        if asked(link, LARGE) < 4_000_000 * 10:
            sys.exit("a small answer")
        link.close()

    clients = [threading.Thread(target=client) for _ in range(CLIENTS)]
    for one in clients:
        one.start()
    for one in clients:
        one.join()


def rest(daemon, seconds):
    """So many seconds in which little is asked and put."""
    link, end = daemon.link(), time.time() + seconds
    while time.time() < end:
        asked(link, QUESTIONS[0][1])
        daemon.send("".join("%s 1 %d\n" % (name, time.time()) for name in METRICS[:100]))
        time.sleep(max(0.0, min(1.0, end - time.time())))
    link.close()


def fill(place):
    """The metrics, drained."""
    daemon = Daemon(place, "none")
    begin = int(time.time()) // 60 * 60 - 60 * MINUTES
    for at in range(0, MINUTES, 60):
        lines = ["%s %d.%03d %d\n" % (name, k % 97, (at + k) % 1000, begin + 60 * (at + k)) for name in METRICS for k in range(60)]
        daemon.send("".join(lines))
    daemon.stop()


def of_launcher():
    with open(LAUNCHER) as file:
        return re.search(r"^HEAP=(\S+)$", file.read(), re.MULTILINE)


def main():
    words = argparse.ArgumentParser(description=__doc__, formatter_class=argparse.RawDescriptionHelpFormatter)
    words.add_argument("--wait", type=int, default=3600, metavar="SECONDS")
    words.add_argument("settings", nargs="*", metavar="SETTING")
    said = words.parse_args()
    need_program()
    launched = of_launcher()
    settings = said.settings or ["none"] + ([launched[1]] if launched else [])
    with folder() as place:
        fill(place)
        for setting in settings:
            daemon = Daemon(place, setting)
            print(setting, flush=True)
            show_questions(daemon, "before")
            held = daemon.memory()[0]
            burst(daemon)
            behind, most = daemon.memory()
            rest(daemon, said.wait)
            later = daemon.memory()[0]
            told = tuple(number / 1e6 for number in (held, most, behind, later))
            print("  burst: %.0f MB before, %.0f at most, %.0f behind it, %.0f MB %d s later" % (*told, said.wait), flush=True)
            show_questions(daemon, "behind")
            daemon.stop()


main()
