#!/usr/bin/env python3
"""What a hostile client of the HTTP port costs a well-behaved one.

Usage: bench/hostile.py [--first] [REQUESTS]      (1,000,000 garbage requests without a number)

Runs `carbon serve` over a folder in memory, with a few metrics. A well-behaved client keeps one connection from the beginning, and asks for one series
over it, again and again. Its answers a second are counted while there is no hostile client, and beside one that sends

  garbage    REQUESTS requests that are none, each refused, over connections of their own
  long heads a hundredth as many heads of 16,384 bytes, 2,000 at least, which are refused at their last byte
  bodies     POSTs whose body never comes, on half of the renderers
  silent     10,000 connections that say nothing, on all other renderers and in the port's queue

A connection that the daemon closes while nothing is asked over it, since others wait, is opened anew by the well-behaved client, as clients do.
A hostile client that works is stopped and let go on by turns, half a second each, and the well-behaved one's answers are counted in each: so what else
runs on the machine meets both alike. Where the hostile one only waits, its connections are opened and closed by turns. Printed are the mean of the
turns and how much of the answers' speed is left, and for how long the daemon, the hostile client and the other one had a processor, for each second of
the turns. Each of the two clients has a processor of its own, and the daemon the others, where there are four. With `--first` all three come before
what else runs on the machine (by the real-time class of the scheduler, for which one has to be root): then a busy machine tells what a quiet one does.

At the end the most memory that the daemon held is told, which has to be 32 MiB or less, and each metric is asked for once more over a new connection.
Run ./carbon build first.
"""
import contextlib
import http.client
import multiprocessing
import os
import re
import resource
import signal
import socket
import subprocess
import sys
import time

from live import PROGRAM, folder, need_program

PORTS = re.compile(r"carbon: lines on (\d+), HTTP on (\d+)")
METRICS = 100
RENDERERS = 64
MOST_HELD = 32  # MiB
TURN = 0.5
PROCESSORS = sorted(os.sched_getaffinity(0))
APART = len(PROCESSORS) >= 4


def keep_to(processors):
    if APART:
        os.sched_setaffinity(0, processors)
    if "--first" in sys.argv:
        os.sched_setscheduler(0, os.SCHED_FIFO, os.sched_param(1))


def held(pid, what):
    with open("/proc/%d/status" % pid) as file:
        return int(dict(line.split(":", 1) for line in file)[what].split()[0]) / 1024


def seconds(pid):
    """Processor time of a process; of one that has ended none."""
    try:
        return time.clock_gettime((~pid << 3) | 2)
    except OSError:
        return 0.0


class Calm:
    """The well-behaved client. A connection that the daemon closed between two answers it opens anew, as clients do."""

    def __init__(self, port, daemon):
        self.link = http.client.HTTPConnection("127.0.0.1", port, timeout=60)
        self.daemon = daemon
        self.reopened = 0
        self.ask()

    def ask(self):
        try:
            reply, body = self.asked()
        except (http.client.RemoteDisconnected, ConnectionError):
            self.link.close()
            self.reopened += 1
            reply, body = self.asked()
        if reply.status != 200 or not body.startswith(b"calm.n7,"):
            sys.exit("another answer: %d %r" % (reply.status, body[:200]))

    def asked(self):
        self.link.request("GET", "/render?target=calm.n7&from=-60min&format=raw")
        reply = self.link.getresponse()
        return reply, reply.read()

    def turn(self, length=TURN):
        """Answers a second for so long."""
        begun, count = time.perf_counter(), 0
        while time.perf_counter() - begun < length:
            self.ask()
            count += 1
        return count / (time.perf_counter() - begun)


class Spent:
    """What each process had of the processors since this was made, for a second."""

    def __init__(self, *pids):
        self.pids, self.at, self.begun = pids, [seconds(pid) for pid in pids], time.perf_counter()

    def __str__(self):
        took = time.perf_counter() - self.begun
        return ", ".join("%.2f" % ((seconds(pid) - at) / took) for pid, at in zip(self.pids, self.at))


def once(port, request, is_read=True):
    with socket.create_connection(("127.0.0.1", port), 30) as link:
        link.sendall(request)
        while is_read and link.recv(4096):
            pass


def garbage(port, count):
    keep_to(PROCESSORS[-1:])
    for k in range(count):
        try:
            once(port, b"%x no request\r\n\r\n" % k)
        except OSError:
            pass


def long_heads(port, count):
    keep_to(PROCESSORS[-1:])
    head = b"GET / HTTP/1.1\r\nA: " + b"a" * 16_400
    for _ in range(count):
        try:
            once(port, head)
        except OSError:
            pass


def open_links(port, count, first):
    links = []
    for _ in range(count):
        link = socket.socket()
        link.setblocking(False)
        try:
            link.connect(("127.0.0.1", port))
        except BlockingIOError:
            pass
        links.append(link)
    for link in links if first else []:
        try:
            link.setblocking(True)
            link.settimeout(0.05)
            link.sendall(first)
        except OSError:
            pass
    signal.pause()


def bodies(port, count):
    keep_to(PROCESSORS[-1:])
    open_links(port, count, b"POST /render HTTP/1.1\r\nHost: a\r\nContent-Length: 1000000\r\n\r\ntarget=a")


def silent(port, count):
    keep_to(PROCESSORS[-1:])
    most = resource.getrlimit(resource.RLIMIT_NOFILE)[1]
    resource.setrlimit(resource.RLIMIT_NOFILE, (min(20_000, most), most))
    open_links(port, count, b"")


def tell(name, count, pairs, spent):
    alone, beside = (sum(rates) / len(rates) for rates in zip(*pairs))
    print("%-10s %9d  %6.0f answers a second, %6.0f beside it: %3.0f %%; processors: %s" % (name, count, alone, beside, 100 * beside / alone, spent), flush=True)


def by_turns(name, calm, port, hostile, count):
    """Beside one that works until it is done."""
    process = multiprocessing.Process(target=hostile, args=(port, count))
    process.start()
    spent, pairs, last = Spent(calm.daemon, process.pid, os.getpid()), [], ""
    while process.is_alive():
        beside = calm.turn()
        if not process.is_alive() and pairs:
            break
        last = str(spent)
        stop(process, signal.SIGSTOP)
        alone = calm.turn()
        stop(process, signal.SIGCONT)
        pairs.append((alone, beside))
    process.join()
    tell(name, count, pairs, last)


def stop(process, how):
    with contextlib.suppress(ProcessLookupError):
        os.kill(process.pid, how)


def while_open(name, calm, port, hostile, count, turns, settles):
    """Beside one that waits. Its connections are there, or gone, once so many seconds are over."""
    pairs = []
    for _ in range(turns):
        alone = calm.turn(1)
        process = multiprocessing.Process(target=hostile, args=(port, count))
        process.start()
        time.sleep(settles)
        spent = Spent(calm.daemon, process.pid, os.getpid())
        pairs.append((alone, calm.turn(1)))
        last = str(spent)
        process.kill()
        process.join()
        time.sleep(settles)
    tell(name, count, pairs, last)


def main():
    numbers = [word for word in sys.argv[1:] if word != "--first"]
    requests = int(numbers[0]) if numbers else 1_000_000
    need_program()
    with folder() as place:
        words = ["serve", "--line-port", "0", "--http-port", "0", "--renderers", str(RENDERERS)]
        process = subprocess.Popen(
            [PROGRAM, *words], cwd=place, stdin=subprocess.PIPE, stdout=subprocess.PIPE, stderr=subprocess.PIPE, text=True,
            preexec_fn=lambda: keep_to(PROCESSORS[:-2]),
        )
        ports = PORTS.search(process.stderr.readline())
        line_port, port = int(ports[1]), int(ports[2])
        now = int(time.time())
        once(line_port, b"".join(b"calm.n%d %d %d\n" % (k, k, now) for k in range(METRICS)), False)
        time.sleep(1)
        keep_to(PROCESSORS[-2:-1])
        calm = Calm(port, process.pid)
        print("alone                 %6.0f answers a second, %.0f MiB held" % (calm.turn(4), held(process.pid, "VmRSS")), flush=True)
        by_turns("garbage", calm, port, garbage, requests)
        by_turns("long heads", calm, port, long_heads, max(requests // 100, 2_000))
        while_open("bodies", calm, port, bodies, RENDERERS // 2, 10, 0.5)
        while_open("silent", calm, port, silent, 10_000, 5, 2)
        most = held(process.pid, "VmHWM")
        print("most memory held: %.0f MiB; the well-behaved client opened its connection anew %d times" % (most, calm.reopened))
        if most > MOST_HELD:
            sys.exit("more than %d MiB" % MOST_HELD)
        begun = time.time()
        for k in range(METRICS):
            link = http.client.HTTPConnection("127.0.0.1", port, timeout=100)
            link.request("GET", "/render?target=calm.n%d&from=-60min&format=raw" % k)
            body = link.getresponse().read()
            link.close()
            if not body.startswith(b"calm.n%d," % k):
                sys.exit("another answer afterwards: %r" % body[:200])
        out, _ = process.communicate("stop\n", timeout=60)
        if out.splitlines()[-1] != "stored %d replaced 0 full 0 drains %d" % (METRICS, METRICS):
            sys.exit("another last line: %r" % out)
        print("all %d metrics answered as before over new connections in %.1f s, and a clean stop" % (METRICS, time.time() - begun))


main()
