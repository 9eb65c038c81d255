#!/usr/bin/env python3
"""The daemon under load: metric lines over one connection and over eight, questions while lines come, and a clean stop.

Usage: bench/serve.py [LINES]      (1,000,000 without a number)

LINES lines of 10,000 metrics, a point a minute up to now, go to `./carbon serve`, which runs over a folder in memory and has the options that
stand in COMMAND. Each row of lines is of a daemon of its own:

  held, 1 or 8   so many connections at once, while the disks fail, since a file stands in the place of the folder `data`: all points stay pending. Questions
                 for 60 of them are then answered from memory alone. Once the file is gone, all is drained
  1, 8           so many connections at once, while points are drained as they come. The last line is taken where all connections are closed by
                 the daemon. Then the questions, over a link that is kept: once while nothing else is done, and once while a connection brings
                 further lines as fast as they are taken
  in C           bench/ingest_c.c over the same connections, which splits and reads the lines and keeps nothing, where there is a C compiler

Each daemon is stopped by SIGTERM, which loses nothing: it is started again, and each of its points is asked for and compared. That, and how
many points were stored, is all that is checked; nothing timed here is a test. Seconds of the processor are of the daemon and of the kernel for
it, from the first byte that is sent until the last line is taken, and again until all is drained. Run ./carbon build first.
"""
import http.client
import os
import re
import shutil
import signal
import socket
import statistics
import subprocess
import sys
import tempfile
import threading
import time

from live import HERE, PROGRAM, folder, need_program

LAUNCHER = os.path.abspath(os.path.join(HERE, "..", "carbon"))
COMMAND = ["serve", "--line-port", "0", "--http-port", "0", "--limit", "10000000"]
METRICS = 10_000
BATCH = 100  # as many metrics are asked for at once in the check
PORTS = re.compile(r"carbon: lines on (\d+), HTTP on (\d+)")
WAIT = 120  # seconds for a daemon to begin or to end


def descendants(pid):
    """A process and all that it began, itself first."""
    found = [pid]
    for parent in found:
        try:
            with open("/proc/%d/task/%d/children" % (parent, parent)) as file:
                found += [int(child) for child in file.read().split()]
        except FileNotFoundError:
            pass
    return found


def runs_program(pid):
    try:
        return os.path.realpath("/proc/%d/exe" % pid) == os.path.realpath(PROGRAM)
    except OSError:
        return False


class Daemon:
    """`./carbon serve` in this folder, on ports that the system chose."""

    def __init__(self, place):
        self.process = subprocess.Popen(
            [LAUNCHER, *COMMAND], stdin=subprocess.DEVNULL, stdout=subprocess.PIPE, stderr=subprocess.PIPE, cwd=place, text=True
        )
        for line in self.process.stderr:
            ports = PORTS.search(line)
            if ports:
                break
        else:
            sys.exit("no ports: status %d, %r" % (self.process.wait(), self.process.stdout.read()))
        self.line_port, self.http_port = int(ports[1]), int(ports[2])
        self.pid = next(pid for pid in descendants(self.process.pid) if runs_program(pid))

    def seconds(self):
        """Processor time so far."""
        return time.clock_gettime((~self.pid << 3) | 2)

    def held(self):
        """Bytes of memory that are held now."""
        with open("/proc/%d/status" % self.pid) as file:
            lines = dict(line.split(":", 1) for line in file)
        return int(lines["VmRSS"].split()[0]) * 1024

    def writes(self):
        with open("/proc/%d/io" % self.pid) as file:
            return int(dict(line.split(": ") for line in file)["syscw"])

    def settle(self):
        """Waits until nothing is written any more: all is drained, or replies are all that is left."""
        before = -1
        while before != self.writes():
            before = self.writes()
            time.sleep(0.3)

    def stop(self):
        """Stops it, and answers its last line and how long that took."""
        begun = time.time()
        self.process.send_signal(signal.SIGTERM)
        said, told = self.process.communicate(timeout=WAIT)
        took = time.time() - begun
        if self.process.returncode != 0:
            sys.exit("status %d: %r %r" % (self.process.returncode, said, told))
        return said.splitlines()[-1], took


class Asker:
    """A link for questions, kept from one to the next."""

    def __init__(self, port):
        self.link = http.client.HTTPConnection("127.0.0.1", port, timeout=WAIT)

    def ask(self, query):
        self.link.request("GET", "/render?" + query)
        reply = self.link.getresponse()
        body = reply.read().decode()
        if reply.status != 200:
            sys.exit("%d: %r" % (reply.status, body[:200]))
        return body


class Lines:
    """What is sent: so many lines of METRICS metrics, minute by minute, up to a moment."""

    def __init__(self, count, now):
        self.each = max(1, count // METRICS)
        self.last = now - now % 60
        self.first = self.last - 60 * (self.each - 1)
        self.count = self.each * METRICS

    def value(self, metric, minute):
        return "%d.25" % ((7 * metric + 13 * minute) % 1000)

    def of(self, metrics):
        """The lines of these metrics, minute by minute."""
        return "".join(
            "servers.web%04d.load %s %d\n" % (m, self.value(m, k), self.first + 60 * k) for k in range(self.each) for m in metrics
        ).encode()

    def parts(self, number):
        """All lines, in so many pieces of as many metrics each."""
        return [self.of(range(part, METRICS, number)) for part in range(number)]

    def check(self, port):
        """Asks for each point, and stops the bench where one is missing or another one."""
        asker = Asker(port)
        for batch in range(METRICS // BATCH):
            body = asker.ask("target=servers.web%02d??.load&from=%d&until=%d&format=raw" % (batch, self.first - 1, self.last))
            rows = body.splitlines()
            if len(rows) != BATCH:
                sys.exit("%d series of batch %d" % (len(rows), batch))
            for metric, row in zip(range(batch * BATCH, (batch + 1) * BATCH), rows):
                values = ",".join(self.value(metric, k) for k in range(self.each))
                if row != "servers.web%04d.load,%d,%d,60|%s" % (metric, self.first, self.last + 60, values):
                    sys.exit("another series: %r" % row[:200])


def send(port, pieces):
    """Sends each piece over a connection of its own, and waits until the daemon has closed all of them. Seconds from the first byte on."""

    def one(link, piece):
        link.sendall(piece)
        link.shutdown(socket.SHUT_WR)
        while link.recv(4096):
            pass

    links = [socket.create_connection(("127.0.0.1", port)) for _ in pieces]
    threads = [threading.Thread(target=one, args=pair) for pair in zip(links, pieces)]
    begun = time.time()
    for thread in threads:
        thread.start()
    for thread in threads:
        thread.join()
    for link in links:
        link.close()
    return time.time() - begun


class Stream(threading.Thread):
    """A connection that brings lines of other metrics as fast as they are taken, until it is told to end."""

    def __init__(self, port):
        super().__init__(daemon=True)
        self.link = socket.create_connection(("127.0.0.1", port))
        self.is_over = threading.Event()
        self.lines = 0
        self.start()

    def run(self):
        while not self.is_over.is_set():
            now = int(time.time())
            self.link.sendall(b"".join(b"stream.m%04d %d.5 %d\n" % (m, m % 10, now) for m in range(1000)))
            self.lines += 1000

    def end(self):
        self.is_over.set()
        self.join()
        self.link.close()
        return self.lines


def row(name, lines, took, *more):
    print("%-10s %9d lines %7.3f s %11.0f lines/s  %s" % (name, lines, took, lines / took, "  ".join(more)), flush=True)


def ask_often(asker, name, query, times):
    """Asks often, and says in how many milliseconds half of the questions are answered, and 19 of 20."""
    asker.ask(query)
    spans = []
    for _ in range(times):
        begun = time.perf_counter()
        body = asker.ask(query)
        spans.append((time.perf_counter() - begun) * 1000)
    spans.sort()
    half, most = statistics.median(spans), spans[len(spans) * 19 // 20]
    print("    %-44s %8.3f ms (half) %8.3f ms (19 of 20) %8d bytes" % (name, half, most, len(body)), flush=True)


def last_hour(target):
    return "target=%s&from=-60min" % target


def ask_held(lines, asker):
    """Questions that are answered from pending points alone."""
    window = "&from=%d&until=%d" % (lines.last - 3600, lines.last)
    ask_often(asker, "60 points of one metric, pending", "target=servers.web0042.load" + window, 1000)


def ask_all(asker):
    """Questions that are answered from files, and from what is pending."""
    ask_often(asker, "60 points of one metric", last_hour("servers.web0042.load"), 1000)
    ask_often(asker, "1,440 points of one metric, from its file", "target=long.day&from=-24h", 500)
    ask_often(asker, "60 points of each of 100 metrics", last_hour("servers.web00??.load"), 200)
    ask_often(asker, "sumSeries of 1,000 metrics of 60 points", last_hour("sumSeries(servers.web0???.load)"), 50)


def stop_and_check(daemon, place, lines, stored):
    """Stops a daemon, and asks another one for each point that the first one took."""
    said, took = daemon.stop()
    counts = re.fullmatch(r"stored (\d+) replaced (\d+) full (\d+) drains (\d+)", said)
    if not counts or int(counts[3]) != 0 or (stored and int(counts[1]) != stored):
        sys.exit("unexpected last line: %r" % said)
    print("    stopped in %.3f s: %s" % (took, said))
    again = Daemon(place)
    lines.check(again.http_port)
    said, _ = again.stop()
    if said != "stored 0 replaced 0 full 0 drains 0":
        sys.exit("unexpected last line: %r" % said)
    print("    all %d points are there after a start" % lines.count, flush=True)


def run_held(number, count):
    lines = Lines(count, int(time.time()))
    with folder() as place:
        daemon = Daemon(place)
        shutil.rmtree(os.path.join(place, "data"))
        with open(os.path.join(place, "data"), "wb"):
            pass  # a file where the folder was: every drain fails
        pieces = lines.parts(number)
        seconds, held = daemon.seconds(), daemon.held()
        took = send(daemon.line_port, pieces)
        seconds, held = daemon.seconds() - seconds, daemon.held() - held
        row("held, %d" % number, lines.count, took, "%.3f processor s" % seconds, "%.1f bytes a pending point" % (held / lines.count))
        ask_held(lines, Asker(daemon.http_port))
        seconds = daemon.seconds()
        os.remove(os.path.join(place, "data"))
        time.sleep(0.2)
        daemon.settle()
        print("    drained: %.3f processor s" % (daemon.seconds() - seconds), flush=True)
        stop_and_check(daemon, place, lines, lines.count)


def send_day(port):
    """A metric with a point in each minute of the last day."""
    last = int(time.time()) // 60 * 60
    send(port, [b"".join(b"long.day %d.5 %d\n" % (k % 100, last - 60 * k) for k in range(1439, -1, -1))])


def run_connections(number, count):
    lines = Lines(count, int(time.time()))
    with folder() as place:
        daemon = Daemon(place)
        pieces = lines.parts(number)
        seconds = daemon.seconds()
        took = send(daemon.line_port, pieces)
        taken = daemon.seconds() - seconds
        daemon.settle()
        drained = daemon.seconds() - seconds
        row("%d" % number, lines.count, took, "%.3f processor s" % taken, "%.3f when all is drained" % drained)
        send_day(daemon.line_port)
        daemon.settle()
        asker = Asker(daemon.http_port)
        ask_all(asker)
        stream = Stream(daemon.line_port)
        print("    while lines come:")
        ask_all(asker)
        print("    meanwhile %d lines came" % stream.end())
        daemon.settle()
        stop_and_check(daemon, place, lines, 0)


def run_c(number, count):
    compiler = shutil.which("cc")
    if compiler is None:
        return
    lines = Lines(count, int(time.time()))
    with tempfile.TemporaryDirectory() as place:
        program = os.path.join(place, "ingest_c")
        subprocess.run([compiler, "-O2", "-pthread", "-o", program, os.path.join(HERE, "ingest_c.c")], check=True)
        process = subprocess.Popen([program, str(number)], stdout=subprocess.PIPE, stderr=subprocess.PIPE, text=True)
        port = int(PORTS.search(process.stderr.readline())[1])
        took = send(port, lines.parts(number))
        said = process.stdout.read()
        _, _, used = os.wait4(process.pid, 0)
    if not said.startswith("lines %d refused 0 " % lines.count):
        sys.exit("unexpected output: %r" % said)
    row("%d, in C" % number, lines.count, took, "%.3f processor s" % (used.ru_utime + used.ru_stime))


def main():
    count = int(sys.argv[1]) if len(sys.argv) > 1 else 1_000_000
    need_program()
    for number in 1, 8:
        run_held(number, count)
    for number in 1, 8:
        run_connections(number, count)
        run_c(number, count)


if __name__ == "__main__":
    main()
