#!/usr/bin/env python3
"""Large installations and large questions: each is answered whole, and not given up for want of memory that there is.

Usage: bench/size.py [NAMES | rules]      (1,000,000 without a number; with `rules` the last two rows alone)

Runs `carbon serve` over a folder on the disk of /tmp and checks, over its ports:

  names      so many names, a point each, are taken, browsed (`/metrics/index.json`, `/metrics/find`, `/metrics/expand`) and drained into files of their own
  class      100,000 names of one class more
  series     a question that finds 10,000 series, and one that finds 10,001, which is refused in words
  values     a question for nearly 4,000,000 values, in each of the three forms
  head       a question whose head has 16,384 bytes
  form       a question in a form, whose target has 16,384 bytes, and one whose target has a byte more, which is refused in words
  eight      eight questions at once for nearly 4,000,000 values each, of one series and of 10,000, as JSON, and the most memory that they took beyond
             what the daemon held before: alone, and the eight together
  again      a second daemon over the same folder finds all names by their files
  outputs    one connection whose lines would make 20,001 outputs of a rule: the first 20,000 are made, and the last is not
  open       one connection whose open intervals hold 1,000,000 points: the next that opens no sixth interval is passed over, the one that opens it is
             not, and what it emits makes room

The contracts leave want of memory free: that it is not answered where there is memory, only such a run can show. It ends with the first thing that is
otherwise than it has to be, or with a line for each that was shown and its seconds. Run ./carbon build first.
"""
import http.client
import json
import os
import re
import socket
import subprocess
import sys
import tempfile
import threading
import time

from live import PROGRAM, class_of, need_program, write_rules

PORTS = re.compile(r"carbon: lines on (\d+), HTTP on (\d+)")
NOW = int(time.time()) // 60 * 60
RULES = (
    b"[big]\npattern = ^big[.]\nretentions = 1s:4000000\n\n[wide]\npattern = ^wide[.]\nretentions = 1s:400\n\n"
    b"[all]\npattern = .*\nretentions = 60s:5m\n"
)
ONE_CLASS = 100_000
MOST_OUTPUTS = 20_000  # of a connection's aggregation rules
MOST_POINTS = 1_000_000  # in the open intervals of a connection


def many(count):
    return ["many.b%04d.m%03d" % (k // 1000, k % 1000) for k in range(count)]


def of_one_class(count):
    found, k = [], 0
    while len(found) < count:
        name = "one.n%07d" % k
        if class_of(name.encode()) == 7:
            found.append(name)
        k += 1
    return found


class Daemon:
    def __init__(self, place):
        self.process = subprocess.Popen(
            [PROGRAM, "serve", "--line-port", "0", "--http-port", "0", "--limit", "10000000"],
            stdin=subprocess.PIPE, stdout=subprocess.PIPE, stderr=subprocess.PIPE, cwd=place, text=True,
        )
        for line in self.process.stderr:
            ports = PORTS.search(line)
            if ports:
                break
        else:
            sys.exit("no ports: status %d" % self.process.wait())
        self.lines, self.http = int(ports[1]), int(ports[2])
        threading.Thread(target=self.process.stderr.read, daemon=True).start()

    def held(self, what):
        """Megabytes of memory, as /proc tells them."""
        with open("/proc/%d/status" % self.process.pid) as file:
            return int(dict(line.split(":", 1) for line in file)[what].split()[0]) * 1024 / 1e6

    def most(self, ask):
        """The most memory that was taken while something was asked, beyond what was held before."""
        before = self.held("VmRSS")
        with open("/proc/%d/clear_refs" % self.process.pid, "w") as file:
            file.write("5")
        ask()
        return self.held("VmHWM") - before

    def put(self, names):
        with socket.create_connection(("127.0.0.1", self.lines)) as link:
            for at in range(0, len(names), 10_000):
                link.sendall("".join("%s 1 %d\n" % (name, NOW) for name in names[at : at + 10_000]).encode())
            link.shutdown(socket.SHUT_WR)
            link.recv(1)

    def get(self, target, want=200, form=None):
        link = http.client.HTTPConnection("127.0.0.1", self.http, timeout=600)
        link.request("GET" if form is None else "POST", target, form)
        reply = link.getresponse()
        body = reply.read()
        link.close()
        if reply.status != want:
            sys.exit("%d in place of %d for %s: %r" % (reply.status, want, target[:100], body[:200]))
        return body

    def stop(self):
        self.process.stdin.write("stop\n")
        self.process.stdin.close()
        said = self.process.stdout.read()
        if self.process.wait(3600):
            sys.exit("status %d at the end: %s" % (self.process.returncode, said))

    def end(self):
        self.process.kill()
        self.process.wait()


def need(what, found, wanted):
    if found != wanted:
        sys.exit("%s: %r in place of %r" % (what, found, wanted))


class Shown:
    """Prints what was shown, with its seconds."""

    def __init__(self):
        self.at = time.time()

    def __call__(self, what):
        print("%-8s shown in %.1f s" % (what, time.time() - self.at), flush=True)
        self.at = time.time()


def browse(daemon, count):
    need("index.json", len(json.loads(daemon.get("/metrics/index.json"))), count)
    need("find", len(json.loads(daemon.get("/metrics/find?query=many.*"))), (count + 999) // 1000)
    need("expand", len(json.loads(daemon.get("/metrics/expand?query=many.*.m0*"))["results"]), sum(name.split(".")[2].startswith("m0") for name in many(count)))


def ask_series(daemon):
    need("10,000 series", len(daemon.get("/render?target=many.b000[0-9].*&from=-3min&format=raw").splitlines()), 10_000)
    daemon.put(["many.b0000.more"])
    said = daemon.get("/render?target=many.b000[0-9].*&from=-3min&format=raw", 400)
    if b"10001" not in said:
        sys.exit("10,001 series: %r" % said)


def ask_values(daemon):
    count, until = 3_999_990, int(time.time())
    ends = "&from=%d&until=%d" % (until - count, until)
    daemon.put(["big.one"])
    need("values", daemon.get("/render?target=big.one&format=raw" + ends).split(b"|")[1].count(b",") + 1, count)
    need("values in JSON", daemon.get("/render?target=big.one&format=json" + ends).count(b"], [") + 1, count)
    need("values in CSV", daemon.get("/render?target=big.one&format=csv" + ends).count(b"\n"), count)


def ask_long(daemon):
    front = "/render?from=-3min&format=raw&target="
    room = 16_384 - len("GET  HTTP/1.1\r\nHost: 127.0.0.1:%d\r\nAccept-Encoding: identity\r\n\r\n" % daemon.http) - len(front)
    names = "group(" + ",".join("many.b0000.m%03d" % (k % 1000) for k in range(room // 16 - 1)) + ")"
    need("series of a long head", len(daemon.get(front + names + "&" * (room - len(names))).splitlines()), names.count("many"))


def ask_form(daemon):
    names = ["many.b0000.m%03d" % (k % 1000) for k in range(1_023)]
    target = ("group(%s)" % ",".join(names)).ljust(16_384)
    rest = "&from=-3min&format=raw"
    need("series of a long target", len(daemon.get("/render", form="target=" + target.replace(" ", "+") + rest).splitlines()), len(names))
    said = daemon.get("/render", 400, "target=" + target.replace(" ", "+") + "+" + rest)
    need("a target of 16,385 bytes", said, b"target 1: too long\n")


def at_once(count, ask):
    """Asks so often at once; what ends one of them ends all."""
    failed = []

    def once():
        try:
            ask()
        except BaseException as why:
            failed.append(why)

    threads = [threading.Thread(target=once) for _ in range(count)]
    for thread in threads:
        thread.start()
    for thread in threads:
        thread.join()
    if failed:
        raise failed[0]


def ask_eight(daemon):
    now = int(time.time())
    with socket.create_connection(("127.0.0.1", daemon.lines)) as link:
        for at in range(now - 3_999_990, now, 10_000):
            link.sendall("".join("big.one %d.%03d %d\n" % (k % 100_000, k % 1000, k) for k in range(at, at + 10_000)).encode())
        link.shutdown(socket.SHUT_WR)
        link.recv(1)
    daemon.put(["wide.n%04d" % k for k in range(10_000)])
    time.sleep(10)
    for what, target, seconds in ("one series", "big.one", 3_999_990), ("10,000", "wide.*", 399):
        now = int(time.time())
        query = "/render?target=%s&format=json&from=%d&until=%d" % (target, now - seconds, now)
        size = len(daemon.get(query))
        alone = daemon.most(lambda: daemon.get(query))
        eight = daemon.most(lambda: at_once(8, lambda: need("the same text", len(daemon.get(query)), size)))
        print("         %s: a text of %.0f MB; %.0f MB alone, %.0f MB the eight together" % (what, size / 1e6, alone, eight), flush=True)


def put_lines(daemon, lines):
    """Sends these lines over one connection, and waits until the daemon has closed it."""
    with socket.create_connection(("127.0.0.1", daemon.lines)) as link:
        for at in range(0, len(lines), 10_000):
            link.sendall("".join(lines[at : at + 10_000]).encode())
        link.shutdown(socket.SHUT_WR)
        link.recv(1)


def told(daemon, target, first, count):
    """The values that a series has at so many minutes from this one on."""
    text = daemon.get("/render?target=%s&format=raw&from=%d&until=%d" % (target, first - 1, first + 60 * (count - 1)))
    return [None if value == "None" else float(value) for value in text.decode().strip().split("|")[1].split(",")]


def make_outputs(daemon):
    put_lines(daemon, ["src.m%05d 1 %d\n" % (k, NOW) for k in range(MOST_OUTPUTS + 1)])
    names = json.loads(daemon.get("/metrics/expand?query=one.*"))["results"]
    need("outputs", sorted(names), ["one.m%05d" % k for k in range(MOST_OUTPUTS)])
    need("the last output", told(daemon, "one.m%05d" % (MOST_OUTPUTS - 1), NOW, 1), [1.0])


def fill_intervals(daemon):
    first = NOW - 3_600
    lines = ["src.m%05d 1 %d\n" % (k, first + 60 * k) for k in range(5)]
    lines += ["src.m%05d 1 %d\n" % (k % 1_000, first) for k in range(MOST_POINTS - 5)]
    lines += ["src.m00001 8 %d\n" % (first + 60), "src.m00005 1 %d\n" % (first + 300), "src.m00001 2 %d\n" % (first + 60)]
    put_lines(daemon, lines)
    need("sums", told(daemon, "all.sum", first, 6), [MOST_POINTS - 4.0, 3.0, 1.0, 1.0, 1.0, 1.0])


def under(rule, show):
    """Shows this of a daemon of its own under an aggregation rule."""
    with tempfile.TemporaryDirectory(dir="/tmp") as place:
        write_rules(place, b"[all]\npattern = .*\nretentions = 60s:1d\n")
        with open(os.path.join(place, "conf", "aggregation-rules.conf"), "w") as file:
            file.write(rule + "\n")
        daemon = Daemon(place)
        try:
            show(daemon)
            daemon.stop()
        finally:
            daemon.end()


def show_all(daemon, count, shown):
    daemon.put(many(count))
    browse(daemon, count)
    shown("names")
    daemon.put(of_one_class(ONE_CLASS))
    need("one class", len(json.loads(daemon.get("/metrics/expand?query=one.*"))["results"]), ONE_CLASS)
    shown("class")
    ask_series(daemon)
    shown("series")
    ask_values(daemon)
    shown("values")
    ask_long(daemon)
    shown("head")
    ask_form(daemon)
    shown("form")
    ask_eight(daemon)
    shown("eight")
    daemon.stop()


def show_caps(shown):
    under("one.<name> (60) = sum src.<name>", make_outputs)
    shown("outputs")
    under("all.sum (60) = sum src.*", fill_intervals)
    shown("open")


def main():
    need_program()
    shown = Shown()
    if sys.argv[1:] == ["rules"]:
        return show_caps(shown)
    count = int(sys.argv[1]) if len(sys.argv) > 1 else 1_000_000
    with tempfile.TemporaryDirectory(dir="/tmp") as place:
        write_rules(place, RULES)
        daemon = Daemon(place)
        try:
            show_all(daemon, count, shown)
        finally:
            daemon.end()
        need("files", sum(len(files) for _, _, files in os.walk(os.path.join(place, "data"))), count + ONE_CLASS + 10_002)
        shown("drained")
        daemon = Daemon(place)
        try:
            need("names of files", len(json.loads(daemon.get("/metrics/index.json"))), count + ONE_CLASS + 10_002)
            daemon.stop()
        finally:
            daemon.end()
        shown("again")
    show_caps(shown)


main()
