#!/usr/bin/env python3
"""Kills of the built program at random moments under load, and what its files hold behind each.

Usage: bench/kills.py [--plain] [KILLS [FOLDER [SEED]]]      (1,000 kills in a folder in memory, and a seed of its own, where none are named)

Several daemons, `carbon serve --redo`, run side by side, each in a folder of its own in FOLDER. Each is sent points as fast as it takes some of each
metric a millisecond, and gets SIGKILL at a random moment: of its start, one time in four, and in two behind a gate that was left open; else while points
come and are drained. Then it is started again. What has to be then, and is looked at before the next points are sent:

  the start      comes to its ports, whatever the kill left; no gate of a log is open behind it
  each metric    holds a front of its points: those from the first one on, without a hole and without another value, as far as its archives reach back,
                 and in its coarser archives what these make. So each drain is there whole or not at all. It holds no less than it held before
  at the end     a stop by the line `stop` has status 0, and all that was sent since the last kill is there

The points of a metric come in rising time, one for each second of a day that is to come; each start sends on behind what the file holds, since what was
pending is lost. Each start makes new metrics, and files of version 1 that its drains write anew. One start in eight is one without --redo, which gets no points.
The files are read here, by the layout in FORMATS. With --plain no start has --redo: a drain may be found in part then, and how many were is told and
is no fault; those metrics get no further points. What is wrong is printed, its folder is left there, and the exit status is 1. Run ./carbon build first.
"""
import collections
import ctypes
import multiprocessing
import os
import random
import re
import shutil
import signal
import socket
import struct
import subprocess
import sys
import tempfile
import threading
import time

from live import MEMORY, PROGRAM, class_of, need_program, write_rules

ARCHIVES = [(1, 300), (10, 60), (60, 20)]
RULES = b"[all]\npattern = .*\nretentions = 1s:5m,10s:10m,1m:20m\n"
METHODS = {"sum": (2, sum), "last": (3, lambda values: values[-1]), "max": (4, max)}
AGGREGATIONS = b"".join(b"[%s]\npattern = \\.%s\\.\nxFilesFactor = 0\naggregationMethod = %s\n" % ((name.encode(),) * 3) for name in METHODS)
LANES = 4
LONG = 12  # metrics that get points behind each start
NEW = 3  # metrics that a start makes, and as many files of version 1
MOST = 240  # points of a metric behind a start: a drain of all of them leaves what a coarser archive is made of
OLD_POINTS = 500  # of a file of version 1
LOAD = 0.15  # seconds of points before a kill, at most
AHEAD = 86_407  # seconds of the first points: those of the future go to the finest archive
WAIT = 120  # seconds for a start or an end
LIBC = ctypes.CDLL(None)
PORTS = re.compile(r"carbon: lines on (\d+), HTTP on (\d+)")


class Metric:
    """A metric, its points, and how many of them its file has to hold."""

    def __init__(self, place, number, method, first):
        self.name = "killed.%s.m%05d" % (method, number)
        self.number, self.method, self.first = number, method, first
        self.file = os.path.join(place, "data", "%02d" % class_of(self.name.encode()), self.name.replace(".", "/") + ".ring")
        self.held = self.sent = 0
        self.text = None  # of its file, as it was found well last

    def value(self, index):
        """In thousandths; the greatest is not always the last."""
        return 250 + 1000 * ((37 * self.number + 613 * index) % 1009)

    def line(self, index):
        return b"%s %d.25 %d\n" % (self.name.encode(), self.value(index) // 1000, self.first + index)

    def known(self, count):
        """What the archives hold of the first so many points: each the values of its buckets."""
        finest, coarsest = ARCHIVES[0][1], ARCHIVES[-1][0] * ARCHIVES[-1][1]
        level = {self.first + k: self.value(k) for k in range(max(0, count - coarsest - 2 * ARCHIVES[-1][0]), count)}
        archives, roll = [dict(list(level.items())[-finest:])], METHODS[self.method][1]
        for step, points in ARCHIVES[1:]:
            rows = collections.defaultdict(list)
            for bucket, value in level.items():
                rows[bucket // step * step].append(value)
            level = {bucket: roll(values) for bucket, values in rows.items()}
            archives.append(dict(list(level.items())[-points:]))
        return archives


def head(method, version):
    size = 20 if version == 2 else 12
    text = struct.pack(">4I", (512 if version == 2 else 0) + METHODS[method][0], ARCHIVES[-1][0] * ARCHIVES[-1][1], 0, len(ARCHIVES))
    at = 16 + 12 * len(ARCHIVES)
    for step, points in ARCHIVES:
        text += struct.pack(">3I", at, step, points)
        at += size * points
    return text, at


def known_of(cells, step):
    """The values of an archive by their buckets: those that stand in the slot of their bucket."""
    base, points = cells[0][0], len(cells)
    if base == 0:
        return {}
    return {bucket: value for slot, (bucket, value) in enumerate(cells) if bucket and (bucket - base) // step % points == slot}


def content(name):
    try:
        with open(name, "rb") as file:
            return file.read()
    except FileNotFoundError:
        return None


def read_ring(metric, text):
    """What the archives of a file hold: nothing where there is no file of it yet."""
    if text is None or not any(text[:16]):
        return [{}] * len(ARCHIVES)
    version = 2 if text[2] else 1
    front, length = head(metric.method, version)
    if (text[: len(front)], len(text)) != (front, length):
        raise ValueError("another head or length: %s, %d" % (text[: len(front)].hex(), len(text)))
    form, at, archives = struct.Struct(">Iqq" if version == 2 else ">Iq"), len(front), []
    for step, points in ARCHIVES:
        cells = [(cell[0], cell[-1]) for cell in form.iter_unpack(text[at : at + form.size * points])]
        archives.append(known_of(cells, step))
        at += form.size * points
    return archives


def write_old(metric, count):
    """A file of version 1 with the first so many points. Each stands in the slot that its bucket has from the first one on."""
    text = head(metric.method, 1)[0]
    for (step, points), known in zip(ARCHIVES, metric.known(count)):
        cells, base = [(0, 0)] * points, metric.first // step * step
        for bucket, value in known.items():
            cells[(bucket - base) // step % points] = bucket, value
        text += b"".join(struct.pack(">Iq", *cell) for cell in cells)
    os.makedirs(os.path.dirname(metric.file), exist_ok=True)
    with open(metric.file, "wb") as file:
        file.write(text)
    metric.held = count


def difference(metric, found, count):
    """What is not as so many points make it, if anything."""
    for (step, _), one, other in zip(ARCHIVES, found, metric.known(count)):
        for bucket in sorted(set(one) | set(other)):
            if one.get(bucket) != other.get(bucket):
                return "bucket %d of step %d has %s, not %s" % (bucket, step, one.get(bucket), other.get(bucket))
    if count < metric.held:
        return "it holds %d points, and held %d" % (count, metric.held)
    return None


def has_foreign(metric, found):
    """Whether a point stands in its finest archive that was never sent."""
    return any(value != metric.value(bucket - metric.first) for bucket, value in found[0].items())


def open_gates(place):
    """The ring files whose drain a class has in its log, before an open gate."""
    names = []
    for number in range(16):
        folder = os.path.join(place, "data", "%02d" % number)
        try:
            with open(os.path.join(folder, "redo.gate"), "rb") as file:
                is_open = file.read(1) == b"\1"
            with open(os.path.join(folder, "redo.log"), "rb") as file:
                log = file.read(16 + 1024)
        except FileNotFoundError:
            continue
        if is_open:
            path = log[16 : 16 + int.from_bytes(log[:4], "big")].decode()
            names.append(os.path.join(folder, path.replace(".", "/") + ".ring"))
    return names


def ends_with_parent():
    """The system kills this process once its parent has ended."""
    LIBC.prctl(1, signal.SIGKILL)


class Daemon:
    """`carbon serve` in this folder, without its launcher. It does not outlive this script."""

    def __init__(self, place, *words):
        command = [PROGRAM, "serve", "--line-port", "0", "--http-port", "0", "--receivers", "2", "--renderers", "2", *words]
        pipe = subprocess.PIPE
        self.begun = time.monotonic()
        self.process = subprocess.Popen(
            command, stdin=pipe, stdout=pipe, stderr=pipe, cwd=place, text=True, preexec_fn=ends_with_parent
        )

    def kill_after(self, seconds):
        """Kills it so many seconds from now, whatever this script waits for then."""
        timer = threading.Timer(seconds, self.process.kill)
        timer.start()
        return timer

    def port(self):
        """The port for lines, once the start is over; none where it ended before."""
        guard = self.kill_after(WAIT)
        told = []
        for line in self.process.stderr:
            told.append(line)
            ports = PORTS.search(line)
            if ports:
                guard.cancel()
                return int(ports[1])
        guard.cancel()
        self.told = "".join(told)
        return None

    def end(self, said=None):
        out, _ = self.process.communicate(said, timeout=WAIT)
        return self.process.returncode, (out.splitlines() or [""])[-1]


class Lane:
    """A folder in which one daemon after the other is killed."""

    def __init__(self, above, seed, has_redo):
        self.random, self.has_redo = random.Random(seed), has_redo
        self.place = tempfile.mkdtemp(prefix="kills", dir=above)
        write_rules(self.place, RULES, AGGREGATIONS)
        self.first = int(time.time()) // 60 * 60 + AHEAD
        self.metrics, self.number, self.opened, self.wrong = [], 0, {}, []
        self.counts = collections.Counter()
        self.start_took = 0.05
        self.long = [self.new_metric() for _ in range(LONG)]

    def new_metric(self):
        self.number += 1
        metric = Metric(self.place, self.number, list(METHODS)[self.number % 3], self.first + self.number)
        self.metrics.append(metric)
        return metric

    def words(self, redo):
        words = ["--order", self.random.choice(["sorted", "max", "naive", "timesorted"]), "--drainers", self.random.choice("1 4 16".split())]
        return words + (["--redo"] if redo else [])

    def fails(self, what):
        self.wrong.append("%s: kill %d: %s" % (self.place, self.counts["kills"], what))

    def killed(self):
        """What a kill left: which gates it left open, and the files before them."""
        self.counts["kills"] += 1
        gates = open_gates(self.place)
        self.counts["gates"] += len(gates)
        self.opened = {name: self.opened.get(name, content(name)) for name in gates}

    def kill_in_start(self):
        """Kills a daemon at a moment of its start, or shortly behind it."""
        daemon = Daemon(self.place, *self.words(self.has_redo))
        daemon.kill_after(self.random.uniform(0, 1.2 * self.start_took)).join()
        status, line = daemon.end()
        if status != -9:
            self.fails("a start that was to be killed ended with status %d, %r" % (status, line))
        self.counts["in a start"] += 1
        self.killed()

    def start(self, redo):
        """Starts a daemon, and judges what it finds. Its port for lines, or none where it does not come to that."""
        daemon = Daemon(self.place, *self.words(redo))
        port = daemon.port()
        if port is None:
            self.fails("no start: status %d, %r, %r" % (*daemon.end(), daemon.told))
            return daemon, None
        self.start_took = time.monotonic() - daemon.begun
        for name in open_gates(self.place):
            self.fails("a gate is open behind the start, before the log of %s" % name)
        self.counts["mended"] += sum(content(name) != before for name, before in self.opened.items())
        self.opened = {}
        self.judge_all()
        return daemon, port

    def judge_all(self):
        for metric in list(self.metrics):
            text = content(metric.file)
            if text is None or text != metric.text:
                self.judge(metric, text)

    def judge(self, metric, text):
        """How many points the file of a metric holds. One whose drain is there in part gets no more."""
        try:
            found = read_ring(metric, text)
        except ValueError as fault:
            self.fails("%s: %s" % (metric.name, fault))
            return self.give_up(metric)
        count = max(found[0]) - metric.first + 1 if found[0] else 0
        wrong = difference(metric, found, count)
        if wrong is None:
            metric.held, metric.text = count, text
            return
        if self.has_redo or has_foreign(metric, found):
            self.fails("%s: %s" % (metric.name, wrong))
        self.counts["in part"] += 1
        self.give_up(metric)

    def give_up(self, metric):
        self.metrics.remove(metric)
        if metric in self.long:
            self.long[self.long.index(metric)] = self.new_metric()

    def add_old_files(self):
        """Files of version 1, which are put there before a start."""
        old = [self.new_metric() for _ in range(NEW)]
        for metric in old:
            write_old(metric, OLD_POINTS)
        return old

    def load(self, port, metrics):
        """Sends points of these metrics until the daemon is gone."""
        ends = {metric: metric.held + MOST for metric in metrics}
        for metric in metrics:
            metric.sent = metric.held
        try:
            with socket.create_connection(("127.0.0.1", port), timeout=WAIT) as link:
                while True:
                    link.sendall(b"".join(self.some_points(metric, ends[metric]) for metric in metrics))
                    time.sleep(0.001)
        except ConnectionError:
            return

    def some_points(self, metric, end):
        now = min(end, metric.sent + self.random.choice([0, 1, 1, 1, 2, 5]))
        lines = b"".join(map(metric.line, range(metric.sent, now)))
        metric.sent = now
        return lines

    def kill_under_load(self):
        old = self.add_old_files()
        daemon, port = self.start(self.has_redo)
        if port is None:
            return False
        new = [self.new_metric() for _ in range(NEW)]
        timer = daemon.kill_after(self.random.uniform(0, LOAD))
        self.load(port, self.long + new + [metric for metric in old if metric in self.metrics])
        timer.join()
        daemon.end()
        self.killed()
        return True

    def kill_before_load(self):
        """A start without a log, which has to mend what the kill before it left."""
        daemon, port = self.start(False)
        daemon.process.kill()
        daemon.end()
        self.killed()
        return port is not None

    def run(self, kills):
        is_well = True
        while is_well and self.counts["kills"] < kills:
            kind = self.random.randrange(8)
            if kind < (4 if self.opened else 2):
                self.kill_in_start()
            elif kind == 4:
                is_well = self.kill_before_load()
            else:
                is_well = self.kill_under_load()
        if is_well:
            self.stop()
        self.counts["metrics"] = len(self.metrics)
        self.counts["points"] = sum(metric.held for metric in self.metrics)
        if not self.wrong:
            shutil.rmtree(self.place)

    def stop(self):
        """One start more, whose stop loses nothing."""
        daemon, port = self.start(self.has_redo)
        if port is None:
            return
        metrics = list(self.metrics)
        with socket.create_connection(("127.0.0.1", port), timeout=WAIT) as link:
            link.sendall(b"".join(metric.line(metric.held) for metric in metrics))
        status, line = daemon.end("stop\n")
        if status != 0 or not line.startswith("stored %d replaced 0 full 0 " % len(metrics)):
            self.fails("the stop: status %d, %r" % (status, line))
        for metric in metrics:
            metric.held += 1
        self.judge_all()


def run_lane(above, seed, has_redo, kills):
    lane = Lane(above, seed, has_redo)
    lane.run(kills)
    return lane.counts, lane.wrong


def main():
    need_program()
    has_redo = "--plain" not in sys.argv[1:]
    words = [word for word in sys.argv[1:] if word != "--plain"]
    kills, above = int(words[0]) if words else 1000, words[1] if len(words) > 1 else MEMORY
    seed = int(words[2]) if len(words) > 2 else random.randrange(1_000_000)
    begun, counts, wrong = time.monotonic(), collections.Counter(), []
    lanes = [(above, "%d %d" % (seed, k), has_redo, (kills + k) // LANES) for k in range(LANES)]
    with multiprocessing.Pool(LANES) as pool:
        for some, faults in pool.starmap(run_lane, lanes):
            counts += some
            wrong += faults
    for line in wrong:
        print("wrong: " + line)
    took = time.monotonic() - begun
    mode = "with --redo" if has_redo else "plain"
    print("%s, seed %d: %d kills, %d of them in a start, in %.0f s" % (mode, seed, counts["kills"], counts["in a start"], took))
    print("%d gates were left open, and %d files before them changed by the start" % (counts["gates"], counts["mended"]))
    print("%d metrics hold %d points; drains found in part: %d; wrong: %d" % (counts["metrics"], counts["points"], counts["in part"], len(wrong)))
    sys.exit(1 if wrong else 0)


if __name__ == "__main__":
    main()
