#!/usr/bin/env python3
"""What the log of --redo costs: lines a second and drained metrics a second, beside SQLite and Whisper that wait for the device as well.

Usage: bench/redo.py [FOLDER [METRICS [LINES]]]      (the folder of temporary files, 2,000 metrics and 1,000,000 lines, where none are named)
       bench/redo.py --sync-ms MS,.. [FOLDER [METRICS [LINES]]]      (a folder in memory, 2,000 metrics and 1,000,000 lines)

All is done in new folders in FOLDER, one after the other. In a folder in memory nothing waits for a device: name one of a disk.

  lines     `carbon serve --drainers 16` with and without --redo is sent LINES lines of 10,000 metrics, which have ring files by then, over one
            connection as fast as they are taken. The last line is taken where the daemon has closed the connection. Told are the lines a second, and how
            many seconds after the first byte the last write was seen, when all is drained
  metrics   one point of each of so many metrics, into files that are there: the drained metrics a second from the first write to the last, by 1, 4 and
            16 drainers with --redo, and without it. Without it nothing is waited for: those are for the difference alone
  syncs     1, 4 and 16 processes write twenty bytes over those of a file of their own, and wait for the device, again and again: their syncs a second. Four
            of them are the least that a drained metric takes, so the row of 16 over that of 1 is what no number of drainers comes beyond
  SQLite    that of python3, a table of points by metric and time with its rows there already, a transaction for each metric with one point, and
            synchronous=FULL; with a rollback journal, and with a write-ahead log
  Whisper   the same points into files of its format that are there, as whisper.update writes one: open, read the head and the base, write the point,
            flush, fsync, close. By the package whisper where python3 has it, else by a loop here that makes the same calls

With --sync-ms a sync takes so many milliseconds more, by a library before the system's fsync and fdatasync that waits first, and there are the lines
and the metrics alone, for each of the times. In the column "at once" all that wait do so beside each other, as before a device that takes many syncs at
once; in the column "in turn" one after the other. So what the log costs by itself is told apart from what a device does. With the log fewer metrics are
drained where a sync takes long. A start waits for no sync, since it writes nothing. Wants a C compiler, `cc`.

Nothing timed here is a test. Run ./carbon build first.
"""
import multiprocessing
import os
import shutil
import sqlite3
import struct
import sys
import tempfile
import threading
import time

from drainers import last_write, send as send_points, writes_of
from live import MEMORY, need_program, write_rules
from serve import METRICS as LINE_METRICS, Lines, send as send_lines
from slow_disk import Daemon, library

RULES = b"[drained]\npattern = ^drained\\.\nretentions = 1s:1h\n"
DRAINERS = 1, 4, 16
SYNC_SECONDS = 2


class Place:
    """A folder of its own, which is removed."""

    def __init__(self, above):
        self.above = above

    def __enter__(self):
        self.name = tempfile.mkdtemp(prefix="redo", dir=self.above)
        return self.name

    def __exit__(self, *_):
        shutil.rmtree(self.name)


def make_files(place, metrics):
    """Makes the files without a log, and waits until the device has them, so that later waits are not for these."""
    daemon = Daemon(place, "", 0, "--drainers", "4")
    send_points(daemon.lines, metrics, 0)
    send_lines(daemon.lines, Lines(LINE_METRICS, int(time.time()) - 86_400).parts(1))
    last_write(daemon.process, 0)
    daemon.stop()
    os.sync()


def named(words):
    return " ".join(words) or "no log"


def row(name, count, what, took, rest=""):
    print("%-46s %10.0f %s a second%s" % (name, count / took, what, rest), flush=True)


def measure_lines(place, count, words, preload="", **device):
    """How many lines, in how many seconds they were taken, and after how many all was drained."""
    daemon = Daemon(place, preload, 0, "--drainers", "16", *words, **device)
    lines = Lines(count, int(time.time()))
    pieces, before, begun, told = lines.parts(1), writes_of(daemon.process), time.monotonic(), []
    watch = threading.Thread(target=lambda: told.append(last_write(daemon.process, before)))
    watch.start()
    took = send_lines(daemon.lines, pieces)
    watch.join()
    daemon.stop()
    return lines.count, took, told[0][1] - begun


def run_lines(place, count, words):
    count, took, drained = measure_lines(place, count, words)
    row("lines, 16 drainers, " + named(words), count, "lines", took, ", all drained after %.1f s" % drained)


def measure_metrics(place, metrics, drainers, words, preload="", **device):
    """In how many seconds so many metrics were drained."""
    daemon = Daemon(place, preload, 0, "--drainers", str(drainers), *words, **device)
    before = writes_of(daemon.process)
    sender = threading.Thread(target=send_points, args=(daemon.lines, metrics, drainers))
    sender.start()
    begun, ended = last_write(daemon.process, before)
    sender.join()
    daemon.stop()
    return ended - begun


def run_metrics(place, metrics, drainers, words):
    row("metrics, %d drainers, %s" % (drainers, named(words)), metrics, "metrics", measure_metrics(place, metrics, drainers, words))


def slow_row(name, told):
    print(" | ".join(["%-34s" % name] + ["%12s" % text for text in told]), flush=True)


def rate(count, took):
    return "%.0f" % (count / took) if took else "-"


def run_slow(place, metrics, count, delay, preload):
    """The rows of one delay: before a device that takes many syncs at once, and before one that takes them in turn."""
    at_once = {"SLOW_SYNC": "%d" % (delay * 1000)}
    devices = at_once, dict(at_once, SLOW_TURN="1")
    slow_row("%g ms a sync" % delay, ["at once", "in turn"])
    for words in [], ["--redo"]:
        some = int(metrics / (1 + delay / 4)) if words else metrics
        for drainers in DRAINERS:
            took = [measure_metrics(place, some, drainers, words, preload, **device) for device in devices]
            slow_row("metrics, %d drainers, %s" % (drainers, named(words)), [rate(some, seconds) for seconds in took])
    for words in [], ["--redo"]:
        taken, took, drained = measure_lines(place, count, words, preload, **at_once)
        slow_row("lines, 16 drainers, " + named(words), [rate(taken, took), ""])
        slow_row("all of these drained after", ["%.1f s" % drained, ""])


def main_slow(delays, above, metrics, count):
    with Place(above) as place:
        preload = library(place)
        write_rules(place, RULES)
        make_files(place, metrics)
        for delay in delays:
            run_slow(place, metrics, count, delay, preload)


def sync_on(name, seconds, told):
    """Writes over one file and syncs it, for so many seconds, and tells how often."""
    file, count, until = os.open(name, os.O_RDWR | os.O_CREAT), 0, time.monotonic() + seconds
    os.pwrite(file, bytes(4096), 0)
    os.fsync(file)
    while time.monotonic() < until:
        os.pwrite(file, b"%020d" % count, 0)
        os.fsync(file)
        count += 1
    os.close(file)
    told.put(count)


def run_syncs(place, workers):
    told = multiprocessing.SimpleQueue()
    names = [os.path.join(place, "synced%d" % number) for number in range(workers)]
    crew = [multiprocessing.Process(target=sync_on, args=(name, SYNC_SECONDS, told)) for name in names]
    for worker in crew:
        worker.start()
    row("syncs, %d processes" % workers, sum(told.get() for _ in crew), "syncs", SYNC_SECONDS)
    for worker in crew:
        worker.join()


def run_sqlite(place, metrics, journal):
    link = sqlite3.connect(os.path.join(place, journal + ".db"), isolation_level=None)
    link.execute("PRAGMA journal_mode=" + journal)
    link.execute("PRAGMA synchronous=FULL")
    link.execute("CREATE TABLE points (metric TEXT, time INTEGER, value REAL, PRIMARY KEY (metric, time)) WITHOUT ROWID")
    names, now = ["drained.m%05d" % k for k in range(metrics)], int(time.time())
    link.execute("BEGIN")
    link.executemany("INSERT INTO points VALUES (?, ?, 0)", ((name, now - 60) for name in names))
    link.execute("COMMIT")
    begun = time.monotonic()
    for name in names:
        link.execute("BEGIN")
        link.execute("INSERT OR REPLACE INTO points VALUES (?, ?, 1.5)", (name, now))
        link.execute("COMMIT")
    row("SQLite %s, journal_mode=%s" % (sqlite3.sqlite_version, journal), metrics, "metrics", time.monotonic() - begun)
    link.close()


POINTS = 3600
HEAD = struct.Struct(">2LfL")
ARCHIVE = struct.Struct(">3L")
POINT = struct.Struct(">Ld")


def create_wsp(name):
    """A file of one archive of 3,600 seconds, with a point in its first slot."""
    with open(name, "wb") as file:
        file.write(HEAD.pack(1, POINTS, 0.5, 1) + ARCHIVE.pack(HEAD.size + ARCHIVE.size, 1, POINTS))
        file.write(POINT.pack(int(time.time()) - 60, 0.0))
        file.truncate(HEAD.size + ARCHIVE.size + POINT.size * POINTS)


def update_wsp(name, value, moment):
    """The calls of whisper.update for a file of one archive."""
    with open(name, "r+b") as file:
        HEAD.unpack(file.read(HEAD.size))
        offset, step, points = ARCHIVE.unpack(file.read(ARCHIVE.size))
        file.seek(offset)
        base, _ = POINT.unpack(file.read(POINT.size))
        file.seek(offset + POINT.size * ((moment - base) // step % points))
        file.write(POINT.pack(moment, value))
        file.flush()
        os.fsync(file.fileno())


def whisper_calls():
    """Makes a file, writes a point, and what these are called."""
    try:
        import whisper
    except ImportError:
        return create_wsp, update_wsp, "Whisper's calls in a loop, with fsync"
    whisper.AUTOFLUSH = True
    return lambda name: whisper.create(name, [(1, POINTS)]), whisper.update, "Whisper, with fsync"


def run_whisper(place, metrics):
    create, update, told = whisper_calls()
    names = [os.path.join(place, "m%05d.wsp" % k) for k in range(metrics)]
    for name in names:
        create(name)
    os.sync()
    begun = time.monotonic()
    for name in names:
        update(name, 1.5, int(time.time()))
    row(told, metrics, "metrics", time.monotonic() - begun)


def main():
    need_program()
    words, delays = sys.argv[1:], []
    if words[:1] == ["--sync-ms"]:
        delays, words = [float(word) for word in words[1].split(",")], words[2:]
    above = words[0] if words else MEMORY if delays else None
    metrics, count = ([int(word) for word in words[1:]] + [2_000, 1_000_000][len(words[1:]) :])[:2]
    if delays:
        return main_slow(delays, above, metrics, count)
    with Place(above) as place:
        write_rules(place, RULES)
        make_files(place, metrics)
        for words in [], ["--redo"]:
            run_lines(place, count, words)
            os.sync()
        for words in [], ["--redo"]:
            for drainers in DRAINERS:
                run_metrics(place, metrics, drainers, words)
                os.sync()
    with Place(above) as place:
        for workers in DRAINERS:
            run_syncs(place, workers)
    for journal in "delete", "wal":
        with Place(above) as place:
            run_sqlite(place, metrics, journal)
    with Place(above) as place:
        run_whisper(place, metrics)


if __name__ == "__main__":
    main()
