#!/usr/bin/env python3
"""What a pace spares: writes and processor time a point, where each of so many metrics gets a point a second.

Usage: bench/pace.py [SECONDS [METRICS [PACE..]]]      (30 seconds, 10,000 metrics, and the paces 0, 1000 and 200, where none are named)

Makes the ring files of so many metrics in a new folder in memory, then runs `carbon serve --pace PACE` there, and sends a point of each metric each
second, for so many seconds. Prints for each pace how many points were written at once, how many calls that write there were for a point that was
written, how many microseconds of the processor a point took that came, and which part of the points was pending at the end. A point that is written
is a cell of twenty bytes, by which they are counted. Nothing timed here is a test. Run ./carbon build first.
"""
import os
import socket
import sys
import time

from drainers import last_write
from live import folder, need_program, write_rules
from slow_disk import Daemon

RULES = b"[all]\npattern = .*\nretentions = 1s:1h\n"
TICKS = os.sysconf("SC_CLK_TCK")
CELL = 20


def send(link, metrics, moment):
    link.sendall(b"".join(b"paced.m%05d %d %d\n" % (k, moment % 1000, moment) for k in range(metrics)))


def counts(process):
    """The calls that wrote, the bytes in them, and the seconds of the processor, so far."""
    with open("/proc/%d/io" % process.pid) as file:
        fields = dict(line.split(": ") for line in file)
    with open("/proc/%d/stat" % process.pid) as file:
        ticks = file.read().rsplit(")", 1)[1].split()[11:13]
    return int(fields["syscw"]), int(fields["wchar"]), sum(map(int, ticks)) / TICKS


def measure(place, pace, metrics, seconds):
    daemon = Daemon(place, "", 0, "--pace", str(pace))
    with socket.create_connection(("127.0.0.1", daemon.lines)) as link:
        begun, first = time.monotonic(), counts(daemon.process)
        for second in range(seconds):
            send(link, metrics, int(time.time()))
            time.sleep(max(0, begun + second + 1 - time.monotonic()))
        last = counts(daemon.process)
    daemon.process.kill()
    daemon.process.wait()
    return [now - was for now, was in zip(last, first)]


def make_files(place, metrics):
    daemon = Daemon(place, "", 0)
    with socket.create_connection(("127.0.0.1", daemon.lines)) as link:
        send(link, metrics, int(time.time()))
        last_write(daemon.process, 0)
    daemon.stop()


def main():
    need_program()
    words = [int(word) for word in sys.argv[1:]]
    seconds, metrics, paces = (words + [30])[0], (words[1:] + [10_000])[0], words[2:] or [0, 1000, 200]
    points = metrics * seconds
    print("pace | points a write | writes a point | microseconds a point | pending at the end")
    for pace in paces:
        with folder() as place:
            write_rules(place, RULES)
            make_files(place, metrics)
            writes, size, took = measure(place, pace, metrics, seconds)
            written = max(1, size // CELL)
            pending = 100 * (1 - written / points)
            print("%d | %.1f | %.3f | %.2f | %.0f %%" % (pace, written / max(1, writes), writes / written, took * 1e6 / points, pending), flush=True)


if __name__ == "__main__":
    main()
