#!/usr/bin/env python3
"""How many metrics 1, 4 and 16 drainers drain in a second, into files that are there, with a disk that is as fast as it is and with slow ones.

Usage: bench/drainers.py [FOLDER [METRICS [MILLISECONDS..]]]      (/dev/shm, 20,000, and 0, 1 and 5 milliseconds, where none are named)

Makes the ring files of so many metrics in a new folder in FOLDER, then runs `carbon serve` there with a library before the system's `pwrite` that
waits so many milliseconds, and sends one point of each metric over one connection. The drains are over when the kernel has counted no further write
of the process for half a second. Where a write waits, a twentieth of the metrics get points. Prints the drained metrics a second, from the first
write to the last. Nothing timed here is a test. Wants a C compiler, `cc`. Run ./carbon build first.
"""
import os
import shutil
import socket
import sys
import tempfile
import threading
import time

from live import MEMORY, need_program, write_rules
from slow_disk import Daemon, library

RULES = b"[all]\npattern = .*\nretentions = 1s:1h\n"
DRAINERS = 1, 4, 16
QUIET = 0.5


def writes_of(process):
    with open("/proc/%d/io" % process.pid) as file:
        return int(dict(line.split(": ") for line in file)["syscw"])


def last_write(process, before):
    """When the process wrote first and last, once it is silent."""
    begun, changed, count = None, time.monotonic(), before
    while True:
        now, counted = time.monotonic(), writes_of(process)
        if counted != count:
            begun = begun or now
            changed, count = now, counted
        elif begun and now - changed > QUIET:
            return begun, changed
        time.sleep(0.002)


def send(port, metrics, value):
    """Sends a point of each metric, and waits until the daemon has taken them."""
    now = int(time.time())
    with socket.create_connection(("127.0.0.1", port)) as link:
        link.sendall(b"".join(b"drained.m%05d %d %d\n" % (k, value, now) for k in range(metrics)))
        link.shutdown(socket.SHUT_WR)
        link.recv(1)


def make_files(place, metrics, preload):
    daemon = Daemon(place, preload, 0)
    send(daemon.lines, metrics, 0)
    last_write(daemon.process, 0)
    daemon.stop()


def measure(place, preload, drainers, milliseconds, metrics):
    daemon = Daemon(place, preload, milliseconds, "--drainers", str(drainers))
    before = writes_of(daemon.process)
    sender = threading.Thread(target=send, args=(daemon.lines, metrics, drainers))
    sender.start()
    begun, ended = last_write(daemon.process, before)
    sender.join()
    daemon.stop()
    return metrics / (ended - begun)


def main():
    need_program()
    above = sys.argv[1] if len(sys.argv) > 1 else MEMORY
    metrics = int(sys.argv[2]) if len(sys.argv) > 2 else 20_000
    delays = [float(word) for word in sys.argv[3:]] or [0, 1, 5]
    place = tempfile.mkdtemp(prefix="drainers", dir=above)
    try:
        preload = library(place)
        write_rules(place, RULES)
        make_files(place, metrics, preload)
        print("ms a write | " + " | ".join("%d drainers" % drainers for drainers in DRAINERS))
        for delay in delays:
            some = metrics if delay == 0 else metrics // 20
            told = ["%d" % measure(place, preload, drainers, delay, some) for drainers in DRAINERS]
            print("%g | %s" % (delay, " | ".join(told)), flush=True)
    finally:
        shutil.rmtree(place)


if __name__ == "__main__":
    main()
