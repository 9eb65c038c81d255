#!/usr/bin/env python3
"""What it takes to write a ring file of version 1 anew, for files of as many points as a file may have: memory, the processor and time.

Usage: bench/carry.py [POINTS]      (4,000,000 without a number)

Two files of version 1 are made in different classes, one of a single archive and one of three, with a value in each slot of each archive. `./carbon
serve` starts over them, and each metric gets one point, one after the other. Told are the most memory that the daemon held beyond what it held before,
the processor's seconds, and the seconds until the file is written anew. Then each byte of the file is compared with what it has to be by FORMATS: the
same cells in 20 bytes each, but for that of the new point. One that is otherwise ends it with status 1. Run ./carbon build first.
"""
import os
import struct
import sys
import time

from live import class_of, folder, need_program, write_rules
from serve import Daemon, send

END = int(time.time()) // 3600 * 3600 - 3600  # the newest bucket of each archive
FACTOR = 500_000
AVERAGE = 1
VALUE = 1_500  # of the new point, in thousandths


def archives_of(points):
    """The steps and points of each file's archives, by its metric."""
    coarse, coarsest = points // 3, points // 30
    return {"one": [(1, points)], "three": [(1, points - coarse - coarsest), (10, coarse), (3600, coarsest)]}


def head(version, archives):
    mark, size = (AVERAGE, 12) if version == 1 else (512 + AVERAGE, 20)
    text = struct.pack(">IIII", mark, archives[-1][0] * archives[-1][1], FACTOR, len(archives))
    at = 16 + 12 * len(archives)
    for step, points in archives:
        text += struct.pack(">III", at, step, points)
        at += size * points
    return text


def cells(archives):
    """The bucket and the value of each slot, archive by archive."""
    for step, points in archives:
        for bucket in range(END - step * (points - 1), END + 1, step):
            yield bucket, bucket % 1_999 - 999


def old_file(archives):
    pack = struct.Struct(">Iq").pack
    return head(1, archives) + b"".join(pack(bucket, value) for bucket, value in cells(archives))


def new_file(archives):
    pack = struct.Struct(">Iqq").pack
    text = bytearray(head(2, archives))
    text += b"".join(pack(bucket, -1 if value < 0 else 0, value) for bucket, value in cells(archives))
    # The new point comes behind the newest one, and takes the slot of the oldest.
    at = len(head(2, archives))
    text[at : at + 20] = pack(END + 1, 0, VALUE)
    return bytes(text)


def path_of(place, metric):
    return os.path.join(place, "data", "%02d" % class_of(metric.encode()), metric + ".ring")


def write_old(place, metric, archives):
    path = path_of(place, metric)
    os.makedirs(os.path.dirname(path), exist_ok=True)
    with open(path, "wb") as file:
        file.write(old_file(archives))


def most_held(daemon):
    with open("/proc/%d/status" % daemon.pid) as file:
        return int(dict(line.split(":", 1) for line in file)["VmHWM"].split()[0]) * 1024


def is_new(path):
    with open(path, "rb") as file:
        return file.read(3) == b"\0\0\2"


def carry(daemon, place, metric, archives):
    before, spent, begun = daemon.held(), daemon.seconds(), time.time()
    with open("/proc/%d/clear_refs" % daemon.pid, "w") as file:
        file.write("5")
    send(daemon.line_port, [b"%s 1.5 %d\n" % (metric.encode(), END + 1)])
    while not is_new(path_of(place, metric)):
        time.sleep(0.01)
    took, spent, most = time.time() - begun, daemon.seconds() - spent, most_held(daemon) - before
    print("%-6s %10d points: %5.0f MB, %.2f s of the processor, %.1f s" % (metric, sum(p for _, p in archives), most / 1e6, spent, took), flush=True)


def main():
    need_program()
    files = archives_of(int(sys.argv[1]) if len(sys.argv) > 1 else 4_000_000)
    with folder() as place:
        write_rules(place, b"[all]\npattern = .*\nretentions = 60s:1d\n")
        for metric, archives in files.items():
            write_old(place, metric, archives)
        daemon = Daemon(place)
        try:
            for metric, archives in files.items():
                carry(daemon, place, metric, archives)
            print(daemon.stop()[0])
        finally:
            daemon.process.kill()
        for metric, archives in files.items():
            with open(path_of(place, metric), "rb") as file:
                if file.read() != new_file(archives):
                    sys.exit("%s: the file is otherwise than it has to be" % metric)


main()
