#!/usr/bin/env python3
"""What waits for a slow disk: lines over one connection, and questions, while each write of a ring file takes so many milliseconds more.

Usage: bench/slow_disk.py [--one-class] [SECONDS [MILLISECONDS..]]      (5 seconds, and 0, 1, 5 and 20 milliseconds, where none are named)

Runs `carbon serve` in a folder in memory with a library before the system's `pwrite` that waits first. One connection of a process of its own
brings lines of 10,000 metrics as fast as they are taken, for so many seconds; beside it one client asks, over one connection and without a pause, for a metric that is
not there, for one of which all points are pending while the disk is slow, and for one that is drained early, in turn. Prints for each delay the
lines a second that the system took of the sender, the milliseconds of the three questions (half of them took at most so long, and 99 of 100), how many ring files were made a
second, and whether the second metric had none until the end. With --one-class all metrics are of one class, so that its drains go on all the while,
and what is asked for is read between them. Nothing timed here is a test. Wants a C compiler, `cc`. Run ./carbon build first.
"""
import http.client
import itertools
import multiprocessing
import os
import re
import socket
import subprocess
import sys
import tempfile
import threading
import time

from live import HERE, PROGRAM, class_of, folder, need_program, write_rules

PORTS = re.compile(r"carbon: lines on (\d+), HTTP on (\d+)")
RULES = b"[all]\npattern = .*\nretentions = 1s:1h\n"
METRICS = 10_000
PIECE = 1_000
# The class of all metrics where one is to be busy.
BUSY = 7


def names_of(is_one_class):
    """The metrics, of which the last is drained last."""
    named = (b"slow.m%06d" % number for number in itertools.count())
    return list(itertools.islice((name for name in named if not is_one_class or class_of(name) == BUSY), METRICS))


def library(place):
    made = os.path.join(place, "slow_write.so")
    subprocess.run(["cc", "-O2", "-shared", "-fPIC", "-o", made, os.path.join(HERE, "slow_write_c.c"), "-ldl", "-pthread"], check=True)
    return made


class Daemon:
    def __init__(self, place, preload, milliseconds, *words, **others):
        surroundings = dict(os.environ, LD_PRELOAD=preload, SLOW=str(int(milliseconds * 1000)), **others)
        self.process = subprocess.Popen(
            [PROGRAM, "serve", "--line-port", "0", "--http-port", "0", "--limit", "10000000", *words],
            stdin=subprocess.PIPE, stdout=subprocess.PIPE, stderr=subprocess.PIPE, cwd=place, env=surroundings, text=True,
        )
        for line in self.process.stderr:
            ports = PORTS.search(line)
            if ports:
                break
        else:
            sys.exit("no ports: status %d" % self.process.wait())
        self.lines, self.http = int(ports[1]), int(ports[2])
        threading.Thread(target=self.process.stderr.read, daemon=True).start()

    def stop(self):
        self.process.communicate("stop\n")


def lines_of(names, now):
    """Lines of each metric with two values in turn, so that each is another point, cut into pieces."""
    lines = [b"%s %d %d\n" % (name, k + value, now) for value in range(2) for k, name in enumerate(names)]
    return [b"".join(lines[at : at + PIECE]) for at in range(0, len(lines), PIECE)]


def send(port, names, until, sent):
    """Sends until then; `sent` gets the number of lines."""
    with socket.create_connection(("127.0.0.1", port)) as link:
        number, moment, pieces = 0, 0, []
        while time.monotonic() < until:
            if int(time.time()) != moment:
                moment = int(time.time())
                pieces = lines_of(names, moment)
            link.sendall(pieces[number // PIECE % len(pieces)])
            number += PIECE
    sent.value = number


def ask(port, until, targets):
    took = [[] for _ in targets]
    link = http.client.HTTPConnection("127.0.0.1", port)
    while time.monotonic() < until:
        for target, list in zip(targets, took):
            begun = time.perf_counter()
            link.request("GET", "/render?format=json&from=-60s&target=" + target)
            reply = link.getresponse()
            reply.read()
            list.append((time.perf_counter() - begun) * 1000)
            if reply.status != 200:
                sys.exit("a question got status %d" % reply.status)
    return took


def file_of(place, metric):
    return os.path.join(place, "data", "%02d" % class_of(metric.encode()), metric.replace(".", "/") + ".ring")


def at(list, part):
    ordered = sorted(list)
    return ordered[min(len(ordered) - 1, int(len(ordered) * part))] if ordered else float("nan")


def measure(seconds, milliseconds, preload, names):
    early, last = names[7].decode(), names[-1].decode()
    with folder() as place:
        write_rules(place, RULES)
        daemon = Daemon(place, preload, milliseconds)
        sent = multiprocessing.Value("q", 0)
        until = time.monotonic() + seconds
        sender = multiprocessing.Process(target=send, args=(daemon.lines, names, until, sent))
        sender.start()
        took = ask(daemon.http, until, ["slow.none", last, early])
        sender.join()
        made = sum(len(files) for _, _, files in os.walk(os.path.join(place, "data")))
        is_pending = not os.path.exists(file_of(place, last))
        daemon.process.kill()
        daemon.process.wait()
        return sent.value / seconds, took, made / seconds, is_pending


def main():
    need_program()
    is_one_class = "--one-class" in sys.argv[1:]
    words = [float(word) for word in sys.argv[1:] if word != "--one-class"]
    seconds, delays = (words[0] if words else 5), (words[1:] or [0, 1, 5, 20])
    with tempfile.TemporaryDirectory() as made:
        preload = library(made)
        print("ms a write | lines a second | nothing: half, 99 of 100 | pending: the same | drained: the same | new files a second | pending to the end")
        for delay in delays:
            lines, took, made, is_pending = measure(seconds, delay, preload, names_of(is_one_class))
            times = " | ".join("%.2f, %.2f ms" % (at(times, 0.5), at(times, 0.99)) for times in took)
            print("%g | %d | %s | %d | %s" % (delay, lines, times, made, "yes" if is_pending else "no"), flush=True)


if __name__ == "__main__":
    main()
