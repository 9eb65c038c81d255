#!/usr/bin/env python3
"""Memory that is refused: the built program runs once for each request for memory that it makes, which is refused, and only that one.

Usage: bench/refused_memory.py [EXAMPLE..]      (all scripts of examples/, and three servers, without a word; `server` is the one without options,
                                                `server-redo` the one whose drains go through a log, and `server-rules` one with rule
                                                files, whose lines make another metric by an aggregation rule)

A library that stands before `malloc` and its kin (`bench/refuse_c.c`, for which a C compiler is needed) refuses the first request of a run, in the
next run the second, and so on, until a run makes no more. A run of a script has to end by itself

  whole      with status 0 and the whole output: the program went on without that memory
  short      with status 8 and `carbon: no memory` behind a front of the output
  by fault   or with replies of a failed disk, or status 5, where standard error tells a file for which there was no memory

and a run of a server, which takes two lines, answers a question and a request for names, and is stopped, likewise:

  whole      all is taken, answered and drained, with status 0
  short      a reply is 503, a connection or the server ends early (8 or 13, before or behind its service), and no answer is wrong
  by fault   a reply is 500, or status 5, as above
  unserved   the requests wait for the one renderer until the server is stopped, which drains all, with status 0: there was no memory for its thread

After each run a second one over the same folder has to find its files whole, and behind a server to show both points where its last line told all as
stored and it ended with status 0, none where it told none, and else a front of the two. What ends in another way is told, and makes the exit status 1. Run ./carbon build first.
"""
import collections
import contextlib
import glob
import os
import re
import shutil
import socket
import subprocess
import sys
import tempfile
import time

from live import HERE, PROGRAM, folder, need_program, write_rules

TOP = os.path.abspath(os.path.join(HERE, ".."))
PORTS = re.compile(r"carbon: lines on (\d+), HTTP on (\d+)")
KINDS = ("whole", "short", "by fault", "unserved")

# (rules: whether it has rule files; stored: how many points its two lines make; names: what may be told of its names, all first)
Server = collections.namedtuple("Server", "options rules stored names")
SERVERS = {
    "server": Server([], False, 2, [b'["a.b"]', b"[]"]),
    "server-redo": Server(["--redo"], False, 2, [b'["a.b"]', b"[]"]),
    "server-rules": Server([], True, 4, [b'["a.b", "all.b"]', b'["a.b"]', b'["all.b"]', b"[]"]),
}
SCHEMAS = b"[all]\npattern = .*\nretentions = 60s:1d\n"
AGGREGATIONS = b"[all]\npattern = .*\nxFilesFactor = 0\naggregationMethod = sum\n"
SUMS = b"all.<what> (60) = sum a.<what>\n"


def built(place):
    compiler = shutil.which("cc") or shutil.which("gcc")
    if not compiler:
        sys.exit("no C compiler")
    library = os.path.join(place, "refuse.so")
    subprocess.run([compiler, "-O2", "-shared", "-fPIC", "-o", library, os.path.join(HERE, "refuse_c.c")], check=True)
    return library


class Refusing:
    """The environment of a run whose request of this number is refused; 0: none is."""

    def __init__(self, library, place, number):
        self.mark = os.path.join(place, "refused")
        self.words = dict(os.environ, LD_PRELOAD=library, REFUSE=str(number), REFUSED=self.mark)

    def came(self):
        return os.path.exists(self.mark)


def is_sound(place):
    """Whether a run over what another one left finds files that are whole."""
    ran = subprocess.run([PROGRAM, "script"], input=b"", cwd=place, capture_output=True, timeout=60)
    return ran.returncode == 0


# ---- scripts


def judge_script(status, out, said, whole):
    """What kind of end it is, or None."""
    if (status, out) == (0, whole):
        return "whole"
    lines = out.splitlines(keepends=True)
    if status == 8 and lines[-1:] == [b"carbon: no memory\n"] and whole.startswith(b"".join(lines[:-1])):
        return "short"
    if status in (0, 5) and b"out of memory" in said and b"disk fault" in out:
        return "by fault"
    return None


def run_script(library, text, number):
    with tempfile.TemporaryDirectory() as beside, folder() as place:
        refusing = Refusing(library, beside, number)
        ran = subprocess.run([PROGRAM, "script"], input=text, cwd=place, env=refusing.words, capture_output=True, timeout=60)
        return refusing.came(), ran.returncode, ran.stdout, ran.stderr, is_sound(place)


def try_script(library, example):
    with open(example, "rb") as file:
        text = file.read()
    whole = run_script(library, text, 0)[2]

    def once(number):
        came, status, out, said, sound = run_script(library, text, number)
        kind = judge_script(status, out, said, whole) if sound else None
        return came, kind, "status %d, %s, %r, standard error %r" % (status, "sound files" if sound else "damaged files", out[-200:], said[-200:])

    return try_each(os.path.basename(example), once)


# ---- a server


def exchange(port, request):
    """The status of a reply and its body; no status where the connection ended first, and `late` where nothing came for 5 seconds."""
    reply = b""
    try:
        with socket.create_connection(("127.0.0.1", port), timeout=5) as link:
            link.sendall(request)
            while True:
                piece = link.recv(65536)
                if not piece:
                    break
                reply += piece
    except ConnectionError:
        pass
    except TimeoutError:
        return b"late", b""
    head, _, body = reply.partition(b"\r\n\r\n")
    return (head.split()[1] if head else None), body


def send(port, text):
    with contextlib.suppress(OSError), socket.create_connection(("127.0.0.1", port), timeout=5) as link:
        link.sendall(text)
        link.shutdown(socket.SHUT_WR)
        while link.recv(4096):
            pass


def judge_server(server, status, replies, allowed, last, said):
    """`allowed` has for each reply what may be found: all that was sent first, and then the fronts of it."""
    told = [code for code, _ in replies]
    if any(code == b"200" and body not in bodies for (code, body), bodies in zip(replies, allowed)):
        return None
    if status == 0 and replies == [(b"200", bodies[0]) for bodies in allowed] and re.fullmatch(
        b"stored %d replaced 0 full 0 drains [1-4]" % server.stored, last
    ):
        return "whole"
    if b"out of memory" in said and (b"500" in told or status == 5):
        return "by fault"
    if all(code in (b"200", b"503", None) for code in told) and status in (0, 8, 13):
        return "short"
    if status == 0 and set(told) == {b"late"} and last.startswith(b"stored %d " % server.stored):
        return "unserved"
    return None


def shown_later(place, query, moment):
    """What a run over what a server left shows of its metric; None where its files are not whole."""
    text = b"!clock %d\n!ask %s\n" % (moment, query)
    ran = subprocess.run([PROGRAM, "script"], input=text, cwd=place, capture_output=True, timeout=60)
    if ran.returncode:
        return None
    shown = b"".join(ran.stdout.splitlines(keepends=True)[:-1])
    return b"" if shown == b"\n" else shown


def may_show(server, status, last, fronts):
    """What a later run may show: all or nothing where the last line told that as stored and the server ended well. `fronts` begins with all."""
    stored = re.match(rb"stored (\d) ", last)
    if status:
        return fronts
    if not stored:
        return []
    return {0: fronts[-1:], server.stored: fronts[:1]}.get(int(stored[1]), fronts[1:2] if server.stored == 2 else fronts)


def write_all_rules(place):
    write_rules(place, SCHEMAS, AGGREGATIONS)
    with open(os.path.join(place, "conf", "aggregation-rules.conf"), "wb") as file:
        file.write(SUMS)


def run_server(library, number, server):
    now = int(time.time()) // 60 * 60 - 60
    ends = now - 60, now + 60
    allowed = [(b"a.b,%d,%d,60|1.5,2.5\n" % ends, b"a.b,%d,%d,60|1.5,None\n" % ends, b""), server.names]
    with tempfile.TemporaryDirectory() as beside, folder() as place:
        if server.rules:
            write_all_rules(place)
        refusing = Refusing(library, beside, number)
        words = [PROGRAM, "serve", "--line-port", "0", "--http-port", "0", "--receivers", "1", "--renderers", "1", *server.options]
        told = open(os.path.join(beside, "said"), "w+b")
        process = subprocess.Popen(words, cwd=place, env=refusing.words, stdin=subprocess.PIPE, stdout=subprocess.PIPE, stderr=told)
        ports, replies = None, []
        for _ in range(1000):
            ports = PORTS.search(said(told).decode())
            if ports or process.poll() is not None:
                break
            time.sleep(0.005)
        query = b"target=a.b&from=%d&until=%d&format=raw" % (now - 120, now)
        if ports:
            send(int(ports[1]), b"a.b 1.5 %d\na.b 2.5 %d\n" % (now - 60, now))
            replies.append(exchange(int(ports[2]), b"GET /render?%s HTTP/1.0\r\n\r\n" % query))
            replies.append(exchange(int(ports[2]), b"GET /metrics/index.json HTTP/1.0\r\n\r\n"))
        try:
            out, _ = process.communicate(b"stop\n", timeout=30)
        except subprocess.TimeoutExpired:
            process.kill()
            out, _ = process.communicate()
        last = (out.splitlines() or [b""])[-1]
        return refusing.came(), process.returncode, replies, allowed, last, said(told), shown_later(place, query, now + 60)


def said(file):
    file.seek(0)
    return file.read()


def try_server(library, name, server):
    def once(number):
        came, status, replies, allowed, last, told, later = run_server(library, number, server)
        kind = judge_server(server, status, replies, allowed, last, told)
        kind = kind if later in may_show(server, status, last, allowed[0]) else None
        return came, kind, "status %d, %r, %r, later %r, standard error %r" % (status, replies, last, later, told[-200:])

    return try_each(name, once)


# ----


def try_each(name, once):
    """Refuses one request after the other, and tells how the runs ended; whether each did as it has to."""
    begun, count, bad = time.time(), dict.fromkeys(KINDS, 0), 0
    came, kind, how = once(0)
    if kind != "whole":
        sys.exit("%s: with all memory: %s" % (name, how))
    for number in range(1, 1_000_000):
        came, kind, how = once(number)
        if not came:
            break
        if kind:
            count[kind] += 1
        else:
            bad += 1
            print("    request %d: %s" % (number, how), flush=True)
    ends = ", ".join("%d %s" % (count[kind], kind) for kind in KINDS if count[kind])
    print("%-28s %5d requests: %s, %d otherwise (%.0f s)" % (name, sum(count.values()) + bad, ends, bad, time.time() - begun), flush=True)
    return not bad


def main():
    need_program()
    names = sys.argv[1:] or [*sorted(glob.glob(os.path.join(TOP, "examples", "*.txt"))), *SERVERS]
    with tempfile.TemporaryDirectory() as place:
        library = built(place)
        fine = [try_server(library, name, SERVERS[name]) if name in SERVERS else try_script(library, name) for name in names]
    sys.exit(0 if all(fine) else 1)


main()
