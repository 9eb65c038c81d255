#!/usr/bin/env python3
"""The rows of look_cases: what Whisper's own programs tell of files, and what stands here by hand of damaged ones.

Usage: bench/look_rows.py print      prints the rows
       bench/look_rows.py            looks whether they are the program's stdin

Whisper fills the files, at moments that are told to it, and its `whisper-info` and `whisper-fetch` tell what is in them. The same archives and cells,
with values in thousandths, make the ring files of the rows, in version 1, whose cells are as long as Whisper's, and in version 2. Of what they tell
three things are rewritten: the factor has six places, a value has no more places than it needs, and each archive has a line more, with the number of
its cells that are not zero. It wants python3-whisper 1.1, or its files unpacked: PYTHONPATH names the folder of whisper.py, and PATH that of the programs.
"""
import contextlib
import io
import os
import runpy
import shutil
import struct
import sys
import tempfile
import time

import whisper

HERE = os.path.dirname(os.path.abspath(__file__))
STDIN = os.path.join(HERE, "..", "crates", "look_cases", "stdin")
HEAD = struct.Struct(">2LfL")
ROW = struct.Struct(">3L")
POINT = struct.Struct(">Ld")
CELL_BYTES = {1: 12, 2: 20}
NOW = 1_700_000_000


@contextlib.contextmanager
def at(moment):
    """The time stands still for whisper."""
    real = time.time
    time.time = lambda: moment
    try:
        yield
    finally:
        time.time = real


def told(program, *words):
    """What one of Whisper's programs prints at NOW."""
    out, argv = io.StringIO(), sys.argv
    sys.argv = [program, *map(str, words)]
    try:
        with at(NOW), contextlib.redirect_stdout(out):
            runpy.run_path(shutil.which(program), run_name="__main__")
    except SystemExit as end:
        if end.code != "No data in selected timerange":
            raise
    finally:
        sys.argv = argv
    return out.getvalue()


class Kind:
    """A Whisper file of these archives, filled with points: each a value and how long before NOW, put at that time plus `later`."""

    def __init__(self, folder, name, archives, method="average", factor=0.5, points=()):
        self.name, self.path = name, os.path.join(folder, name + ".wsp")
        whisper.create(self.path, archives, factor, method)
        for before, value, later in points:
            with at(NOW - before + later):
                whisper.update(self.path, value, NOW - before)
        with open(self.path, "rb") as file:
            self.bytes = file.read()
        self.method, self.retention, factor, count = HEAD.unpack_from(self.bytes)
        self.factor = round(factor * 1_000_000)
        self.rows = [ROW.unpack_from(self.bytes, HEAD.size + i * ROW.size) for i in range(count)]

    def cells(self, row):
        offset, _, points = row
        return [POINT.unpack_from(self.bytes, offset + i * POINT.size) for i in range(points)]

    def ring(self, version):
        """The ring file of a version, with the same cells."""
        at_byte = 16 + 12 * len(self.rows)
        head = struct.pack(">4L", self.method + 512 * (version - 1), self.retention, self.factor, len(self.rows))
        body = b""
        for row in self.rows:
            head += struct.pack(">3L", at_byte + len(body), row[1], row[2])
            for bucket, value in self.cells(row):
                body += struct.pack(">L", bucket) + round(value * 1000).to_bytes(CELL_BYTES[version] - 4, "big", signed=True)
        return head + body

    def info(self, version):
        """What whisper-info tells, as it is told of the ring file."""
        lines, archive = [], -1
        end = 16 + 12 * len(self.rows)
        for line in told("whisper-info", self.path).split("\n"):
            key, _, _ = line.partition(": ")
            if key == "xFilesFactor":
                line = "xFilesFactor: %d.%06d" % divmod(self.factor, 1_000_000)
            if key.startswith("Archive "):
                archive += 1
            if version == 2 and key in ("fileSize", "offset", "size"):
                points = [row[2] for row in self.rows]
                longer = {"fileSize": end + 20 * sum(points), "offset": end + 20 * sum(points[:archive]), "size": 20 * points[archive]}
                line = "%s: %d" % (key, longer[key])
            lines.append(line)
            if key == "size":
                lines.append("stored: %d" % sum(cell != (0, 0.0) for cell in self.cells(self.rows[archive])))
        return "\n".join(lines[:-1]) + "\n"

    def fetch(self, since, until):
        """What whisper-fetch tells of a span before NOW."""
        lines = told("whisper-fetch", "--from=%d" % (NOW - since), "--until=%d" % (NOW - until), self.path).splitlines()
        return "".join("%s\t%s\n" % (line.split("\t")[0], shortest(line.split("\t")[1])) for line in lines)


def shortest(value):
    """A value with one place at least, and no zeros behind that."""
    whole, _, places = value.partition(".")
    return value if value == "None" else "%s.%s" % (whole, places.rstrip("0") or "0")


def kinds(folder):
    minutes = [(60, 5), (300, 4)]
    climb = [(1140 - 60 * i, 1.5 + i, 0) for i in range(20)]
    yield Kind(folder, "one", [(60, 10)], points=[(540, 1, 0), (480, -2.25, 0), (120, 0, 0)])
    yield Kind(folder, "empty", minutes)
    yield Kind(folder, "full", minutes, points=climb)
    yield Kind(folder, "round", [(60, 3)], points=[(900, 7, 0), (840, 8, 0), (780, 9, 0), (60, 10.125, 0)])
    yield Kind(folder, "old", minutes, points=[(1000, 4, 0), (700, 5, 0)])
    for method in ("sum", "last", "max", "min", "avg_zero", "absmax", "absmin"):
        yield Kind(folder, method, minutes, method, 0.3, climb[::2])
    yield Kind(folder, "all", [(1, 60), (60, 60), (3600, 24)], "average", 1.0, [(59 - i, i % 7, 0) for i in range(60)])
    yield Kind(folder, "none", [(60, 5), (300, 4)], "last", 0.0, [(3, 0.001, 0)])


def word(data):
    """Bytes as a word of a case."""
    text, i = "", 0
    while i < len(data):
        run = len(data) - i - len(data[i:].lstrip(data[i : i + 1]))
        if run > 3:
            text += "\\(%d\\x%02x)" % (run, data[i])
        else:
            text += ("\\x%02x" % data[i]) * run
        i += run
    return text


def line(text):
    return text.replace("\\", "\\\\").replace("\n", "\\n").replace("\t", "\\t")


SPANS = [(600, 0), (300, 0), (1200, 600), (90, 30), (60, 60), (100_000, 50_000), (86_400, 0)]


def whisper_rows(folder):
    rows = []
    for kind in kinds(folder):
        for version in (1, 2):
            file = word(kind.ring(version))
            rows.append("# %s, version %d" % (kind.name, version))
            rows.append("info a.b %s 0 => %s" % (file, line(kind.info(version))))
            for since, until in SPANS:
                span = "%d %d %d" % (NOW, NOW - since, NOW - until)
                rows.append("fetch a.b %s 0 %s => %s" % (file, span, line(kind.fetch(since, until))))
            rows.append("finding 12 a/b.ring %s 0 => well" % file)
    return rows


# By hand: a.b and a have the class 12, and a head of one archive of a minute, ten of them, is 28 bytes.
def head(word=513, retention=600, factor=500_000, count=1, offset=28, step=60, points=10):
    return struct.pack(">7L", word, retention, factor, count, offset, step, points)


def damaged():
    body = b"\0" * 200
    damage = "; put a whole copy in its place while carbon is stopped, or move it away: its metric begins anew"
    yield b"\0" * 228, "its head is zero, as a crash may leave it; it counts as none, and may be removed while carbon is stopped"
    yield b"", "its head is zero, as a crash may leave it; it counts as none, and may be removed while carbon is stopped"
    yield head()[:15], "it is shorter than its head" + damage
    yield head()[:27], "it is shorter than its head" + damage
    yield head(word=9) + body, "its first word is no method" + damage
    yield head(word=521) + body, "its first word is no method" + damage
    yield head(count=26) + body, "its number of archives is not 1 to 25" + damage
    yield head(offset=29) + body, "an archive that does not begin where the one before it ends (archive 0)" + damage
    yield head(retention=601) + body, "its retention is not that of its last archive" + damage
    yield head() + body + b"\0", "it does not end with its last archive" + damage
    yield head() + body[:199], "it does not end with its last archive" + damage
    yield head(step=0, retention=0) + body, "a step of 0 seconds, or of more than 365 days (archive 0)" + damage
    yield head(points=0, retention=0), "no points, or fewer than a step of the next archive spans (archive 0)" + damage
    yield head(factor=1_000_001) + body, "a factor above 1" + damage
    two = struct.pack(">4L", 513, 600, 0, 2) + struct.pack(">6L", 40, 60, 10, 240, 60, 10)
    yield two + b"\0" * 400, "a step that is not below that of the next archive (archive 0)" + damage
    two = struct.pack(">4L", 513, 900, 0, 2) + struct.pack(">6L", 40, 60, 10, 240, 90, 10)
    yield two + b"\0" * 400, "a step that does not divide that of the next archive (archive 0)" + damage
    two = struct.pack(">4L", 513, 600, 0, 2) + struct.pack(">6L", 40, 60, 10, 240, 300, 2)
    yield two + b"\0" * 240, "a retention that is not below that of the next archive (archive 0)" + damage
    yield head(step=31_536_000, points=200, retention=31_536_000 * 200 % 2**32) + b"\0" * 4000, "its retention is not that of its last archive" + damage


def hand_rows():
    rows = ["# damaged files, by hand"]
    for file, text in damaged():
        rows.append("finding 12 a/b.ring %s 0 => %s" % (word(file) or '""', line("data/12/a/b.ring: %s\n" % text)))
    whole = word(head() + b"\0" * 200)
    rows += ["info a.b %s 0 => none" % word(head()[:27]), "fetch a.b %s 0 %d 0 1 => none" % (word(head()[:27]), NOW)]
    rows += ["# files that are not there, of other names and of other classes"]
    rows += ["info a.b none 0 => none", "finding 12 a/b.ring none 0 => well"]
    for name in ("redo.log", "a.b.ring", "a//b.ring", "a/b.wsp", ".ring"):
        rows.append("finding 12 %s %s 0 => well" % (name, word(head()[:27])))
    elsewhere = "its metric is of another class; move it to data/%02d/ while carbon is stopped, unless its file is there\n"
    rows.append("finding 3 a/b.ring %s 0 => %s" % (whole, line("data/03/a/b.ring: " + elsewhere % 12)))
    rows.append("finding 0 a.ring %s 0 => %s" % (word(head()[:27]), line("data/00/a.ring: " + elsewhere % 12)))
    rows.append("finding 12 a.ring %s 0 => well" % whole)
    rows += ["# reads that fail: of the length, of the head, and of a cell"]
    rows += ["info a.b %s %d => fault" % (whole, read) for read in (1, 2, 3)]
    rows += ["fetch a.b %s %d %d %d %d => fault" % (whole, read, NOW, NOW - 600, NOW) for read in (1, 2, 3)]
    rows += ["finding 12 a/b.ring %s %d => fault" % (whole, read) for read in (1, 2)]
    return rows


def main():
    with tempfile.TemporaryDirectory() as folder:
        rows = whisper_rows(folder) + hand_rows()
    if sys.argv[1:] == ["print"]:
        print("\n".join(rows))
        return 0
    with open(STDIN) as file:
        same = file.read().split("\n") == rows + [""]
    print("the rows are those of Whisper and of this script" if same else "the rows are not those of Whisper and of this script")
    return 0 if same else 1


sys.exit(main())
