#!/usr/bin/env python3
"""Prints a journal as text: its head, and one record a line. It is another hand over the same form, and reads it strictly.

Usage: bench/journal.py FILE          (FILE may be -, the standard input)

    head limit=1000000 order=max schemas="" aggregations="" bytes=0..25
    1 put pass=1 path=a.b time=1700000000 value=1.5 stored bytes=25..56
    2 ask pass=1 number=1 try=1 now=1700000030 bytes=56..81
    3 reply pass=1 number=1 query="target=a.b" body="" text="[]" bytes=81..118
    4 drain pass=1 path=a.b now=1700000030 bytes=118..136
    5 fault pass=1 class=12 bytes=136..145
    entries 4 replies 1

In texts `\\n`, `\\t`, `\\"`, `\\\\` and `\\xff` stand for bytes. Where the file ends within a head or a record, the last line says so, and how many
bytes are missing at least; where its bytes begin with none, it says where and why. Whether moments are legal, a class is one of 16 and the entries
follow from one another is not looked at: that is for a replay. The status is 0 where all was read, 1 where it was not, 2 without a file.
"""
import struct
import sys

ORDERS = ("max", "sorted", "timesorted", "naive")
ENDS = ("stored", "replaced", "full")
MOST = 10 ** 30                    # thousandths, from zero
RESERVED = set(b"./;*?[]{}(),\"'\\|")


class Cut(Exception):
    """The bytes end within a field, and so many are missing."""


class Unreadable(Exception):
    """The bytes are no head or no record, and why."""


class Reader:
    def __init__(self, data):
        self.data, self.at = data, 0

    def piece(self, count):
        if len(self.data) - self.at < count:
            raise Cut(count - (len(self.data) - self.at))
        self.at += count
        return self.data[self.at - count:self.at]

    def number(self, size):
        return int.from_bytes(self.piece(size), "big")

    def text(self):
        return self.piece(self.number(4))

    def path(self):
        path = self.piece(self.number(2))
        nodes = path.split(b".")
        if not 1 <= len(path) <= 1024 or not all(1 <= len(node) <= 240 for node in nodes):
            raise Unreadable("a path that is empty, too long or has such a node: %s" % shown(path))
        if not all(33 <= byte <= 126 and byte not in RESERVED for node in nodes for byte in node):
            raise Unreadable("a path with a byte that none has: %s" % shown(path))
        return path.decode("ascii")

    def value(self):
        value = int.from_bytes(self.piece(16), "big", signed=True)
        if abs(value) > MOST:
            raise Unreadable("a value beyond 10^30 thousandths: %d" % value)
        sign, (whole, places) = "-" if value < 0 else "", divmod(abs(value), 1000)
        return "%s%d.%s" % (sign, whole, ("%03d" % places).rstrip("0") or "0")

    def end(self):
        end = self.number(1)
        if end >= len(ENDS):
            raise Unreadable("an outcome %d" % end)
        return ENDS[end]


def shown(text):
    special = {10: "\\n", 9: "\\t", 34: '\\"', 92: "\\\\"}
    return '"%s"' % "".join(special.get(b, chr(b) if 32 <= b <= 126 else "\\x%02x" % b) for b in text)


def read_head(r):
    if r.piece(8) != b"carbonj1":
        raise Unreadable("the first eight bytes are not carbonj1")
    limit, order = r.number(8), r.number(1)
    name = ORDERS[order] if order < len(ORDERS) else "unknown(%d)" % order
    return "head limit=%d order=%s schemas=%s aggregations=%s" % (limit, name, shown(r.text()), shown(r.text()))


def read_record(r):
    kind, = struct.unpack("B", r.piece(1))
    if not 1 <= kind <= 5:
        raise Unreadable("a record of kind %d" % kind)
    front = "%s pass=%d" % (("put", "drain", "ask", "fault", "reply")[kind - 1], r.number(4))
    if kind == 1:
        return "%s path=%s time=%d value=%s %s" % (front, r.path(), r.number(4), r.value(), r.end())
    if kind == 2:
        return "%s path=%s now=%d" % (front, r.path(), r.number(8))
    if kind == 3:
        return "%s number=%d try=%d now=%d" % (front, r.number(8), r.number(4), r.number(8))
    if kind == 4:
        return "%s class=%d" % (front, r.number(4))
    return "%s number=%d query=%s body=%s text=%s" % (front, r.number(8), shown(r.text()), shown(r.text()), shown(r.text()))


def lines_of(data):
    """The lines of a journal, and whether all of it was read."""
    r, count, replies, name = Reader(data), 0, 0, "head"
    try:
        yield "%s bytes=0..%d" % (read_head(r), r.at), True
        while r.at < len(data):
            start, name = r.at, "record %d" % (count + 1)
            line = read_record(r)
            count, replies = count + 1, replies + line.startswith("reply")
            yield "%d %s bytes=%d..%d" % (count, line, start, r.at), True
    except Cut as cut:
        where = "byte %d" % start if name != "head" else "byte 0"
        yield "%s, at %s: cut: the file ends at byte %d, and %d bytes are missing at least" % (name, where, len(data), cut.args[0]), False
    except Unreadable as why:
        where = "byte %d" % start if name != "head" else "byte 0"
        yield "%s, at %s: unreadable: %s" % (name, where, why), False
    yield "entries %d replies %d" % (count - replies, replies), True


def main(words):
    if len(words) != 1:
        print(__doc__, file=sys.stderr)
        return 2
    try:
        data = sys.stdin.buffer.read() if words[0] == "-" else open(words[0], "rb").read()
    except OSError as fault:
        print("%s: %s" % (words[0], fault.strerror), file=sys.stderr)
        return 2
    whole = True
    for line, read in lines_of(data):
        whole = whole and read
        print(line)
    return 0 if whole else 1


if __name__ == "__main__":
    sys.exit(main(sys.argv[1:]))
