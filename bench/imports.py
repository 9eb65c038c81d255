#!/usr/bin/env python3
"""Whisper files through examples/import_whisper.py and the built program: what is written, and what is shown of it.

Usage: bench/imports.py      (nothing is timed here: this is a test, which stops at the first difference)

  lines    a tree of files that are written here byte by byte: archives that reach further than one another, slots that are left from earlier
           rounds, values that carbon does not have, names that it does not take, and files that are none of Whisper's. The lines that come
           of them are compared with those that stand here
  rules    a tree whose files differ from the rules is listed and refused, and one that agrees with them is not
  rings    a tree of many kinds (archives, methods, factors, gaps, rings that went round, values out of range, files that are foreign, damaged or
           twice there) taken over file by file: what each ring file has in its head and shows of every archive and of many spans is compared with
           what Whisper's own fetch finds, where python3 can import whisper, and with a reader of its format that stands here
  filled   a file that whisper itself filled, minute by minute for three days and with older hours, taken over and compared in the same way. It
           wants whisper
  graph    the lines as a script for `carbon script`, and questions about them: of the time that each archive reaches. The answers are compared
           with the points of the files. It wants the built program: run ./carbon build
  asked    the same spans of the ring files of `rings`, asked of `carbon script`. It wants the built program
  whisper  the file of `filled` as a script for `carbon script`: what whisper fetches of it is compared with what carbon shows, of the last hour, of
           times that the second archive reaches alone, and of one that the third does. It wants the built program, and whisper where python3 can
           import it (Debian's python3-whisper, or its folder in PYTHONPATH)
"""
import decimal
import fcntl
import json
import math
import os
import random
import struct
import subprocess
import sys
import tempfile

from live import HERE, PROGRAM, class_of, write_rules

try:
    import whisper
except ImportError:
    whisper = None

IMPORTER = os.path.abspath(os.path.join(HERE, "..", "examples", "import_whisper.py"))
NOW = 1_700_000_030  # no multiple of a step
MINUTE = NOW - NOW % 60
ARCHIVES = [(60, 10), (300, 12), (3600, 48)]
RULES = b"[all]\npattern = .*\nretentions = 60:10,300:12,3600:48\n"
SPARSE = b"[all]\npattern = .*\nxFilesFactor = 0\n"


METHODS = ["average", "sum", "last", "max", "min", "avg_zero", "absmax", "absmin"]


def whisper_file(archives, points, method="average", factor=0.0):
    """The bytes of a file: for each archive a list of points, each in the slot that its time has beside the first one."""
    head = struct.pack(">2LfL", METHODS.index(method) + 1, archives[-1][0] * archives[-1][1], factor, len(archives))
    offset = len(head) + 12 * len(archives)
    body = b""
    for (step, count), found in zip(archives, points):
        head += struct.pack(">3L", offset + len(body), step, count)
        slots = [(0, 0.0)] * count
        for moment, value in found:
            slots[(moment - found[0][0]) // step % count] = (moment, value)
        body += b"".join(struct.pack(">Ld", *slot) for slot in slots)
    return head + body


def write_files(folder, files):
    for name, data in files.items():
        path = os.path.join(folder, name)
        os.makedirs(os.path.dirname(path), exist_ok=True)
        with open(path, "wb") as file:
            file.write(data)


def write_tree(folder):
    """The files of the test, and the lines that they come to."""
    coarse = MINUTE - MINUTE % 300
    hour = MINUTE - MINUTE % 3600
    files = {
        # The first archive reaches back 600 seconds, the second one 3,600: of the second its points of the last 600 seconds are not
        # written, of the third those of the last hour.
        "a/b.wsp": whisper_file(
            ARCHIVES,
            [
                [(MINUTE - 120, 1.5), (MINUTE - 60, -0.0005), (MINUTE, 1 / 3)],
                [(coarse - 900, 7.0), (coarse - 600, 8.25), (coarse - 300, 9.0), (coarse, 1.0)],
                [(hour - 7200, 100.0), (hour - 3600, 0.1), (hour, 3.0)],
            ],
        ),
        # Slots of an earlier round, and one whose time is no multiple of the step: nothing is left of them. The third archive is empty.
        "a/old.wsp": whisper_file(
            ARCHIVES,
            [
                [(MINUTE, 4.0), (MINUTE - 660, 5.0), (MINUTE - 720, 6.0), (MINUTE - 241, 7.0)],
                [(coarse - 3900, 1.0), (coarse - 1200, 2.0)],
                [],
            ],
        ),
        # Values that carbon does not have, and the greatest and the least that it has.
        "limits.wsp": whisper_file(
            [(60, 10)],
            [
                [
                    (MINUTE - 300, float("nan")),
                    (MINUTE - 240, float("-inf")),
                    (MINUTE - 180, 1e28),
                    (MINUTE - 120, 1e27),
                    (MINUTE - 60, -1e27),
                    (MINUTE, 5e-324),
                ]
            ],
        ),
        "no name.wsp": whisper_file([(60, 10)], [[(MINUTE, 1.0)]]),
        "a/x;y.wsp": whisper_file([(60, 10)], [[(MINUTE, 1.0)]]),
        "a/text.wsp": b"no file of whisper's at all, but long enough for a head",
        "a/cut.wsp": whisper_file([(60, 10)], [[(MINUTE, 1.0)]])[:-1],
        "a/empty.wsp": b"",
        "a/other.txt": b"left alone",
    }
    write_files(folder, files)
    b = [(hour - 7200, "100.0"), (hour - 3600, "0.1"), (coarse - 900, "7.0"), (coarse - 600, "8.25"), (MINUTE - 120, "1.5")]
    b += [(MINUTE - 60, "-0.001"), (MINUTE, "0.333")]
    limits = [(MINUTE - 120, "1%s.0" % ("0" * 27)), (MINUTE - 60, "-1%s.0" % ("0" * 27)), (MINUTE, "0.0")]
    lines = ["a.b %s %d\n" % (value, moment) for moment, value in b]
    lines += ["a.old 2.0 %d\n" % (coarse - 1200), "a.old 4.0 %d\n" % MINUTE]
    lines += ["limits %s %d\n" % (value, moment) for moment, value in limits]
    return lines, b


def import_tree(folder, *words):
    told = subprocess.run([sys.executable, IMPORTER, *words, "--now", str(NOW), folder], capture_output=True, text=True, cwd="/")
    return told.returncode, told.stdout, told.stderr


def need(holds, said):
    if not holds:
        sys.exit("differs: %s" % said)


def check_lines(folder):
    lines, points = write_tree(folder)
    status, said, told = import_tree(folder, "--by-rules")
    # Files stand in order of their names within a folder, and folders behind the files beside them.
    wanted = [line for line in lines if line.startswith("limits")] + [line for line in lines if line.startswith("a.")]
    need(status == 1 and said == "".join(wanted), "%d %s" % (status, said))
    taken = "12 points of 3 metrics, 3 of them rounded to thousandths; left out: 2 points, 2 names, 3 files; 1 points are nan, 1 other files\n"
    need(told.endswith(taken), told)
    status, script, _ = import_tree(folder, "--script", "--by-rules")
    need(script == "!clock %d\n" % NOW + said, script)
    print("lines: as they are to be")
    return script, points


def check_rules():
    """One file of three agrees with the rules, one has other archives, and one another method and factor."""
    schemas = b"[a]\r\npattern = ^a\\.\nretentions = 10m:1h, 60s:10\n[none]\npattern = x\n# all\n[all]\nPATTERN: .*\nretentions=300:12\n"
    aggregations = b"[a]\npattern = a\nxFilesFactor = 0.3\naggregationMethod = max\n"
    archives = [(60, 10), (600, 6)]
    files = {
        "a/same.wsp": whisper_file(archives, [[(MINUTE, 1.0)], []], "max", 0.3),
        "a/method.wsp": whisper_file(archives, [[(MINUTE, 2.0)], []], "min", 0.7),
        "b.wsp": whisper_file(archives, [[(MINUTE, 3.0)], []], "average", 0.5),
        "b.txt": b"left alone",
    }
    with tempfile.TemporaryDirectory() as tree, tempfile.TemporaryDirectory() as place:
        conf = os.path.join(place, "conf")
        write_rules(place, schemas, aggregations)
        write_files(tree, files)
        status, said, told = import_tree(tree, "--conf", conf)
        need((status, said) == (2, ""), (status, said))
        need("b: archives 60:10,600:6, by the rules 300:12\n" in told, told)
        need("a.method: method min, by the rules max; factor 0.7, by the rules 0.3\n" in told, told)
        need("a.same" not in told and "2 files are not as the rules have their metrics" in told, told)
        need(import_tree(tree, "--conf", conf, "--by-rules")[:2] == (0, "b 3.0 %d\na.method 2.0 %d\na.same 1.0 %d\n" % ((MINUTE,) * 3)), "by rules")
        for name in "b.wsp", "a/method.wsp":
            os.remove(os.path.join(tree, name))
        need(import_tree(tree, "--conf", conf)[:2] == (0, "a.same 1.0 %d\n" % MINUTE), "a tree that agrees")
        need(import_tree(tree)[0] == 2, "the rules without files")
        write_rules(place, b"[a]\npattern = (\nretentions = 1:1\n")
        need(import_tree(tree, "--conf", conf)[:2] == (2, ""), "bad rules")
    print("rules: refused and taken as they are to be")


CHANCE = random.Random(43)


def filled(archive, rounds=1.0, every=1, missing=0.0, last=NOW):
    """Points of an archive, each step or each so many, over so many rounds of the ring up to a moment."""
    step, count = archive
    end = last - last % step
    moments = range(end - int(count * rounds) // every * every * step, end + 1, every * step)
    return [(moment, CHANCE.choice(VALUES)()) for moment in moments if missing <= CHANCE.random()]


VALUES = [
    lambda: CHANCE.randrange(-1000, 1000) / 1.0,
    lambda: CHANCE.randrange(-(10**6), 10**6) / 1000,
    lambda: CHANCE.random() * 1000 - 500,
    lambda: CHANCE.random() * 1e-3,
    lambda: CHANCE.uniform(-1e18, 1e18),
]


def kinds():
    """Files that are to be taken over: archives, method, factor, and the bytes."""
    two, three, odd = [(60, 60), (300, 48)], [(10, 360), (60, 240), (3600, 100)], [(7, 50), (49, 60), (490, 100)]
    found = {
        "one.archive": ([(60, 120)], "average", 0.5, [filled((60, 120), 2.3)]),
        "three.archives": (three, "average", 0.5, [filled(archive, 1.7) for archive in three]),
        "odd.steps": (odd, "average", 0.123456, [filled(archive, 1.2) for archive in odd]),
        "gaps.many": (two, "average", 0.0, [filled(archive, 1.5, missing=0.6) for archive in two]),
        "gaps.fine-empty": (two, "sum", 0.2, [[], filled(two[1], 0.8)]),
        "gaps.coarse-empty": (two, "last", 1.0, [filled(two[0], 0.5, every=3), []]),
        "empty": (two, "max", 0.5, [[], []]),
        "ended.long-ago": (two, "min", 0.5, [filled(archive, last=NOW - 40 * 60) for archive in two]),
        "ended.before-all": (two, "min", 0.5, [filled(archive, last=NOW - 10**6) for archive in two]),
        "begun.first-slot-late": (two, "average", 0.5, [filled(archive, 0.1) for archive in two]),
        "values.extreme": (
            [(60, 60)],
            "average",
            0.5,
            [[(MINUTE - 60 * k, value) for k, value in enumerate((-1e27, 1e27, 5e-324, -5e-324, 0.1 + 0.2, 1.005, -0.0, 123456789012.345))][::-1]],
        ),
        # The base is a slot whose value is none of carbon's.
        "values.none": ([(60, 60)], "average", 0.5, [[(MINUTE - 240, float("nan")), (MINUTE - 180, 1e28), (MINUTE - 120, 1.5), (MINUTE, float("-inf"))]]),
    }
    for at, method in enumerate(METHODS):
        found["methods.%s" % method] = (two, method, (0.1, 0.3, 0.7, 0.9, 1 / 3, 0.999999, 1.0, 0.0)[at], [filled(archive) for archive in two])
    return {path: (*kind[:3], whisper_file(kind[0], kind[3], *kind[1:3])) for path, kind in found.items()} | {"misplaced": misplaced()}


def misplaced():
    """A file in which a point stands in a slot that is not its own: Whisper does not find it."""
    data = bytearray(whisper_file([(60, 60)], [[(MINUTE - 600, 1.0), (MINUTE, 2.0)]]))
    struct.pack_into(">Ld", data, 28 + 12 * 5, MINUTE - 120, 3.0)
    return [(60, 60)], "average", 0.0, bytes(data)


def left_out():
    """Files that are not to be taken over, and what is told of each."""
    point = [[(MINUTE, 1.0)]]
    good = whisper_file([(60, 10)], point)
    return {
        "foreign/text.wsp": (b"no file of whisper's at all, but long enough for a head", "no head of a Whisper file"),
        "foreign/empty.wsp": (b"", "too short for a head"),
        "foreign/notes.txt": (b"left alone", "no .wsp file, left alone"),
        "damaged/cut.wsp": (good[:-1], "archive 1 does not fit the file"),
        "damaged/head.wsp": (good[:4] + b"\xff" + good[5:], "its head has another retention than its last archive"),
        "damaged/factor.wsp": (good[:8] + struct.pack(">f", 7.0) + good[12:], "no head of a Whisper file"),
        "archives/unlike.wsp": (whisper_file([(60, 10), (90, 20)], [[], []]), "archives that carbon does not have: a step of 60 seconds before one of 90"),
        "archives/years.wsp": (whisper_file([(31_536_001, 10)], [[]]), "archives that carbon does not have: a step of more than a year"),
        "no name.wsp": (good, "no name for carbon"),
        "twice/a.b.wsp": (good, None),
        "twice/a/b.wsp": (good, "another file of the metric twice.a.b"),
    }


def in_carbon(value):
    """The thousandths that carbon has of a value, if any."""
    if value is None or not math.isfinite(value) or abs(value) > 1e27:
        return None
    return math.floor(decimal.Decimal(repr(value)) * 1000)


def fetched(data, start, end):
    """What a reader of Whisper's format finds from behind one moment up to another: pairs of time and value."""
    count = struct.unpack_from(">L", data, 12)[0]
    archives = [struct.unpack_from(">3L", data, 16 + 12 * k) for k in range(count)]
    offset, step, points = next(one for one in archives if NOW - start <= one[1] * one[2])
    base = struct.unpack_from(">L", data, offset)[0]
    found = []
    for moment in range(start - start % step + step, end - end % step + 1, step):
        slot = (moment - base) // step % points
        time, value = struct.unpack_from(">Ld", data, offset + 12 * slot)
        found.append((moment, value if base and time == moment else None))
    return found


def ring_shown(ring, start, end):
    """What a ring file has from behind one moment up to another: pairs of time and thousandths."""
    count = struct.unpack_from(">L", ring, 12)[0]
    archives = [struct.unpack_from(">3L", ring, 16 + 12 * k) for k in range(count)]
    offset, step, points = next(one for one in archives if NOW - start <= one[1] * one[2])
    base = struct.unpack_from(">L", ring, offset)[0]
    found = []
    for moment in range(start - start % step + step, end - end % step + 1, step):
        at = offset + 20 * (0 if base == 0 else (moment - base) // step % points)
        bucket, value = struct.unpack_from(">L", ring, at)[0], int.from_bytes(ring[at + 4 : at + 20], "big", signed=True)
        found.append((moment, value if bucket == moment else None))
    return found


def spans_of(archives):
    """For each archive all that it reaches, and spans by chance."""
    longest = archives[-1][0] * archives[-1][1]
    spans = [(NOW - step * count, NOW) for step, count in archives] + [(NOW - 1, NOW)]
    for _ in range(20):
        start = NOW - CHANCE.randrange(1, longest)
        spans.append((start, CHANCE.randrange(start, NOW + 1)))
    # carbon and Whisper show a bucket even where a span has none
    return [(start, end) for start, end in spans if archives[-1][0] <= end - start]


def ring_name(place, path):
    return os.path.join(place, "data", "%02d" % class_of(path.encode()), path.replace(".", "/") + ".ring")


def check_head(ring, archives, method, factor):
    """The head of a ring file, and its length."""
    front, retention, millionths, count = struct.unpack_from(">4L", ring)
    need((front, retention) == (512 + METHODS.index(method) + 1, archives[-1][0] * archives[-1][1]), (front, retention))
    need(millionths == int(decimal.Decimal(repr(factor)) * 1_000_000) and count == len(archives), (millionths, factor))
    offset = 16 + 12 * count
    for at, (step, points) in enumerate(archives):
        need(struct.unpack_from(">3L", ring, 16 + 12 * at) == (offset, step, points), at)
        offset += 20 * points
    need(len(ring) == offset, len(ring))


def check_ring(name, ring, kind):
    """A ring file beside its Whisper file: head and values. The spans that were compared, with what is to be shown of each."""
    archives, method, factor, _ = kind
    check_head(ring, archives, method, factor)
    with open(name, "rb") as file:
        data = file.read()
    compared = []
    for start, end in spans_of(archives):
        wanted = fetched(data, start, end)
        if whisper:
            (first, last, step), values = whisper.fetch(name, start, end, now=NOW)
            own = [(moment, repr(value)) for moment, value in wanted]
            need(list(zip(range(first, last, step), map(repr, values))) == own, (name, start, end))
        wanted = [(moment, in_carbon(value)) for moment, value in wanted]
        found = ring_shown(ring, start, end)
        need(found == wanted, (name, start, end, [pair for pair in zip(wanted, found) if pair[0] != pair[1]][:3]))
        compared.append((start, end, wanted))
    return compared


def check_rings(tree, place):
    """A tree taken over. What is to be shown of each metric."""
    taken, others = kinds(), left_out()
    write_files(tree, {path.replace(".", "/") + ".wsp": kind[3] for path, kind in taken.items()})
    write_files(tree, {name: data for name, (data, _) in others.items()})
    os.symlink(tree, os.path.join(tree, "round"))
    os.chmod(place, 0o755)
    status, said, told = import_tree(tree, "--into", place)
    need((status, said) == (1, ""), (status, said, told))
    for name, (_, why) in others.items():
        need(why is None or any(name.partition(".")[0].split("/")[-1] in line and why in line for line in told.splitlines()), (name, why, told))
    need("round: a link to a folder that it stands in" in told, told)
    need("values.none: 2 values that carbon does not have" in told, told)
    need("of %d metrics, " % (len(taken) + 1) in told, told)
    need("left out: 2 points, 1 names, 9 files; 1 points are nan, 1 other files\n" in told, told)
    compared = {}
    for path, kind in taken.items():
        with open(ring_name(place, path), "rb") as file:
            compared[path] = check_ring(os.path.join(tree, path.replace(".", "/") + ".wsp"), file.read(), kind)
    made = [name for _, _, names in os.walk(place) for name in names]
    need(len(made) == len(taken) + 1 and all(name.endswith(".ring") for name in made), made)
    check_again(tree, place, len(taken) + 1)
    print("rings: %d files, %s" % (len(taken), "as Whisper's own fetch finds them" if whisper else "as a reader of the format finds them; no whisper here"))
    return compared


def check_again(tree, place, count):
    """A second time nothing is written, nor where a carbon runs."""
    before = {name: os.stat(os.path.join(folder, name)).st_mtime_ns for folder, _, names in os.walk(place) for name in names}
    status, _, told = import_tree(tree, "--into", place)
    need(status == 1 and told.count("is there already, and stays as it is") == count, told)
    for held in place, os.path.join(place, "data"):
        lock = os.open(held, os.O_RDONLY)
        fcntl.flock(lock, fcntl.LOCK_EX)
        status, _, told = import_tree(tree, "--into", place)
        need(status == 2 and "a carbon runs in" in told, told)
        os.close(lock)
    need(before == {name: os.stat(os.path.join(folder, name)).st_mtime_ns for folder, _, names in os.walk(place) for name in names}, "the files")


def check_asked(compared, place):
    """The ring files as the program shows them."""
    if not os.path.exists(PROGRAM):
        print("asked: no program yet; run ./carbon build")
        return
    queries = [(path, start, end, wanted) for path, spans in compared.items() for start, end, wanted in spans]
    text = ["target=%s&from=%d&until=%d" % query[:3] for query in queries]
    for (path, start, end, wanted), answer in zip(queries, ask("!clock %d\n" % NOW, place, text)):
        shown = [(moment, None if value is None else int(value * 1000)) for value, moment in answer[0]["datapoints"]]
        need(shown == wanted, (path, start, end, [pair for pair in zip(wanted, shown) if pair[0] != pair[1]][:3]))
    print("asked: %d spans, as Whisper has them" % len(queries))


def ask(script, place, queries):
    """The series of each query, after a script: from one run that asks them all."""
    text = script + "!drain\n" + "".join("!ask %s\n" % query for query in queries)
    told = subprocess.run([PROGRAM, "script"], input=text, capture_output=True, text=True, cwd=place)
    need(told.returncode == 0, "%d %s" % (told.returncode, told.stdout))
    drained, *answers, _ = told.stdout.splitlines()
    need(drained.startswith("drained ") and len(answers) == len(queries), told.stdout[:1000])
    return [json.loads(answer, parse_float=decimal.Decimal) for answer in answers]


def known(series):
    """The known values of one series, by their times."""
    return {moment: value for value, moment in series[0]["datapoints"] if value is not None}


def check_graph(script, points):
    if not os.path.exists(PROGRAM):
        print("graph: no program yet; run ./carbon build")
        return
    with tempfile.TemporaryDirectory() as place:
        write_rules(place, RULES, SPARSE)
        spans = [NOW - 599, NOW - 3599, NOW - 48 * 3600 + 1]
        fine, middle, coarse = ask(script, place, ["target=a.b&from=%d" % start for start in spans])
    wanted = {moment: decimal.Decimal(value) for moment, value in points}
    need(known(fine) == {m: v for m, v in wanted.items() if NOW - 600 < m}, fine)
    for found, step, reach in (middle, 300, 600), (coarse, 3600, 3600):
        shown = known(found)
        for moment, value in wanted.items():
            # What no finer archive reaches is there as it was; the buckets of later points are rolled up by carbon.
            if moment % step == 0 and reach < NOW - moment and spans[1 if step == 300 else 2] < moment:
                need(shown.get(moment) == value, (step, moment, shown))
    print("graph: as it is to be")


FILL = """
import sys, whisper
now, name = int(sys.argv[1]), sys.argv[2]
whisper.create(name, [(60, 1440), (300, 8640), (3600, 43800)], 0.5, "average")
hour = now - now % 3600
whisper.update_many(name, [(hour - 3600 * k, k + k % 7 / 7) for k in range(31 * 24, 41 * 24)], now)
first = now - now % 60 - 60 * (3 * 1440)
for k in range(3 * 1440 + 1):
    whisper.time.time = lambda: first + 60 * k + 30
    whisper.update(name, (k % 97) + (k % 3) / 3, first + 60 * k)
"""

FETCH = """
import json, sys, whisper
now, name = int(sys.argv[1]), sys.argv[2]
spans = [[int(end) for end in span.split("-")] for span in sys.argv[3:]]
fetched = [whisper.fetch(name, start, end, now=now) for start, end in spans]
print(json.dumps([[[start + step * k, value] for k, value in enumerate(values)] for (start, _, step), values in fetched]))
"""


def check_filled():
    """A file that whisper itself filled, taken over as it is."""
    if not whisper:
        print("filled: no whisper")
        return
    with tempfile.TemporaryDirectory() as tree, tempfile.TemporaryDirectory() as place:
        name = os.path.join(tree, "a.wsp")
        subprocess.run([sys.executable, "-c", FILL, str(NOW), name], check=True)
        status, _, told = import_tree(tree, "--into", place)
        need(status == 0, told)
        with open(ring_name(place, "a"), "rb") as file:
            compared = check_ring(name, file.read(), ([(60, 1440), (300, 8640), (3600, 43800)], "average", 0.5, None))
    print("filled: %d spans, as whisper fetches them" % len(compared))


def check_whisper():
    """What whisper fetches, and what carbon shows: the same times, and values that are whisper's, rounded down."""
    if not os.path.exists(PROGRAM) or not whisper:
        print("whisper: no program, or no whisper")
        return
    spans = [(NOW - 3600, NOW), (NOW - 2 * 86400, NOW - 86400 - 3600), (NOW - 3 * 86400, NOW - 2 * 86400), (NOW - 40 * 86400, NOW - 31 * 86400)]
    with tempfile.TemporaryDirectory() as tree, tempfile.TemporaryDirectory() as place:
        name = os.path.join(tree, "a.wsp")
        subprocess.run([sys.executable, "-c", FILL, str(NOW), name], check=True)
        words = [sys.executable, "-c", FETCH, str(NOW), name, *("%d-%d" % span for span in spans)]
        fetched = json.loads(subprocess.run(words, check=True, capture_output=True, text=True).stdout)
        write_rules(place, b"[all]\npattern = .*\nretentions = 60s:1d,5m:30d,1h:5y\n")
        _, script, _ = import_tree(tree, "--script", "--conf", os.path.join(place, "conf"))
        shown = ask(script, place, ["target=a&from=%d&until=%d" % span for span in spans])
    for (start, end), before, after in zip(spans, fetched, shown):
        after = [[moment, value] for value, moment in after[0]["datapoints"]]
        need([m for m, _ in before] == [m for m, _ in after], (start, before[:2], after[:2], len(before), len(after)))
        for (moment, wanted), (_, found) in zip(before, after):
            need((wanted is None) == (found is None), (start, moment, wanted, found))
            need(wanted is None or -1e-9 <= wanted - float(found) < 0.001 + 1e-9, (start, moment, wanted, found))
        print("whisper: %d values from %d seconds ago, as fetched" % (len(after), NOW - start))


def main():
    with tempfile.TemporaryDirectory() as folder:
        check_graph(*check_lines(folder))
    check_rules()
    with tempfile.TemporaryDirectory() as tree, tempfile.TemporaryDirectory() as place:
        check_asked(check_rings(tree, place), place)
    check_filled()
    check_whisper()


if __name__ == "__main__":
    main()
