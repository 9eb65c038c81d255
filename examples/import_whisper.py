#!/usr/bin/env python3
"""Takes the Whisper files of a Graphite installation over into carbon.

Usage: import_whisper.py --into FOLDER TREE [PREFIX]
       import_whisper.py [--script] [--conf CONF] [--by-rules] [--now SECONDS] TREE [PREFIX]

TREE is the root of the Whisper files, such as /var/lib/graphite/whisper: the file servers/web01/load.wsp in it is the metric servers.web01.load.
PREFIX, such as servers.web01, leaves out all metrics that do not begin with these nodes. Nothing but Python's standard library is needed.

    import_whisper.py --into /var/lib/carbon /var/lib/graphite/whisper

makes a ring file of each Whisper file as it is, with its archives, its method, its factor and every value that Whisper finds in it, below
FOLDER/data. FOLDER is the one in which carbon runs; carbon has to be stopped, and reads the files at its next start. The rule files have no say
in these metrics, neither now nor later. A ring file that is there already is left as it is. Where root runs this the files belong to the owner
of FOLDER/data, or else of FOLDER. It takes some 4 microseconds a point, so a large tree is best taken over by parts, several prefixes side by
side.

    import_whisper.py --script --conf /var/lib/carbon/conf /var/lib/graphite/whisper | (cd /var/lib/carbon && carbon script)

Without --into the points are written to standard output as metric lines, for which carbon makes files by its rules; so a file that has other
archives, another method or another factor than the rule files in CONF give its metric would lose history. Such files are listed, and nothing
is written, with exit status 2, unless --by-rules says that this is wanted. CONF is the folder `conf` unless it is told. Of each archive those
points are written that no finer archive of the file reaches, which is how carbon spreads points over archives; what lies within the reach of a
finer archive is rolled up anew. SECONDS is the moment, since the epoch, at which the archives are looked at: now, unless the tree is a copy
that was made earlier. With --script the lines are a script for `carbon script`, to be run while carbon is stopped: it sets the clock to SECONDS
and drains again and again, so that no class of metrics becomes full. Without it they are for the port of a carbon that serves. There they come
faster than they are drained, so send a part of the tree at a time, and look at what carbon counts as full when it ends.

Values become whole thousandths, rounded down, as carbon takes them: of a value its shortest decimal is rounded. All that is not taken over is
told on standard error, each file and metric by its name: files that are damaged or none of Whisper's, names and archives that carbon does not
have, infinite values and those beyond 10^27, folders that cannot be read. The last line counts what was taken, what was rounded, and what was
left out; the exit status is 1 where anything was. A value that is `nan` counts as missing, which is how it is drawn.
"""
import argparse
import collections
import decimal
import fcntl
import math
import os
import re
import struct
import sys
import time

HEAD = struct.Struct(">2LfL")  # aggregation type, max retention, xFilesFactor, archive count
ARCHIVE = struct.Struct(">3L")  # offset, secondsPerPoint, points
POINT = struct.Struct(">Ld")  # time, value

UNITS = {"seconds": 1, "minutes": 60, "hours": 3600, "days": 86_400, "weeks": 604_800, "years": 31_536_000}

METHODS = ["average", "sum", "last", "max", "min", "avg_zero", "absmax", "absmin"]  # their numbers, from 1 on, are those of both formats

RING_HEAD = struct.Struct(">4L")  # version and method, max retention, factor in millionths, archive count
RING_CELL = struct.Struct(">L16s")  # bucket, value in thousandths
VERSION = 512
CLASSES = 16

MOST_BYTES = 1024
NODE = re.compile(r"[!-~]{1,240}")
OUTSIDE = frozenset("/;*?[]{}(),\"'\\|")
MOMENTS = range(31_536_000, 4_000_000_001)
MOST_THOUSANDTHS = 10**30

MOST_ARCHIVES = 25
MOST_STEP = 31_536_000
MOST_SECONDS = 4_000_000_000
MOST_POINTS = 4_000_000

# So many points are put between two drains of a script.
DRAIN_POINTS = 100_000

Layout = collections.namedtuple("Layout", "archives method factor")  # pairs of step and points, finest first; a word; millionths
Rule = collections.namedtuple("Rule", "pattern said")


class NotWhisper(Exception):
    """The file is not in Whisper's format, or damaged."""


class NotTaken(Exception):
    """The file is Whisper's, and carbon cannot have it."""


class BadRules(Exception):
    """A rule file is refused."""


# Whisper files.


def read_layout(data):
    """The layout that a file's head tells, and where each of its archives begins."""
    if len(data) < HEAD.size:
        raise NotWhisper("too short for a head")
    method, retention, factor, count = HEAD.unpack_from(data)
    if not 1 <= method <= len(METHODS) or not 0 <= factor <= 1 or not 1 <= count <= 1000:
        raise NotWhisper("no head of a Whisper file")
    if len(data) < HEAD.size + count * ARCHIVE.size:
        raise NotWhisper("too short for the heads of its archives")
    archives, offsets = [], []
    for number in range(count):
        offset, step, points = ARCHIVE.unpack_from(data, HEAD.size + number * ARCHIVE.size)
        if step == 0 or points == 0 or len(data) < offset + points * POINT.size:
            raise NotWhisper("archive %d does not fit the file" % (number + 1))
        archives.append((step, points))
        offsets.append(offset)
    if retention != archives[-1][0] * archives[-1][1]:
        raise NotWhisper("its head has another retention than its last archive")
    return Layout(tuple(archives), METHODS[method - 1], millionths(factor)), offsets


def millionths(factor):
    """A factor, which is held in 32 bits, as the millionths of the decimal that was meant."""
    nearest = round(factor * 1_000_000)
    if struct.pack(">f", nearest / 1_000_000) == struct.pack(">f", factor):
        return nearest
    return math.floor(factor * 1_000_000)


def points_in(data, archive, offset):
    """The points of an archive that Whisper finds: those of which the slot that their time has is their own. What else its slots hold is left
    from earlier rounds."""
    step, count = archive
    base, _ = POINT.unpack_from(data, offset)
    if base == 0:
        return []
    slots = memoryview(data)[offset : offset + count * POINT.size]
    return [
        (moment, value)
        for slot, (moment, value) in enumerate(POINT.iter_unpack(slots))
        if moment and moment % step == 0 and (moment - base) // step % count == slot
    ]


def unlawful(layout):
    """Why carbon does not have such archives, or none."""
    archives = layout.archives
    if len(archives) > MOST_ARCHIVES:
        return "more than %d archives" % MOST_ARCHIVES
    if any(step > MOST_STEP for step, _ in archives):
        return "a step of more than a year"
    for (step, points), (coarser, more) in zip(archives, archives[1:]):
        if coarser <= step or coarser % step:
            return "a step of %d seconds before one of %d" % (step, coarser)
        if points < coarser // step:
            return "%d points of %d seconds, fewer than a step of %d seconds holds" % (points, step, coarser)
        if coarser * more <= step * points:
            return "an archive that reaches no further back than the finer one before it"
    if any(step * points > MOST_SECONDS for step, points in archives):
        return "an archive that reaches back more than %d seconds" % MOST_SECONDS
    if sum(points for _, points in archives) > MOST_POINTS:
        return "more than %d points" % MOST_POINTS
    return None


def thousandths(value):
    """A value in whole thousandths, rounded down, and whether that is exact; none where carbon has no such value."""
    if -1e9 < value < 1e9:
        product = value * 1000
        below = math.floor(product)
        # the product is off by less than a thousandth
        if 0.001 < product - below < 0.999:
            return below, False
        if round(product) / 1000 == value:
            return round(product), True
    if not math.isfinite(value):
        return None
    exact = decimal.Decimal(repr(value)) * 1000
    if exact.adjusted() > 30:
        return None
    rounded = int(exact.to_integral_value(decimal.ROUND_FLOOR))
    return (rounded, rounded == exact) if abs(rounded) <= MOST_THOUSANDTHS else None


def text_of(rounded):
    """Thousandths as a decimal."""
    sign, magnitude = "-" if rounded < 0 else "", abs(rounded)
    text = "%s%d.%03d" % (sign, magnitude // 1000, magnitude % 1000)
    return text[:-2] + text[-2:].rstrip("0")


# The tree.


class Tree:
    """The Whisper files below a folder. What it has besides, and what of it cannot be read, is told."""

    def __init__(self, root, prefix, left_out):
        self.root = root
        self.prefix = prefix
        self.left_out = left_out

    def metrics(self):
        """The names of the metrics and their files, in order of the files."""
        return self.metrics_below(self.root, [], [])

    def metrics_below(self, folder, nodes, above):
        try:
            found = os.stat(folder)
            names = sorted(os.listdir(folder))
        except OSError as fault:
            self.left_out.file(folder, fault.strerror)
            return
        own = (found.st_dev, found.st_ino)
        if own in above:
            self.left_out.file(folder, "a link to a folder that it stands in")
            return
        folders = [name for name in names if os.path.isdir(os.path.join(folder, name))]
        for name in names:
            if name not in folders:
                yield from self.metric_at(os.path.join(folder, name), nodes, name)
        for name in folders:
            if self.is_wanted(nodes + [name], is_folder=True):
                yield from self.metrics_below(os.path.join(folder, name), nodes + [name], above + [own])

    def metric_at(self, file_name, nodes, name):
        stem, dot, ending = name.rpartition(".")
        if dot and ending == "wsp":
            if self.is_wanted(nodes + [stem]):
                yield ".".join(nodes + [stem]), file_name
        elif self.is_wanted(nodes + [name]):
            self.left_out.other(file_name)

    def is_wanted(self, nodes, is_folder=False):
        if not self.prefix:
            return True
        path, prefix = ".".join(nodes) + ".", self.prefix + "."
        return path.startswith(prefix) or (is_folder and prefix.startswith(path))


class LeftOut:
    """What is not taken over: each is told at once, and counted."""

    def __init__(self, is_told=True):
        self.is_told = is_told
        self.files = self.names = self.values = self.others = 0

    def file(self, file_name, why):
        self.files += 1
        self.tell("%s: %s" % (file_name, why))

    def name(self, path, why):
        self.names += 1
        self.tell("%r: %s" % (path, why))

    def some_values(self, path, count, what):
        self.values += count
        self.tell("%s: %d values that carbon does not have, such as %r" % (path, count, what))

    def other(self, file_name):
        self.others += 1
        self.tell("%s: no .wsp file, left alone" % file_name)

    def tell(self, text):
        if self.is_told:
            say(text)

    def is_any(self):
        return bool(self.files or self.names or self.values)


def say(text):
    print("import_whisper: %s" % text, file=sys.stderr)


def is_path(path):
    """Whether carbon takes this name of a metric."""
    return (
        len(path) <= MOST_BYTES
        and not OUTSIDE.intersection(path)
        and all(NODE.fullmatch(node) for node in path.split("."))
    )


# Rule files.


def sections_of(file_name):
    """The sections of a rule file: the values of their keys. A file that is not there has none."""
    try:
        with open(file_name, "rb") as file:
            lines = file.read().split(b"\n")
    except FileNotFoundError:
        return []
    sections = []
    for number, line in enumerate(lines, 1):
        try:
            text = line.removesuffix(b"\r").decode().rstrip(" \t")
        except UnicodeDecodeError:
            raise BadRules("%s line %d" % (file_name, number)) from None
        if not text or text[0] in "#;":
            continue
        if text[0] == "[" and text[-1] == "]":
            sections.append({})
            continue
        key, separator, value = re.fullmatch(r"([^=:]*)([=:]?)(.*)", text, re.DOTALL).groups()
        if not separator or not sections or text[0] in " \t":
            raise BadRules("%s line %d" % (file_name, number))
        sections[-1][key.strip(" \t").lower()] = value.strip(" \t")
    return sections


def seconds_in(text):
    """The seconds of a number with a unit."""
    number, unit = re.fullmatch(r"([0-9]+)([a-z]+)", text).groups()
    for name, seconds in UNITS.items():
        if name.startswith(unit):
            return int(number) * seconds
    raise ValueError


def archive_in(text):
    step, _, history = text.strip(" \t").partition(":")
    step = int(step) if re.fullmatch("[0-9]+", step) else seconds_in(step)
    return step, int(history) if re.fullmatch("[0-9]+", history) else seconds_in(history) // step


class Rules:
    """The layouts that the rule files of a folder give."""

    def __init__(self, conf):
        schemas = os.path.join(conf, "storage-schemas.conf")
        aggregations = os.path.join(conf, "storage-aggregation.conf")
        self.schemas = [
            self.rule(schemas, section, lambda said: tuple(sorted(map(archive_in, said["retentions"].split(",")))))
            for section in sections_of(schemas)
            if section.get("pattern") and section.get("retentions")
        ]
        self.aggregations = [
            self.rule(aggregations, section, self.aggregation) for section in sections_of(aggregations) if section.get("pattern")
        ]

    @staticmethod
    def rule(file_name, section, read):
        try:
            return Rule(re.compile(section["pattern"]), read(section))
        except (re.error, AttributeError, ValueError, ZeroDivisionError, decimal.InvalidOperation):
            raise BadRules("%s: the section of the pattern %s" % (file_name, section["pattern"])) from None

    @staticmethod
    def aggregation(section):
        method = section.get("aggregationmethod", "average")
        factor = decimal.Decimal(section.get("xfilesfactor", "0.5")) * 1_000_000
        if method not in METHODS or not 0 <= factor <= 1_000_000:
            raise ValueError
        return method, int(factor)

    def layout_of(self, path):
        archives = next((rule.said for rule in self.schemas if rule.pattern.search(path)), ((60, 10_080),))
        method, factor = next((rule.said for rule in self.aggregations if rule.pattern.search(path)), ("average", 500_000))
        return Layout(archives, method, factor)


def archives_text(archives):
    return ",".join("%d:%d" % archive for archive in archives)


def differences(layout, ruled):
    """What a file has otherwise than the rules give its metric."""
    found = []
    if layout.archives != ruled.archives:
        found.append("archives %s, by the rules %s" % (archives_text(layout.archives), archives_text(ruled.archives)))
    if layout.method != ruled.method:
        found.append("method %s, by the rules %s" % (layout.method, ruled.method))
    if layout.factor != ruled.factor:
        found.append("factor %g, by the rules %g" % (layout.factor / 1e6, ruled.factor / 1e6))
    return "; ".join(found)


# Ring files.


def class_of(path):
    """The class of a path: its FNV-1a hash of 32 bits, modulo 16."""
    hashed = 2_166_136_261
    for byte in path.encode():
        hashed = (hashed ^ byte) * 16_777_619 % 2**32
    return hashed % CLASSES


def ring_head(layout):
    retention = layout.archives[-1][0] * layout.archives[-1][1]
    method = METHODS.index(layout.method) + 1
    head = RING_HEAD.pack(VERSION + method, retention, layout.factor, len(layout.archives))
    offset = RING_HEAD.size + len(layout.archives) * ARCHIVE.size
    for step, points in layout.archives:
        head += ARCHIVE.pack(offset, step, points)
        offset += points * RING_CELL.size
    return head, offset


def runs_of(archive, points):
    """The cells of an archive in rows of neighbours: pairs of the first slot and the bytes. The first of the points is the archive's base."""
    step, count = archive
    cells = sorted(((moment - points[0][0]) // step % count, moment, value) for moment, value in points)
    first, row = None, []
    for slot, moment, value in cells:
        if row and slot != first + len(row):
            yield first, b"".join(row)
            row = []
        if not row:
            first = slot
        row.append(RING_CELL.pack(moment, value.to_bytes(16, "big", signed=True)))
    if row:
        yield first, b"".join(row)


class Importer:
    """Reads metrics and counts them. What becomes of their points is said by those below."""

    def __init__(self, left_out):
        self.left_out = left_out
        self.metrics = self.points = self.rounded = self.nans = 0
        self.seen = {}

    def add(self, path, file_name):
        """Takes a metric over, or tells why not."""
        if not is_path(path):
            self.left_out.name(path, "no name for carbon")
        elif path in self.seen:
            self.left_out.file(file_name, "another file of the metric %s, which has %s" % (path, self.seen[path]))
        else:
            self.seen[path] = file_name
            try:
                with open(file_name, "rb") as file:
                    self.take(path, file.read())
                self.metrics += 1
            except OSError as fault:
                self.left_out.file(fault.filename or file_name, fault.strerror)
            except (NotWhisper, NotTaken) as fault:
                self.left_out.file(file_name, fault)

    def taken(self, path, points):
        """The points that carbon has, in thousandths. The others are counted."""
        found, others = [], []
        for moment, value in points:
            rounded = thousandths(value)
            if rounded is not None:
                found.append((moment, rounded[0]))
                self.rounded += not rounded[1]
            elif math.isnan(value):
                self.nans += 1
            else:
                others.append(value)
        if others:
            self.left_out.some_values(path, len(others), others[0])
        return found

    def end(self):
        left = self.left_out
        say(
            "%d points of %d metrics, %d of them rounded to thousandths; left out: %d points, %d names, %d files; %d points are nan, %d other files"
            % (self.points, self.metrics, self.rounded, left.values, left.names, left.files, self.nans, left.others)
        )


class RingImporter(Importer):
    """Makes a ring file of each Whisper file."""

    def __init__(self, left_out, folder):
        super().__init__(left_out)
        self.data = os.path.join(folder, "data")
        held = [folder] + [self.data] * os.path.isdir(self.data)
        self.locks = [os.open(place, os.O_RDONLY) for place in held]
        for lock in self.locks:
            # carbon wants it for itself alone; imports go side by side
            fcntl.flock(lock, fcntl.LOCK_SH | fcntl.LOCK_NB)
        self.owner = os.fstat(self.locks[-1])

    def take(self, path, data):
        layout, offsets = read_layout(data)
        why = unlawful(layout)
        if why:
            raise NotTaken("archives that carbon does not have: %s" % why)
        archives = [self.taken(path, points_in(data, *place)) for place in zip(layout.archives, offsets)]
        self.make(path, layout, archives)
        self.points += sum(map(len, archives))

    def make(self, path, layout, archives):
        """Makes the file under another name, which it loses once it is whole."""
        top = os.path.join(self.data, "%02d" % class_of(path))
        file_name = os.path.join(top, path.replace(".", "/") + ".ring")
        if os.path.lexists(file_name):
            raise NotTaken("%s is there already, and stays as it is" % file_name)
        self.make_folders(top, os.path.dirname(file_name))
        unfinished = file_name + ".new"
        try:
            with open(unfinished, "wb") as file:
                self.give(unfinished)
                self.write(file, layout, archives)
            os.rename(unfinished, file_name)
        except OSError:
            if os.path.exists(unfinished):
                os.remove(unfinished)
            raise

    def make_folders(self, top, folder):
        missing = []
        place = folder
        while not os.path.isdir(place):
            missing.append(place)
            place = os.path.dirname(place)
        for place in reversed(missing):
            try:
                os.mkdir(place)
            except FileExistsError:
                continue  # another import made it
            self.give(place)
        # carbon follows no links below the folder of a class
        if os.path.realpath(folder) != os.path.join(os.path.realpath(top), os.path.relpath(folder, top)).removesuffix("/."):
            raise NotTaken("%s stands behind a link" % folder)

    def give(self, place):
        if os.geteuid() == 0:
            os.chown(place, self.owner.st_uid, self.owner.st_gid)

    @staticmethod
    def write(file, layout, archives):
        head, length = ring_head(layout)
        file.truncate(length)
        file.write(head)
        offset = len(head)
        for archive, points in zip(layout.archives, archives):
            for slot, row in runs_of(archive, points):
                file.seek(offset + slot * RING_CELL.size)
                file.write(row)
            offset += archive[1] * RING_CELL.size


class LineImporter(Importer):
    """Writes the points as metric lines, or as a script."""

    def __init__(self, left_out, out, now, is_script):
        super().__init__(left_out)
        self.out = out
        self.now = now
        self.is_script = is_script
        self.since_drain = 0
        if self.is_script:
            self.out.write("!clock %d\n" % self.now)

    def take(self, path, data):
        for moment, rounded in self.taken(path, self.lines_of(data)):
            if moment in MOMENTS:
                self.put(path, moment, text_of(rounded))
            else:
                self.left_out.some_values(path, 1, moment)

    def lines_of(self, data):
        """The points of a file, in rising order: of each archive those that no finer one reaches."""
        found = []
        reach = -1  # how far back the archives so far reach
        layout, offsets = read_layout(data)
        for archive, offset in sorted(zip(layout.archives, offsets)):
            step, count = archive
            of_archive = [
                point for point in points_in(data, archive, offset) if reach < self.now - point[0] < step * count and point[0] <= self.now
            ]
            found = sorted(of_archive) + found
            reach = max(reach, step * count)
        return found

    def put(self, path, moment, text):
        self.out.write("%s %s %d\n" % (path, text, moment))
        self.points += 1
        self.since_drain += 1
        if self.is_script and DRAIN_POINTS <= self.since_drain:
            self.out.write("!drain\n")
            self.since_drain = 0


def is_by_rules(tree, rules):
    """Whether all files of a tree have what the rules give their metrics. Those that have not are told."""
    count = 0
    for path, file_name in tree.metrics():
        try:
            with open(file_name, "rb") as file:
                layout, _ = read_layout(file.read())
        except (OSError, NotWhisper):
            continue  # told where it is to be taken over
        told = differences(layout, rules.layout_of(path))
        if told:
            count += 1
            say("%s: %s" % (path, told))
    if count:
        say("%d files are not as the rules have their metrics, and would lose history: nothing is written" % count)
        say("--into FOLDER takes them over as they are, --by-rules writes the lines all the same, and --conf names other rules")
    return count == 0


def words():
    said = argparse.ArgumentParser(description=__doc__, formatter_class=argparse.RawDescriptionHelpFormatter)
    said.add_argument("--into", metavar="FOLDER", help="make ring files below FOLDER/data, each as its Whisper file is")
    said.add_argument("--script", action="store_true", help="write a script for `carbon script` in place of metric lines")
    said.add_argument("--conf", default="conf", help="the folder of the rule files that the files are to agree with")
    said.add_argument("--by-rules", action="store_true", help="write the lines also of files that do not agree with them")
    said.add_argument("--now", type=int, default=int(time.time()), help="the moment of the archives, in seconds")
    said.add_argument("tree")
    said.add_argument("prefix", nargs="?", default="")
    found = said.parse_args()
    if found.into and (found.script or found.by_rules):
        said.error("with --into neither --script nor --by-rules says anything: files are made as they are")
    return found


def importer_for(said, left_out):
    """What takes the metrics over, or none where it is refused."""
    if said.into:
        try:
            return RingImporter(left_out, said.into)
        except BlockingIOError:
            say("a carbon runs in %s, or over its data: stop it first" % said.into)
        except OSError as fault:
            say("%s: %s" % (fault.filename, fault.strerror))
        return None
    if not said.by_rules:
        try:
            if not is_by_rules(Tree(said.tree, said.prefix, LeftOut(is_told=False)), Rules(said.conf)):
                return None
        except BadRules as fault:
            say("bad rules: %s" % fault)
            return None
    return LineImporter(left_out, sys.stdout, said.now, said.script)


def main():
    said = words()
    decimal.getcontext().prec = 60
    left_out = LeftOut()
    importer = importer_for(said, left_out)
    if importer is None:
        return 2
    for path, file_name in Tree(said.tree, said.prefix, left_out).metrics():
        importer.add(path, file_name)
    sys.stdout.flush()
    importer.end()
    return 1 if left_out.is_any() else 0


if __name__ == "__main__":
    sys.exit(main())
