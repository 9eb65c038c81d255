#!/usr/bin/env python3
"""Points a second through one store by 1, 2, 4 and 8 threads, what a point takes under the locks, and how long a question holds them all.

Usage: bench/put_rates.py [ROUNDS [TIMES]]      (200 and 3 without numbers)

Points come from memory: no line is read, and no daemon runs. Each round puts a point of each of 10,000 metrics, a minute later than the round
before, in calls of 256 points; a thread has the metrics of its own share. The store is over sixteen folders in memory and has no rule files. Rows,
each of TIMES runs that take turns:

  shards alone      the same points into the same sixteen shards, on one thread, without locks and history
  N threads         into the store, by so many threads at once
  .. and a drain    likewise, while one thread more drains to a folder in memory as fast as it can
  locks alone       calls without points: all locks are taken and given back
  classes alone     the classes of the points are found, which is done before locks are taken

Of each row: points in a second of the clock, run by run, and nanoseconds of all processors for a point, in the program and in the kernel for it, but
not those of a drainer, which are told apart. What one thread takes beyond the last two rows is the work under the locks. A question is measured over
the shards alone, by the two calls that it makes of each while all locks are held: it counts what it finds, and copies it into one list. Milliseconds of
the processor, of ten times TIMES such looks at all 10,000 metrics. Where there is valgrind, instructions follow, which do not depend on what else runs.

The program is that of bench/put_rates.txt. It is built in a folder of its own beside other temporary files, over the libraries that ./carbon has built
here, and is proved before: that takes minutes once, and none again while no source changes, since the folder stays. Nothing timed here is a test.
"""
import os
import re
import shutil
import statistics
import subprocess
import sys
import tempfile

from live import HERE, folder

ROOT = os.path.abspath(os.path.join(HERE, ".."))
TEXT = os.path.join(HERE, "put_rates.txt")
NAME = "put_rates"
PLACE = os.path.join(tempfile.gettempdir(), "carbon-%s-%d" % (NAME, os.getuid()))
PROGRAM = os.path.join(PLACE, "crates", NAME, "out", NAME)
METRICS = 10_000
DATA = ("src", "specs", "proofs")
HELD = (1, 60)  # so many points of each metric are pending when a question comes


# ---- the program


def lines_of(path):
    with open(path, encoding="utf-8") as file:
        return file.read().splitlines()


def crates_in(lines):
    """The rows of crates.txt by crate."""
    return {line.split(":")[0].split(" ")[0]: line for line in lines if ":" in line}


def names_in(row):
    return row.split(":")[1].split()


def below(names, rows):
    """These crates and those that they use, in the order of crates.txt."""
    found = set()
    left = [name for name in names if name in rows]
    while left:
        name = left.pop()
        if name not in found:
            found.add(name)
            left += [other for other in names_in(rows[name]) if other in rows]
    return [name for name in rows if name in found]


def write(path, text):
    os.makedirs(os.path.dirname(path), exist_ok=True)
    with open(path, "w", encoding="utf-8") as file:
        file.write(text)


def link(source, target):
    try:
        os.link(source, target)
    except OSError:
        shutil.copy2(source, target)


def copy_crate(name):
    """A crate's sources, and its library if it is built here."""
    here, there = os.path.join(ROOT, "crates", name), os.path.join(PLACE, "crates", name)
    built = os.path.join(here, "out", "rlib")
    if not os.path.exists(os.path.join(built, "stamp")):
        sys.exit("the library %s is not built; run ./carbon build" % name)
    shutil.rmtree(there, ignore_errors=True)
    for part in DATA:
        if os.path.isdir(os.path.join(here, part)):
            shutil.copytree(os.path.join(here, part), os.path.join(there, part))
    shutil.copytree(built, os.path.join(there, "out", "rlib"), copy_function=link)


def write_crate():
    """The program's files: each begins behind a line that names it."""
    with open(TEXT, encoding="utf-8") as file:
        parts = re.split(r"^== (\S+)\n", file.read(), flags=re.MULTILINE)
    there = os.path.join(PLACE, "crates", NAME)
    for part in DATA:
        shutil.rmtree(os.path.join(there, part), ignore_errors=True)
    for name, text in zip(parts[1::2], parts[2::2]):
        write(os.path.join(there, name), text)


def build():
    rows = crates_in(lines_of(os.path.join(ROOT, "crates.txt")))
    with open(TEXT, encoding="utf-8") as file:
        text = file.read()
    libraries = {name for row in rows.values() for name in names_in(row)} | set(rows)
    named = sorted(name for name in libraries if re.search(r"\b%s\b" % name, text))
    own = below(named, rows)
    for name in own:
        copy_crate(name)
    write_crate()
    made = [rows[name] for name in own] + ["%s: %s" % (NAME, " ".join(named))]
    write(os.path.join(PLACE, "crates.txt"), "\n".join(made) + "\n")
    command = ["rt", "run", "--", "classes", "0"]
    built = subprocess.run(command, cwd=os.path.join(PLACE, "crates", NAME), stdout=subprocess.DEVNULL, stderr=subprocess.PIPE, text=True)
    if built.returncode != 0:
        sys.exit("the program could not be built\n" + built.stderr[-2000:])


# ---- a run


def said_by(*words):
    """What the program said of a run in a new folder, and the seconds that the kernel worked for it."""
    with folder() as place:
        process = subprocess.Popen([PROGRAM, *map(str, words)], cwd=place, stdout=subprocess.PIPE, text=True)
        said = process.stdout.read()
        _, status, usage = os.wait4(process.pid, 0)
    if status != 0:
        sys.exit("the program ended with %d" % status)
    return said, usage.ru_stime


class Run:
    """What points took."""

    def __init__(self, *words):
        said, _ = said_by(*words)
        found = re.search(r"^points (\d+) elapsed (\d+) used (\d+)", said)
        self.points, self.elapsed, self.used = map(int, found.groups())
        drained = re.search(r"^worker Drains done (\d+) used (\d+)", said, re.MULTILINE)
        self.drained, self.draining = map(int, drained.groups()) if drained else (0, 0)

    def rate(self):
        """Millions of points a second of the clock."""
        return 1e3 * self.points / self.elapsed

    def cost(self):
        """Nanoseconds of all processors for a point, but those of a drainer."""
        return (self.used - self.draining) / self.points


def rows_of(rounds):
    yield "shards alone", ("plain", rounds)
    for threads in (1, 2, 4, 8):
        yield "%d thread%s" % (threads, "s" * (threads > 1)), ("put", threads, rounds)
    yield "1 thread and a drain", ("put", 1, rounds, "drain")
    yield "4 threads and a drain", ("put", 4, rounds, "drain")
    yield "locks alone", ("locks", 1, rounds)
    yield "classes alone", ("classes", rounds)


def cells(form, values):
    return " ".join(form % value for value in values)


def put(rounds, times):
    rows = list(rows_of(rounds))
    runs = {name: [] for name, _ in rows}
    for _ in range(times):
        for name, words in rows:
            runs[name].append(Run(*words))
    width = 8 * times
    print("%-24s %-*s  %s" % ("", width, "million points a second", "ns of processors a point"))
    for name, _ in rows:
        told = runs[name]
        print("%-24s %-*s  %s" % (name, width, cells("%7.2f", (run.rate() for run in told)), cells("%7.1f", (run.cost() for run in told))))
        if told[0].draining:
            each = (1e-3 * run.draining / max(1, run.drained) for run in told)
            print("%-24s drained metrics: %s; us of processors each: %s" % ("", cells("%d", (run.drained for run in told)), cells("%.1f", each)))
    alone, one = (sum(run.cost() for run in runs[name]) for name in ("shards alone", "1 thread"))
    print("1 thread beside the shards alone, by processors: %.2f" % (alone / one))
    parts = zip(runs["1 thread"], runs["locks alone"], runs["classes alone"])
    print("work under the locks, ns of processors a point: %s" % cells("%.1f", (a.cost() - b.cost() - c.cost() for a, b, c in parts)))


def looks(held, count):
    """Milliseconds of the processor for a look, so often: counting, copying, both. And the kernel's part, in the mean of all but the first, with that of
    letting go of what was copied, which is done behind the locks."""
    _, first = said_by("look", held, 1)
    said, all_of_them = said_by("look", held, count)
    found = re.findall(r"^series (\d+) (\d+) count (\d+) look (\d+)", said, re.MULTILINE)
    if any((int(counted), int(copied)) != (METRICS, METRICS) for counted, copied, _, _ in found):
        sys.exit("not all metrics were found")
    parts = [(1e-6 * int(counted), 1e-6 * int(copied)) for _, _, counted, copied in found]
    return [(counted, copied, counted + copied) for counted, copied in parts], 1e3 * (all_of_them - first) / (count - 1)


def ask(times):
    print("\n%-51s %s" % ("a question over 10,000 names, under all locks", "ms of the processor: least, median, most"))
    for held in HELD:
        found, kernel = looks(held, 10 * times)
        for name, values in zip(("counted", "copied", "together"), zip(*found)):
            print("%-51s %7.2f %7.2f %7.2f" % ("%d pending points each, %s" % (held, name), min(values), statistics.median(values), max(values)))
        print("%-51s %7.2f" % ("the kernel's part, letting go included, mean", kernel))


# ---- instructions


def counted(*words):
    """Instructions of a whole run."""
    with folder() as place:
        command = ["valgrind", "--tool=callgrind", "--callgrind-out-file=/dev/null", PROGRAM, *map(str, words)]
        said = subprocess.run(command, cwd=place, stdout=subprocess.DEVNULL, stderr=subprocess.PIPE, text=True, check=True).stderr
    return int(re.search(r"Collected : (\d+)", said)[1])


def instructions():
    if shutil.which("valgrind") is None:
        return
    print("\n%-51s %s" % ("instructions", "a point"))
    rows = ("shards alone", ("plain",)), ("1 thread", ("put", 1)), ("locks alone", ("locks", 1)), ("classes alone", ("classes",))
    for name, words in rows:
        some, more = counted(*words, 10), counted(*words, 20)
        print("%-51s %7.0f" % (name, (more - some) / (10 * METRICS)))
    print("%-51s %s" % ("", "a name"))
    for held in HELD:
        one, three = counted("look", held, 1), counted("look", held, 3)
        print("%-51s %7.0f" % ("a question, %d pending points each, letting go" % held, (three - one) / (2 * METRICS)))


def main():
    rounds = int(sys.argv[1]) if len(sys.argv) > 1 else 200
    times = int(sys.argv[2]) if len(sys.argv) > 2 else 3
    build()
    put(rounds, times)
    ask(times)
    instructions()


main()
