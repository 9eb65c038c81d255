#!/usr/bin/env python3
"""Instructions that the built program takes, by kind of work: a line, a metric, a drain, a point, a byte of a target.

Usage: bench/instructions.py

Each row counts what `valgrind --tool=callgrind` sees of some lines of a script that runs already, and prints it for one line, metric, point or
byte. Such counts are steady on a busy machine, where seconds are not: what the kernel does is not counted, and of a fill of bytes each
counts as one. Nothing is checked beyond the answers' first words, and nothing counted here is a test. Run ./carbon build first.
"""
import os
import sys

from live import Counted, Script, class_of, folder, need_program, write_rules

NOW = 1_700_000_030
CLOCK = b"!clock %d\n" % NOW
OLD = NOW - 30 - 60 * 200
SCHEMAS = (
    b"[carbon]\npattern = ^carbon\\.\nretentions = 60:90d\n\n"
    b"[default]\npattern = .*\nretentions = 60s:1d,5m:30d,1h:5y\n"
)
ONE_SECTION = b"[all]\npattern = .*\nretentions = 60s:1d,5m:30d,1h:5y\n"
REFUSED = b"!ask from=x&target="
ROOM = 16_384 - len(REFUSED)
AGGREGATIONS = (
    b"[min]\npattern = \\.min$\nxFilesFactor = 0.1\naggregationMethod = min\n\n"
    b"[all]\npattern = .*\nxFilesFactor = 0.5\naggregationMethod = average\n"
)


def points(metrics, first, count):
    """So many points a minute apart for each metric, the metrics in turn."""
    return b"".join(b"%s %d.25 %d\n" % (m, k % 1000, first + 60 * k) for k in range(count) for m in metrics)


def names(word, count):
    return [b"servers.%s%04d.load" % (word, k) for k in range(count)]


def one_a_class(word):
    """Sixteen names, one of each class."""
    by_class = {class_of(name): name for name in names(word, 200)}
    return [by_class[number] for number in range(16)]


def row(what, each):
    print(f"{what:72} {each:>12,.0f}", flush=True)


def count_lines(script, what, text):
    counted, _ = script.count([text + b"!\n"])
    row(what, counted / text.count(b"\n"))


def count_drains(script, what, metrics):
    """What the drains of these metrics take, which are of one class each: the plan, and then the writing of its runs."""
    planned, answers = script.count([b"!plan\n"] * len(metrics))
    if any(not answer.startswith(b"plan servers") for answer in answers):
        sys.exit("unexpected answers: %r" % answers)
    row("the plan of %s" % what, planned / len(metrics))
    written, answers = script.count([b"!write\n"] * (8 * len(metrics)))
    if answers[-1] != b"write nothing\n":
        sys.exit("unexpected answers: %r" % answers)
    nothing, _ = script.count([b"!write\n"] * 16)
    written -= nothing / 16 * answers.count(b"write nothing\n")
    row("  the writing of its runs", written / len(metrics))


def over_new(place, counts, what):
    """A script that runs already, of which the lines of new metrics were counted."""
    script = Counted(place, os.path.join(counts, "rules"))
    script.tell(CLOCK + points(names(b"web", 100), OLD, 1))
    script.settle()
    count_lines(script, "a line of a new metric, with %s" % what, points(names(b"new", 200), OLD, 1))
    return script


def over_rules(place, counts, what):
    script = over_new(place, counts, what)
    script.ask(b"!drain\n")
    for many, times in (("one point", 1), ("100 points", 100)):
        metrics = one_a_class(b"n%d" % times)
        for files, first in (("new", OLD), ("that is there", OLD + 6_000)):
            script.tell(points(metrics, first, times))
            script.settle()
            count_drains(script, "a drain of %s, %s, file %s" % (many, what, files), metrics)
    script.leave()


def over_lines(place, counts):
    script = Counted(place, os.path.join(counts, "lines"), ["--limit", "10000000"])
    some = names(b"web", 2_000)
    script.tell(CLOCK + points(some, OLD, 10))
    script.settle()
    count_lines(script, "a line that is refused at its time", b"servers.web0001.load 12.25 x\n" * 2_000)
    count_lines(script, "a line whose point replaces another", points(some, OLD + 300, 1))
    count_lines(script, "a line whose point is stored behind those of its metric", points(some, OLD + 600, 1))
    script.leave()


def over_questions(place, counts):
    day = CLOCK + points(names(b"web", 1), NOW - 30 - 60 * 1_440, 1_440)
    ask = b"!ask target=servers.web0000.load&from=%d&until=%d\n" % (NOW - 86_400, NOW)
    for where in ("memory", "a file"):
        script = Counted(place, os.path.join(counts, "questions"))
        script.tell(day if where == "memory" else CLOCK)
        script.settle()
        counted, _ = script.count([ask] * 10)
        row("a point of a question, from %s" % where, counted / 14_400)
        script.leave()
        script = Script(place)
        script.tell(day)
        script.ask(b"!drain\n")
        script.leave()


def count_target(script, target):
    """What a query of this target takes that is refused at its time, which comes behind the targets: nothing is asked."""
    counted, answers = script.count([REFUSED + target + b"\n"] * 10)
    if set(answers) != {b"refused bad time\n"}:
        sys.exit("unexpected answers: %r" % answers)
    return counted / 10


def within(outer, inner):
    """A target as long as a line has room for: 32 calls, the last around four globs of 498 values each."""
    wide = b"servers.{%s}.load" % b",".join(b"web%04d" % k for k in range(498))
    calls = [outer] * 31 + [inner]
    room = ROOM - sum(len(name) + 2 for name in calls)
    return b"(".join(calls) + b"(" + b",".join([wide] * 4).ljust(room, b"x") + b")" * 32


def over_targets(place, counts):
    script = Counted(place, os.path.join(counts, "targets"))
    least = count_target(script, b"a")
    for what, target in (
        ("16 paths in a call", b"group(%s)" % b",".join(names(b"web", 16))),
        ("779 paths in a call", b"group(%s)" % b",".join(names(b"web", 779))),
        ("wide braces in 32 calls", within(b"absolute", b"group")),
        ("the same, named by their texts", within(b"sumSeries", b"sumSeries")),
    ):
        each = (count_target(script, target) - least) / (len(target) - 1)
        row("a byte of a target of {:,}: {}".format(len(target), what), each)
    script.leave()


def main():
    need_program()
    with folder() as place, folder() as counts:
        over_lines(place, counts)
    with folder() as place, folder() as counts:
        over_rules(place, counts, "one archive")
    with folder() as place, folder() as counts:
        write_rules(place, ONE_SECTION)
        over_new(place, counts, "a rule file of one section").leave()
    with folder() as place, folder() as counts:
        write_rules(place, SCHEMAS, AGGREGATIONS)
        over_rules(place, counts, "three archives by rule files")
    with folder() as place, folder() as counts:
        over_questions(place, counts)
    with folder() as place, folder() as counts:
        over_targets(place, counts)


if __name__ == "__main__":
    main()
