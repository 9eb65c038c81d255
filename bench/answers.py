#!/usr/bin/env python3
"""Instructions a point of answers in the built program: texts, sums, and each function of the render language.

Usage: bench/answers.py [HUNDREDS]      (10, at most 10: how many hundreds of series each function is asked over)

Makes 1,000 ring files of 1,440 points each in a folder in memory, and asks the program that was started over them, under `valgrind
--tool=callgrind`. A function's row is the difference of two questions, `limit(FUNCTION,0)` and `limit(SERIES,0)`: with neither a text is
written, and both find and read the same series. Each is per point of the series read. The last rows are of one series of 1,440 and of
1,000,000 points, from memory and from a file. Nothing counted here is a test. Run ./carbon build first.
"""
import os
import sys

from live import Counted, Script, folder, need_program, write_rules

NOW = 1_700_000_030
CLOCK = b"!clock %d\n" % NOW
LIMIT = ["--limit", "10000000"]
STEP = 60
POINTS = 1_440
DAY = "&from=%d&until=%d" % (NOW - STEP * POINTS, NOW)
HOUR = "&from=%d&until=%d" % (NOW - 3_600, NOW)
ONE = "servers.web000.cpu0"
SECONDS = b"[all]\npattern = .*\nretentions = 1s:12d\n"

FUNCTIONS = [
    "sumSeries(S)",
    "averageSeries(S)",
    "minSeries(S)",
    "maxSeries(S)",
    "rangeOfSeries(S)",
    "diffSeries(S)",
    "multiplySeries(S)",
    "divideSeries(S,ONE)",
    "group(HALF,OTHER)",
    "fallbackSeries(S,ONE)",
    "absolute(S)",
    "scale(S,2.5)",
    "offset(S,10)",
    "offsetToZero(S)",
    "derivative(S)",
    "nonNegativeDerivative(S)",
    "perSecond(S)",
    "integral(S)",
    "delay(S,5)",
    "keepLastValue(S)",
    "transformNull(S)",
    "isNonNull(S)",
    "changed(S)",
    "removeAboveValue(S,500)",
    "removeBelowValue(S,500)",
    "scaleToSeconds(S,1)",
    "summarize(S,'1h')",
    "summarize(S,'10min','avg')",
    "timeShift(S,'1min')",
    "limit(S,1000)",
    "sortByName(S)",
    "sortByMaxima(S)",
    "sortByTotal(S)",
    "sortByMinima(S)",
    "highestMax(S,10)",
    "highestCurrent(S,10)",
    "highestAverage(S,10)",
    "lowestCurrent(S,10)",
    "lowestAverage(S,10)",
    "maximumAbove(S,500)",
    "maximumBelow(S,500)",
    "minimumAbove(S,500)",
    "minimumBelow(S,500)",
    "currentAbove(S,500)",
    "currentBelow(S,500)",
    "averageAbove(S,500)",
    "averageBelow(S,500)",
    "removeEmptySeries(S)",
    "grep(S,'web0.*[05]$')",
    "exclude(S,'web0.*[05]$')",
    "alias(S,'load')",
    "aliasByNode(S,1,2)",
    "aliasByMetric(S)",
    "aliasSub(S,'web([0-9]*)','\\1')",
    "groupByNode(S,2,'sum')",
    "groupByNode(S,2,'max')",
    "sumSeriesWithWildcards(S,1)",
    "averageSeriesWithWildcards(S,1)",
]


def value(m, k):
    return b"%d.%02d" % ((k * 7 + m * 13) % 1000, k % 100)


def metrics():
    return [b"servers.web%03d.cpu%d" % (m // 10, m % 10) for m in range(1_000)]


def make_files(place):
    """A ring file of 1,440 points for each of 1,000 metrics, their values up to 999.99."""
    script = Script(place, LIMIT)
    script.tell(CLOCK)
    for m, name in enumerate(metrics()):
        first = NOW - 30 - STEP * (POINTS - 1)
        script.tell(b"".join(b"%s %s %d\n" % (name, value(m, k), first + STEP * k) for k in range(POINTS)))
    if script.ask(b"!drain\n") != b"drained 1000\n":
        sys.exit("unexpected answer")
    script.leave()


def ask(target, ends, form=""):
    return ("!ask target=%s%s%s\n" % (target, ends, form)).encode()


def counted(script, line):
    """The instructions of a question, and the bytes of its answer."""
    instructions, answers = script.count([line])
    return instructions, len(answers[0]) + script.settle()


def row(what, each):
    print("%-72s %12.1f" % (what, each), flush=True)


def texts(script, series, points):
    """What finding and reading takes, and each text beyond it. Gives the former."""
    base, _ = script.count([ask("limit(%s,0)" % series, DAY)])
    row("series found and read", base / points)
    for form in ("json", "raw", "csv"):
        all, length = counted(script, ask(series, DAY, "&format=" + form))
        row("their text as %s, of %.1f bytes a point" % (form, length / points), (all - base) / points)
    thin, _ = script.count([ask(series, DAY, "&maxDataPoints=100")])
    row("their text as json with maxDataPoints=100", (thin - base) / points)
    return base


def over_files(hundreds):
    hosts = "web0[0-%d]*" % (hundreds - 1)
    series, half, other = ("servers.%s.cpu%s" % (hosts, cpus) for cpus in ("*", "[0-4]", "[5-9]"))
    points = 100 * hundreds * POINTS
    with folder() as place, folder() as counts:
        make_files(place)
        script = Counted(place, os.path.join(counts, "answers"))
        script.tell(CLOCK)
        script.settle()
        print("%d series of %d points" % (100 * hundreds, POINTS))
        base = texts(script, series, points)
        for function in FUNCTIONS:
            target = function.replace("HALF", half).replace("OTHER", other).replace("ONE", ONE).replace("(S", "(" + series)
            all, length = counted(script, ask("limit(%s,0)" % target, DAY))
            if length != 3:
                sys.exit("unexpected answer of %d bytes to %s" % (length, target))
            row(function, (all - base) / points)
        all_series = "servers.web*.cpu*"
        base, _ = script.count([ask("limit(%s,0)" % all_series, HOUR)])
        all, _ = script.count([ask("limit(sumSeries(%s),0)" % all_series, HOUR)])
        row("1000 series of 60 points found and read", base / 60_000)
        row("sumSeries of 1000 series of 60 points", (all - base) / 60_000)
        script.leave()


def over_one(count, step, rules):
    """One series of so many points."""
    ends = "&from=%d&until=%d" % (NOW - step * count, NOW)
    with folder() as place, folder() as counts:
        if rules:
            write_rules(place, rules)
        first = NOW - NOW % step - step * (count - 1)
        puts = CLOCK + b"".join(b"a.b %s %d\n" % (value(0, k), first + step * k) for k in range(count))
        for where in ("memory", "a file"):
            script = Counted(place, os.path.join(counts, where[0]), LIMIT)
            script.tell(puts if where == "memory" else CLOCK)
            script.ask(ask("limit(a.b,0)", ends))
            fetch, _ = script.count([ask("limit(a.b,0)", ends)])
            all, length = counted(script, ask("a.b", ends))
            script.leave()
            row("one series of %d points from %s, in all" % (count, where), all / count)
            row("  of which its text, of %.1f bytes a point" % (length / count), (all - fetch) / count)
            if where == "memory":
                script = Script(place, LIMIT)
                script.tell(puts)
                script.ask(b"!drain\n")
                script.leave()


def main():
    need_program()
    hundreds = int(sys.argv[1]) if len(sys.argv) > 1 else 10
    over_files(min(max(hundreds, 1), 10))
    over_one(POINTS, STEP, None)
    over_one(1_000_000, 1, SECONDS)


if __name__ == "__main__":
    main()
