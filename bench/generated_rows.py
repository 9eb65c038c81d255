#!/usr/bin/env python3
"""The generated rows of text_cases and ring_cases, by slow models that share nothing with carbon's code.

Usage: bench/generated_rows.py globs|orders|batches     prints the rows
       bench/generated_rows.py                          looks whether all of them stand in the programs' stdin

globs: pairs of a glob and a path that look like chance, and whether the glob fits, told by a matcher that reads no glob: it knows what each of the parts
stands for. orders: puts, looks and drains that look like chance, over a plain list. batches: forty files of three archives, each with ten drains of
points round the edges of its archives, over plain dictionaries; behind each drain the values of the last 80 buckets of each archive, and of each
older one that is known. The rows stand below the titles "generated globs agree with a slow matcher", "puts and drains in any order go as over a plain
list" and "generated drains agree with a slow batch".
"""
import itertools
import os
import re
import sys


class Numbers:
    """Numbers that look like chance."""

    def __init__(self, state):
        self.state = state

    def below(self, bound):
        self.state = (self.state * 6364136223846793005 + 1442695040888963407) % 2**64
        return (self.state >> 33) % bound


# The text of each part of a glob, and then those for which it stands. In these only `?` and `*` are wildcards.
PARTS = [
    ["", ""], ["a", "a"], ["b", "b"], ["c-", "c-"], [".", "."], ["*", "*"], ["?", "?"], ["[ac]", "a", "c"], ["[a-c]", "a", "b", "c"], ["[b-a]"],
    ["[-b]", "-", "b"], ["[b-]", "b", "-"], ["[a-b--]", "a", "b", "-"], ["{}", ""], ["{,ab}", "", "ab"], ["{b*,?a}", "b*", "?a"],
    ["{a,c,*}", "a", "c", "*"], ["x{[ab],}", "xa", "xb", "x"],
]


def fits(parts, path):
    for texts in itertools.product(*[PARTS[part][1:] for part in parts]):
        pattern = "".join("[^.]*" if c == "*" else "[^.]" if c == "?" else re.escape(c) for c in "".join(texts))
        if re.fullmatch(pattern, path):
            return True
    return False


def globs():
    numbers = Numbers(20)
    for _ in range(12000):
        parts = [numbers.below(18) for _ in range(4)]
        length = numbers.below(7) + 1
        path = "".join("aabbc-.x"[numbers.below(8)] for _ in range(length))
        glob = "".join(PARTS[part][0] for part in parts)
        if "" not in glob.split(".") and "" not in path.split("."):
            yield f"fits {glob} {path} => {'yes' if fits(parts, path) else 'no'}"


class Waiting:
    """Metrics that wait, in order of arrival: letter, number of points, oldest time."""

    def __init__(self, strategy):
        self.strategy, self.metrics, self.queue = strategy, [], []

    def put(self, letter, time):
        for metric in self.metrics:
            if metric[0] == letter:
                metric[1] += 1
                metric[2] = min(metric[2], time)
                return
        self.metrics.append([letter, 1, time])

    def in_order(self):
        keys = {"max": lambda m: (-m[1], m[0]), "sorted": lambda m: (-m[1], m[0]), "timesorted": lambda m: (m[2], m[0]), "naive": lambda m: 0}
        return [metric[0] for metric in sorted(self.metrics, key=keys[self.strategy])]

    def look(self):
        left = self.queue or self.in_order()
        return left[0] if left else None

    def drain(self):
        if self.strategy != "sorted" or not self.queue:
            self.queue = self.in_order()
        letter = self.queue.pop(0) if self.queue else None
        if self.strategy != "sorted":
            self.queue = []
        self.metrics = [metric for metric in self.metrics if metric[0] != letter]
        return letter


def order(strategy, steps):
    waiting, words, told, chance = Waiting(strategy), [], [], 1

    def tell(word, letter):
        words.append(word)
        told.append("-" if letter is None else "a." + letter)

    for step in range(steps):
        chance = (chance * 1664525 + 1013904223) % 2**32
        number = chance // 256
        if number % 5 == 0:
            tell("look", waiting.look())
        if number % 2 == 0:
            tell("drain", waiting.drain())
            continue
        # No other step has this time.
        time = 1_700_000_000 + step * 7919 % 1009
        one = number // 10 % 7
        for place in (one, (one + 1 + number // 70 % 6) % 7):
            words.append(f"a.{'abcdefg'[place]}@{time}x1")
            waiting.put("abcdefg"[place], time)
    for _ in range(8):
        tell("drain", waiting.drain())
    tell("look", waiting.look())
    return f"order {strategy} {' '.join(words)} => {' '.join(told)}"


def orders():
    for strategy in ("max", "sorted", "timesorted", "naive"):
        yield order(strategy, 1000)


GREATEST = 10**30
ARCHIVES = ((60, 10), (300, 12), (1200, 5))
WINDOW = 80


def time_of(numbers, now):
    """At the edge of an archive, in one, beyond all, or in the future."""
    kind = numbers.below(8)
    if kind in (0, 1, 2):
        return now - numbers.below((600, 3600, 9000)[kind])
    if kind == 3:
        return now + numbers.below(2000)
    if kind in (4, 5, 6):
        return now - (599, 3599, 5999)[kind - 4] - numbers.below(3)
    return now - numbers.below(8) * 600


def value_of(numbers):
    """Near zero, or near one of the ends."""
    small = numbers.below(2000)
    kind = numbers.below(6)
    return GREATEST - small if kind == 0 else small - GREATEST if kind == 1 else small - 1000


class Archive:
    """The buckets of an archive that have a value."""

    def __init__(self, step, points):
        self.step, self.retention, self.values = step, step * points, {}

    def bucket(self, time):
        return time - time % self.step

    def write(self, bucket, value):
        # A bucket that is a multiple of the retention away is forgotten.
        self.values = {other: held for other, held in self.values.items() if (other - bucket) % self.retention}
        self.values[bucket] = value


def rolled(finer, coarser, bucket, mean, factor):
    known = [finer.values[at] for at in range(bucket, bucket + coarser.step, finer.step) if at in finer.values]
    if not known or len(known) * 1_000_000 < factor * (coarser.step // finer.step):
        return None
    value = sum(known) // len(known) if mean else sum(known)
    return value if abs(value) <= GREATEST else None


def drain(archives, points, now, mean, factor):
    for home, archive in enumerate(archives):
        own = {}
        for time, value in points:
            if [now <= time + other.retention for other in archives[: home + 1]] == [False] * home + [True]:
                own[archive.bucket(time)] = value
        for bucket, value in own.items():
            archive.write(bucket, value)
        goes_on = bool(own)
        for finer, coarser in zip(archives[home:], archives[home + 1 :]):
            buckets = sorted({coarser.bucket(bucket) for bucket in own}) if goes_on else []
            level = {bucket: rolled(finer, coarser, bucket, mean, factor) for bucket in buckets}
            for bucket, value in level.items():
                if value is not None:
                    coarser.write(bucket, value)
            goes_on = any(value is not None for value in level.values())


def batch(numbers, mean, drains):
    factor = (0, 200_000, 500_000, 1_000_000)[numbers.below(4)]
    archives, words, told, now = [Archive(*one) for one in ARCHIVES], [], [], 1_700_000_000
    for _ in range(drains):
        points = {}
        for _ in range(numbers.below(14)):
            time = time_of(numbers, now)
            points[time] = value_of(numbers)
        drain(archives, sorted(points.items()), now, mean, factor)
        words.append(",".join(f"{time}:{value}" for time, value in sorted(points.items())) + f"@{now}")
        for place, archive in enumerate(archives):
            last = archive.bucket(now + 2100)
            recent = [last - k * archive.step for k in range(WINDOW)]
            words.append(f"{place}/{last}-{WINDOW}")
            told.append("".join(f"{k}:{archive.values[bucket]}," for k, bucket in enumerate(recent) if bucket in archive.values) + ".")
            for bucket in sorted(set(archive.values) - set(recent)):
                words.append(f"{place}/{bucket}")
                told.append(str(archive.values[bucket]))
        now += numbers.below(1500)
    layout = ",".join(f"{step}x{points}" for step, points in ARCHIVES)
    return f"batch {layout} {'average' if mean else 'sum'} {factor} {' '.join(words)} => {' '.join(told)}"


def batches():
    numbers = Numbers(20)
    for number in range(40):
        yield batch(numbers, number % 2 == 0, 10)


KINDS = {"globs": (globs, "text_cases"), "orders": (orders, "ring_cases"), "batches": (batches, "ring_cases")}


def main():
    if len(sys.argv) > 1:
        print("\n".join(KINDS[sys.argv[1]][0]()))
        return 0
    top = os.path.dirname(os.path.dirname(os.path.abspath(__file__)))
    missing = 0
    for kind, (rows, program) in KINDS.items():
        with open(f"{top}/crates/{program}/stdin", encoding="utf-8") as file:
            stand = set(file.read().split("\n"))
        made = list(rows())
        gone = [row for row in made if row not in stand]
        print(f"{kind}: {len(made)} rows, {len(gone)} of them not in {program}")
        missing += len(gone)
    return 1 if missing else 0


if __name__ == "__main__":
    sys.exit(main())
