#!/usr/bin/env python3
"""Aggregation rules beside carbon-aggregator: the same lines go to both under the same rules, and what they emit is compared interval by interval.

Usage: bench/aggregator.py [at-once] [as-it-comes] [--span SECONDS]      (both, one after the other, without a word; 180 seconds)

Runs `./carbon serve` and Debian's carbon-aggregator (package graphite-carbon, 1.1.7) in folders of their own under the rules that stand in RULES, and
sends both one stream of some 440 metrics that bring a value each ten seconds. Some values come twice, some late, some very late, some have more
digits than carbon keeps, and one sender's clock is ahead. `at-once` sends the whole stream as fast as it is taken, as a relay does that was cut off;
`as-it-comes` sends each value in its second. carbon-aggregator sends what it emits to a socket of this bench, in frames of pickles; carbon is asked
over HTTP once the connection of the lines is closed.

Printed are, for each method, how many intervals of outputs both have and how their values compare: `equal` as doubles, but for the `last digits` of a
double, or but for the `thousandths` below which carbon rounds down; of `last`, which carbon alone has, how many are `as defined`. All others are
listed with the reason. For each interval the bench computes what carbon has to emit and of which points carbon-aggregator's value may be; the exit
status is 1 where one has another value, or where carbon emits an interval twice or not at all. What carbon-aggregator does otherwise, by its source
(`carbon/aggregator`):

  method     It has no `last`, and does not start where a rule has it (`AGGREGATION_METHODS` of rules.py). So its file lacks these rules.
  numbers    It adds doubles in the order in which they came, and its average is a double (`avg` of rules.py). carbon adds thousandths exactly, each
             value rounded down to them when it is read, and rounds an average down to them.
  clock      An output emits each SECONDS by the clock, counted from its first point, whatever got a point since then (`compute_value` of buffers.py):
             also the interval that is under way, with the points that it has so far, and once more with all when further ones came. The first
             interval is no exception. carbon emits an interval once: when the output would have a sixth one open, or at the connection's end.
  forgets    At the same moments it forgets the intervals that began more than MAX_AGGREGATION_INTERVALS (5) times SECONDS before the one of the
             clock. A point that comes then begins its interval anew, and what the later points alone give is emitted under the same time again.
             carbon passes such a point over: what it emitted stays. It does so by the times of points, and whatever the clock says.
  ahead      Intervals that the clock has not come to are kept as well, however many. In carbon they are among the five: a sender that is further
             ahead than that leaves one point to the intervals of all others, which are emitted at once since they are the first of six.
  one path   Rules with one output share a buffer, which has the method and the seconds of the rule that made it. In carbon each rule has an output
             of its own, and of their points at one time the one that is emitted last stays.
  stop       What is open is lost when it stops, and when its rules are changed. carbon emits all that is open when a connection ends.

MAX_QUEUE_SIZE is raised in carbon.conf: a point that comes or is emitted while as many wait for the destination is dropped. With the 1,000 that it
is without the line, 4,332 of 8,017 lines were forwarded where they came at once. Run ./carbon build first.
"""
import collections
import contextlib
import http.client
import io
import json
import math
import os
import pickle
import random
import re
import shutil
import socket
import struct
import subprocess
import sys
import threading
import time
import urllib.parse
from decimal import ROUND_FLOOR, Decimal

from live import folder, need_program, write_rules
from serve import Daemon

COMMAND = "carbon-aggregator"
RULES = """
<env>.applications.<app>.all.requests (10) = sum <env>.applications.<app>.*.requests
<env>.applications.all.requests (60) = sum <env>.applications.*.*.requests
<env>.applications.<app>.all.latency (10) = avg <env>.applications.<app>.*.latency
<env>.applications.<app>.all.slowest (10) = max <env>.applications.<app>.*.latency
<env>.applications.<app>.all.fastest (20) = min <env>.applications.<app>.*.latency
<env>.applications.<app>.all.latest (10) = last <env>.applications.<app>.*.latency
zones.<zone>.web.load (30) = avg servers.<zone>.web*.load
zones.<zone>.busiest (30) = max servers.<zone>.*.load
zones.<zone>.idlest (30) = min servers.<zone>.*.load
zones.<zone>.recent (30) = last servers.<zone>.*.load
hosts.<host>-of-<zone>.load (20) = avg servers.<zone>.<host>.load
zones.<zone>.bytes (10) = sum servers.<zone>.db*.bytes
jobs.all.ratio (10) = avg jobs.*.ratio
clocks.all.ticks (10) = sum clocks.*.ticks
both.requests (10) = sum prod.applications.shop.*.requests
both.requests (10) = sum prod.applications.mail.*.requests
"""
CONF = """[aggregator]
USER =
LINE_RECEIVER_INTERFACE = 127.0.0.1
LINE_RECEIVER_PORT = %d
PICKLE_RECEIVER_PORT = 0
DESTINATIONS = 127.0.0.1:%d:a
MAX_QUEUE_SIZE = 1000000
MAX_AGGREGATION_INTERVALS = %d
CARBON_METRIC_INTERVAL = 0
LOG_AGGREGATOR_MISSES = False
"""
OPEN = 5  # intervals, to both
SCHEMAS = b"[all]\npattern = .*\nretentions = 10s:1d\n"
EACH = 10  # seconds from a metric's value to the next
AHEAD = 70  # seconds by which a clock is wrong
BATCH = 100  # targets of a question
LATE = "carbon had emitted the interval, or a later one, when the other points came"
FORGOTTEN = "carbon-aggregator had forgotten the interval when the last points came, and emitted what these alone give"
SHARED = "two rules have this output: carbon keeps what the later of them emitted, carbon-aggregator adds the points of both"
UNKNOWN = "NO REASON"
NOWHERE = 9  # a port that nothing listens at
WAIT = 180  # seconds for a start and an end

Rule = collections.namedtuple("Rule", "output seconds method pattern")
# A value as it is sent: at a second of the stream, of a second of the stream.
Reading = collections.namedtuple("Reading", "due path time value")
# The same as thousandths and as a double; `number` counts all of them, and `came` is when carbon-aggregator had taken it.
Point = collections.namedtuple("Point", "number came time exact double")
Verdict = collections.namedtuple("Verdict", "method path start mine theirs kind text")


# ---- rules


def rules_of(text):
    found = re.findall(r"^(\S+) \((\d+)\) = (\S+) (\S+)$", text, re.MULTILINE)
    return [Rule(output, int(seconds), method, pattern) for output, seconds, method, pattern in found]


def expression(pattern):
    """A regular expression that fits the paths that a pattern covers."""
    parts = re.split(r"(\*|<\w+>)", pattern)
    gaps = {"*": "[^.]*"}
    return re.compile("".join(gaps.get(part) or ("(?P%s[^.]+)" % part if part[:1] == "<" else re.escape(part)) for part in parts))


def output_of(rule, fits, path):
    fit = fits.fullmatch(path)
    return fit and re.sub(r"<(\w+)>", lambda name: fit[name[1]], rule.output)


def last(values):
    return values[-1]


def exact_of(method, points):
    """What carbon makes of points, in thousandths; none of none."""
    if not points:
        return None
    values = [point.exact for point in sorted(points, key=lambda point: point.time)]
    return sum(values) // len(values) if method == "avg" else {"sum": sum, "min": min, "max": max, "last": last}[method](values)


def double_of(method, points):
    """What carbon-aggregator makes of them."""
    values = [point.double for point in points]
    total = 0
    for value in values:
        total += value
    return {"sum": total, "avg": total / len(values), "min": min(values), "max": max(values), "last": values[-1]}[method]


# ---- the stream


def metrics():
    """The metrics: the path, how a value is drawn, and by how many seconds its sender's clock is ahead."""
    for app in "shop", "mail", "search", "login", "cart", "news":
        for host in range(25):
            path = "prod.applications.%s.web%02d." % (app, host)
            yield path + "requests", lambda draw: "%d" % draw.randrange(500), 0
            yield path + "latency", lambda draw: "%.3f" % draw.expovariate(4), 0
    for zone in "east", "west", "north":
        for host in range(30):
            yield "servers.%s.%s%02d.load" % (zone, "db" if host < 10 else "web", host), lambda draw: "%.2f" % draw.uniform(-1, 8), 0
        for host in range(10):
            yield "servers.%s.db%02d.bytes" % (zone, host), lambda draw: "%d" % draw.randrange(2**53, 2**54), 0
    for job in range(10):
        yield "jobs.j%02d.ratio" % job, lambda draw: "%.6f" % draw.random(), 0
    for host in range(6):
        yield "clocks.h%d.ticks" % host, lambda draw: "%d" % draw.randrange(100), AHEAD if host == 5 else 0


def delay(draw):
    """For how many seconds a value is under way."""
    part = draw.random()
    return draw.uniform(60, 110) if part < 0.004 else draw.uniform(1, 30) if part < 0.03 else 0


def stream_of(span):
    """What is sent in so many seconds, in order."""
    draw = random.Random(41)
    sent = []
    for path, value, ahead in metrics():
        first = draw.uniform(0, EACH)
        for at in (first + EACH * k for k in range(span // EACH)):
            due = min(span, at + delay(draw))
            sent.append(Reading(due, path, int(at) + ahead, value(draw)))
            if draw.random() < 0.02:
                sent.append(Reading(due, path, int(at) + ahead, value(draw)))
    return sorted(sent, key=lambda reading: reading.due)


def line_of(reading, base):
    return b"%s %s %d\n" % (reading.path.encode(), reading.value.encode(), base + reading.time)


def send(stream, base, ports, is_live):
    """Sends the stream to each port, and waits until the first one's connection is closed from there."""
    links = [socket.create_connection(("127.0.0.1", port)) for port in ports]
    begun, sent = time.time(), 0
    while sent < len(stream):
        now = time.time() - begun
        front = [reading for reading in stream[sent:] if not is_live or reading.due <= now]
        for link in links:
            link.sendall(b"".join(line_of(reading, base) for reading in front))
        sent += len(front)
        time.sleep(0.1)
    for link in links:
        link.shutdown(socket.SHUT_WR)
    while links[0].recv(4096):
        pass
    for link in links:
        link.close()


# ---- carbon-aggregator


class Plain(pickle.Unpickler):
    """Reads lists, tuples, texts and numbers."""

    def find_class(self, module, name):
        raise pickle.UnpicklingError("%s.%s" % (module, name))


class Destination(threading.Thread):
    """A socket that carbon-aggregator sends to: `points` has the path, the time and the value of each point, and when it came."""

    def __init__(self):
        super().__init__(daemon=True)
        self.server = socket.create_server(("127.0.0.1", 0))
        self.port = self.server.getsockname()[1]
        self.points = []
        self.start()

    def run(self):
        link, _ = self.server.accept()
        with link, link.makefile("rb") as file:
            while len(head := file.read(4)) == 4:
                frame = file.read(struct.unpack("!I", head)[0])
                for path, (moment, value) in Plain(io.BytesIO(frame)).load():
                    self.points.append((path, int(moment), value, time.time()))


    def wait_for(self, count):
        """Waits until so many points came, and says where they do not."""
        until = time.monotonic() + WAIT
        while len(self.points) < count:
            if time.monotonic() > until:
                sys.exit("carbon-aggregator sent %d points, and forwards %d lines" % (len(self.points), count))
            time.sleep(0.1)


class Aggregator:
    """carbon-aggregator in this folder, on a port that was free, under these rules."""

    def __init__(self, place, rules, destination):
        with socket.create_server(("127.0.0.1", 0)) as free:
            self.port = free.getsockname()[1]
        self.log = os.path.join(place, "log")
        for name, text in {"carbon.conf": CONF % (self.port, destination, OPEN), "storage-schemas.conf": "", "aggregation-rules.conf": rules}.items():
            with open(os.path.join(place, name), "w") as file:
                file.write(text)
        words = ["--config=%s/carbon.conf" % place, "--pidfile=%s/pid" % place, "--nodaemon", "--logfile=-", "start"]
        with open(self.log, "wb") as log:
            self.process = subprocess.Popen(
                [COMMAND, *words], stdin=subprocess.DEVNULL, stdout=log, stderr=log, cwd=place, env=dict(os.environ, GRAPHITE_STORAGE_DIR=place)
            )

    def is_up(self):
        """Whether it opens its port, and does not end before."""
        until = time.monotonic() + WAIT
        while self.process.poll() is None and time.monotonic() < until:
            with contextlib.suppress(OSError), socket.create_connection(("127.0.0.1", self.port)):
                return True
            time.sleep(0.1)
        return False

    def told(self):
        """The last line of what it said."""
        with open(self.log) as file:
            return file.read().rstrip().rpartition("\n")[2]


def end(process):
    if process.poll() is None:
        process.terminate()
        try:
            process.wait(WAIT)
        except subprocess.TimeoutExpired:
            process.kill()
            process.wait()


def rules_without_last():
    """The rules that carbon-aggregator takes, and says why not all."""
    with folder() as place:
        whole = Aggregator(place, RULES, NOWHERE)
        try:
            if whole.is_up():
                return RULES
            print("carbon-aggregator under all rules: %s" % whole.told(), flush=True)
        finally:
            end(whole.process)
    return "".join(line for line in RULES.splitlines(True) if " = last " not in line)


# ---- carbon


def write_rules_with(place, schemas, aggregation):
    """All rule files, but for that of aggregation where it is `None`."""
    write_rules(place, schemas)
    if aggregation is not None:
        with open(os.path.join(place, "conf", "aggregation-rules.conf"), "w") as file:
            file.write(aggregation)


def ask(link, way, body=None):
    link.request("POST" if body else "GET", way, body)
    reply = link.getresponse()
    text = reply.read().decode()
    if reply.status != 200:
        sys.exit("%d: %r" % (reply.status, text[:200]))
    return text


def values_of(row):
    """The values of a row of raw text, in thousandths, by path and time."""
    head, _, values = row.partition("|")
    path, first, _, step = head.rsplit(",", 3)
    pairs = enumerate(values.split(","))
    return {(path, int(first) + k * int(step)): thousandths(value) for k, value in pairs if value != "None"}


def emitted_by_carbon(port, sent_paths, first, until):
    """The values of all other metrics than these."""
    link = http.client.HTTPConnection("127.0.0.1", port, timeout=WAIT)
    names = [name for name in json.loads(ask(link, "/metrics/index.json")) if name not in sent_paths]
    found = {}
    for at in range(0, len(names), BATCH):
        query = [("target", name) for name in names[at : at + BATCH]] + [("from", first), ("until", until), ("format", "raw")]
        for row in ask(link, "/render", urllib.parse.urlencode(query)).splitlines():
            found.update(values_of(row))
    link.close()
    return found


def thousandths(text):
    return int((Decimal(text) * 1000).to_integral_value(ROUND_FLOOR))


# ---- the comparison


class Output:
    """The output that a rule has for a path: the points of each interval in the order in which they were sent, and how many of them carbon takes."""

    def __init__(self, rule):
        self.rule = rule
        self.intervals = {}
        self.taken = collections.Counter()
        self.open = set()
        self.emitted = 0

    def take(self, point):
        start = point.time // self.rule.seconds * self.rule.seconds
        self.intervals.setdefault(start, []).append(point)
        if start > self.emitted:
            self.taken[start] += 1
            self.open.add(start)
        if len(self.open) > OPEN:
            self.emitted = min(self.open)
            self.open.remove(self.emitted)

    def exact(self, start):
        """What carbon emits for an interval, in thousandths; none where it takes no point."""
        return exact_of(self.rule.method, self.intervals[start][: self.taken[start]])

    def is_forgotten(self, start, point):
        """Whether carbon-aggregator may have forgotten the interval when it came."""
        return point.came > start + (OPEN + 1) * self.rule.seconds


def gather(rules, stream, base, came):
    """The outputs of each output path, in the order in which they appeared, with all that was sent."""
    outputs, known = collections.defaultdict(dict), {}
    fits = [(rule, expression(rule.pattern)) for rule in rules]
    for number, (reading, moment) in enumerate(zip(stream, came)):
        if reading.path not in known:
            known[reading.path] = [(rule, path) for rule, fit in fits if (path := output_of(rule, fit, reading.path))]
        point = Point(number, moment, base + reading.time, thousandths(reading.value), float(reading.value))
        for rule, path in known[reading.path]:
            outputs[path].setdefault(rule, Output(rule)).take(point)
    return {path: list(of_rules.values()) for path, of_rules in outputs.items()}


def is_close(one, other):
    return math.isclose(one, other, rel_tol=1e-12, abs_tol=1e-12)


def tails_of(method, points, theirs):
    """Without how many of the first points carbon-aggregator's value may be, the least first."""
    places = range(len(points)) if theirs is not None else ()
    return (place for place in places if is_close(double_of(method, points[place:]), theirs))


def sameness(mine, theirs):
    """How two values are the same, if they are."""
    if None in (mine, theirs) or not is_close(mine / 1000, theirs):
        return None
    return "equal" if mine / 1000 == theirs else "last digits"


def is_rounded(method, points, mine, theirs):
    """Whether values of the same points differ by what was rounded down."""
    return 0 < theirs - mine / 1000 < 0.001 * (len(points) if method == "sum" else 2)


def part(count, whole, which):
    return "of all %d points" % whole if count == whole else "of the %s %d of %d points" % (which, count, whole)


def tail_of(output, start, theirs):
    """Without how many of the first points carbon-aggregator's value is, where they were forgotten when the next one came."""
    points = output.intervals[start]
    tails = tails_of(output.rule.method, points, theirs)
    return next((tail for tail in tails if tail == 0 or output.is_forgotten(start, points[tail])), None)


def judge_one(output, start, mine, theirs, is_shown):
    """The kind and the words of an interval of an output that no other rule has."""
    method, points = output.rule.method, output.intervals[start]
    count, front = len(points), output.taken[start]
    if mine != output.exact(start):
        return UNKNOWN, "carbon has to emit the value of the first %d of %d points" % (front, count)
    if not is_shown:
        return "as defined", ""
    if sameness(mine, theirs):
        return sameness(mine, theirs), ""
    tail = tail_of(output, start, theirs)
    if tail is None:
        return UNKNOWN, "of the last of %d points" % count
    text = "carbon %s, carbon-aggregator %s" % (part(front, count, "first"), part(count - tail, count, "last"))
    if front == count and tail == 0:
        return "thousandths" if is_rounded(method, points, mine, theirs) else UNKNOWN, text
    return "; ".join([LATE] * (front < count) + [FORGOTTEN] * (tail > 0)), text


def judge_shared(outputs, start, mine, theirs):
    """Likewise of one that several rules have."""
    method = outputs[0].rule.method
    whole = sorted(point for output in outputs for point in output.intervals.get(start, []))
    is_known = any(mine == output.exact(start) for output in outputs if start in output.intervals)
    is_known = is_known and any(True for _ in tails_of(method, whole, theirs))
    return SHARED if is_known else UNKNOWN, "%d points" % len(whole)


def compare(outputs, shown, mine, theirs):
    """A verdict for each interval of each output. `shown` are the rules that carbon-aggregator has."""
    for path, of_rules in outputs.items():
        rule = of_rules[0].rule
        for start in sorted({start for output in of_rules for start in output.intervals}):
            values = mine.pop((path, start), None), theirs.pop((path, start), [None])[-1]
            if len(of_rules) > 1:
                kind, text = judge_shared(of_rules, start, *values)
            else:
                kind, text = judge_one(of_rules[0], start, *values, rule in shown)
            yield Verdict(rule.method, path, start, *values, kind, text)
    for path, start in [*mine, *theirs]:
        yield Verdict("none", path, start, mine.get((path, start)), theirs.get((path, start), [None])[-1], UNKNOWN, "no point belongs there")


# ---- the report


def print_table(verdicts):
    kinds = ["as defined", "equal", "last digits", "thousandths"]
    print("%-7s %8s %9s %7s" % ("method", "outputs", "intervals", "both") + "".join(" %11s" % kind for kind in [*kinds, "other"]))
    for method in sorted({verdict.method for verdict in verdicts}):
        rows = [verdict for verdict in verdicts if verdict.method == method]
        counts = collections.Counter(verdict.kind for verdict in rows)
        both = sum(verdict.mine is not None and verdict.theirs is not None for verdict in rows)
        told = [counts.pop(kind, 0) for kind in kinds] + [sum(counts.values())]
        outputs = len({verdict.path for verdict in rows})
        print("%-7s %8d %9d %7d" % (method, outputs, len(rows), both) + "".join(" %11d" % count for count in told))


def print_others(verdicts):
    """Each difference under its reason."""
    reasons = collections.defaultdict(list)
    for verdict in verdicts:
        if verdict.kind not in ("as defined", "equal", "last digits", "thousandths"):
            reasons[verdict.kind].append(verdict)
    for reason, rows in sorted(reasons.items()):
        print("%s: %d" % (reason, len(rows)))
        for row in rows:
            mine = "nothing" if row.mine is None else Decimal(row.mine) / 1000
            theirs = "nothing" if row.theirs is None else repr(row.theirs)
            print("    %-40s %d %-4s carbon %s, carbon-aggregator %s: %s" % (row.path, row.start, row.method, mine, theirs, row.text))


def print_again(theirs):
    """How often carbon-aggregator emitted an interval, and how many had another value before the last one."""
    times = collections.Counter(len(values) for values in theirs.values())
    parts = sum(any(value != values[-1] for value in values) for values in theirs.values())
    told = ", ".join("%d intervals %d times" % (times[count], count) for count in sorted(times))
    print("carbon-aggregator: %d points emitted: %s; %d had another value before the last" % (sum(map(len, theirs.values())), told, parts))


def is_each_once(outputs, emitted):
    """Says how many points carbon emitted, and whether that is one for each interval of a rule that took a point."""
    wanted = sum(len(output.taken) for of_rules in outputs.values() for output in of_rules)
    print("carbon: %d points emitted, for %d intervals of outputs" % (emitted, wanted))
    return emitted == wanted


def observe(stream, span, their_rules, is_live):
    """Runs both over the stream. What time its second 0 was, what carbon shows and how many points it emitted, and what carbon-aggregator sent."""
    slowest = max(rule.seconds for rule in rules_of(RULES))
    with folder() as place, folder() as other, contextlib.ExitStack() as ends:
        write_rules_with(place, SCHEMAS, RULES)
        daemon, destination = Daemon(place), Destination()
        ends.callback(end, daemon.process)
        aggregator = Aggregator(other, their_rules, destination.port)
        ends.callback(end, aggregator.process)
        if not aggregator.is_up():
            sys.exit("carbon-aggregator: %s" % aggregator.told())
        base = int(time.time()) - (0 if is_live else span)
        send(stream, base, [daemon.line_port, aggregator.port], is_live)
        # until each output of carbon-aggregator has emitted what came, and the latest time is no longer ahead
        destination.wait_for(len(stream))
        time.sleep(max(slowest + 5, base + span + AHEAD + 10 - time.time()))
        mine = emitted_by_carbon(daemon.http_port, {reading.path for reading in stream}, base - 120, base + span + AHEAD)
        stored, replaced = map(int, re.findall(r"(?:stored|replaced) (\d+)", daemon.stop()[0]))
    return base, mine, stored + replaced - len(stream), destination.points


def moments_of(stream, base, forwarded):
    """When each line of the stream came back from carbon-aggregator, which sends them on as they are and in order."""
    sent = [(reading.path, base + reading.time, float(reading.value)) for reading in stream]
    if sent != [point[:3] for point in forwarded]:
        sys.exit("carbon-aggregator forwarded %d lines of %d, or others" % (len(forwarded), len(sent)))
    return [came for _, _, _, came in forwarded]


def run(name, span, their_rules):
    """Sends the stream one way, and compares. Whether each difference has a reason."""
    stream = stream_of(span)
    paths = {reading.path for reading in stream}
    print("\n%s: %d lines of %d metrics over %d seconds" % (name, len(stream), len(paths), span), flush=True)
    base, mine, emitted, points = observe(stream, span, their_rules, name == "as-it-comes")
    came = moments_of(stream, base, [point for point in points if point[0] in paths])
    theirs = collections.defaultdict(list)
    for path, moment, value, _ in points:
        if path not in paths:
            theirs[path, moment].append(value)
    outputs = gather(rules_of(RULES), stream, base, came)
    is_known = is_each_once(outputs, emitted)
    print_again(theirs)
    verdicts = list(compare(outputs, rules_of(their_rules), mine, theirs))
    print_table(verdicts)
    print_others(verdicts)
    return is_known and not any(verdict.kind == UNKNOWN for verdict in verdicts)


def main():
    words = sys.argv[1:]
    span = int(words.pop(words.index("--span") + 1)) if "--span" in words else 180
    names = [word for word in words if word != "--span"] or ["at-once", "as-it-comes"]
    if not set(names) <= {"at-once", "as-it-comes"}:
        sys.exit("bench/aggregator.py [at-once] [as-it-comes] [--span SECONDS]")
    need_program()
    if shutil.which(COMMAND) is None:
        sys.exit("no carbon-aggregator: apt-get install graphite-carbon")
    their_rules = rules_without_last()
    are_known = [run(name, span, their_rules) for name in names]
    sys.exit(0 if all(are_known) else 1)


if __name__ == "__main__":
    main()
