#!/usr/bin/env python3
"""Drains through the built program into a new folder, and again into the files that are there by then.

Usage: bench/drains.py [FOLDER]

Each script puts its points and drains them all, into a new folder in FOLDER, /dev/shm unless another is named: a folder in memory, so that the
file system's own work stays small. On ext4 files are made slowly for some minutes after many were deleted, by any program; name a folder of a
disk where none were. What is printed is of the drain alone, the reading of the lines taken off: processor seconds, and the kernel's part of them
in ticks, microseconds for each metric, reads and writes of files for each point, as the kernel counts them (making and opening files is not in
them), and the bytes for each metric that the files take on the disk and that they span. The rows of files of three archives are by a rule file,
and of files made empty beforehand. The last rows are those of bench/drains_c.c, which makes the same calls of the system and nothing else, where
there is a C compiler, and of whisper, where python3 has it. At the end stands how often a ring file is opened for each drained metric: the calls of
the system that succeed, under strace, where it is installed. Nothing is checked beyond the summary, and nothing timed here is a test. Run ./carbon
once to build the program.
"""
import os
import re
import resource
import shutil
import struct
import subprocess
import sys
import tempfile

from live import HERE, MEMORY, Script, class_of, need_program, write_rules

NOW = 1_700_000_030


def script(metrics, points, first):
    lines = ["!clock %d\n" % NOW]
    for k in range(points):
        lines += ["servers.web%04d.load %d.25 %d\n" % (m, k, first + 60 * k) for m in range(metrics)]
    return "".join(lines).encode()


ARCHIVES = [(60, 1440), (300, 8640), (3600, 43800)]  # 60s:1d,5m:30d,1h:5y


def make_files(folder, metrics):
    """Empty ring files of three archives, average, half of the values known: sparse, as a drain makes them."""
    head = struct.pack(">4I", 513, ARCHIVES[-1][0] * ARCHIVES[-1][1], 500_000, len(ARCHIVES))
    offset = 16 + 12 * len(ARCHIVES)
    for step, points in ARCHIVES:
        head += struct.pack(">3I", offset, step, points)
        offset += 20 * points
    for m in range(metrics):
        path = "servers.web%04d.load" % m
        name = os.path.join(folder, "data", "%02d" % class_of(path.encode()), path.replace(".", "/") + ".ring")
        os.makedirs(os.path.dirname(name), exist_ok=True)
        with open(name, "wb") as file:
            file.write(head)
            file.truncate(offset)


SCHEMAS = b"[all]\npattern = .*\nretentions = 60s:1d,5m:30d,1h:5y\n"


def run(text, folder, metrics):
    """Processor seconds of a drain, the kernel's part of them, and its reads and writes."""
    script = Script(folder, ["--limit", "10000000"])
    script.tell(text)
    script.settle()
    before, calls = script.seconds(), script.calls()
    said = script.ask(b"!drain\n")
    after, calls = script.seconds(), script.calls() - calls - 2
    script.leave()
    if said != b"drained %d\n" % metrics:
        sys.exit("unexpected output: %r" % said[:200])
    return after[0] - before[0], after[1] - before[1], calls


def sizes(folder):
    """Bytes that the ring files take on the disk, and that they span."""
    taken = spanned = 0
    for place, _, names in os.walk(os.path.join(folder, "data")):
        for name in names:
            found = os.stat(os.path.join(place, name))
            taken += found.st_blocks * 512
            spanned += found.st_size
    return taken, spanned


def row(name, metrics, seconds, kernel, rest=""):
    print("%-62s %8.3f %8.2f %9.1f%s" % (name, seconds, kernel, 1e6 * seconds / metrics, rest), flush=True)


def report(name, metrics, points, folder):
    text = script(metrics, points, NOW - 30 - 60 * points)
    seconds, kernel, calls = run(text, folder, metrics)
    taken, spanned = sizes(folder)
    rest = " %9.3f %10.0f %10.0f" % (calls / (metrics * points), taken / metrics, spanned / metrics)
    row(name, metrics, seconds, kernel, rest)


def child_seconds(command, folder):
    """Processor seconds of another program, and the kernel's part of them."""
    before = resource.getrusage(resource.RUSAGE_CHILDREN)
    subprocess.run(command, cwd=folder, check=True)
    after = resource.getrusage(resource.RUSAGE_CHILDREN)
    kernel = after.ru_stime - before.ru_stime
    return after.ru_utime - before.ru_utime + kernel, kernel


def with_c(root, metrics):
    compiler = shutil.which("cc") or shutil.which("gcc")
    if compiler is None:
        print("no C compiler")
        return
    with tempfile.TemporaryDirectory(dir=root) as folder:
        program = os.path.join(folder, "drains_c")
        subprocess.run([compiler, "-O2", "-o", program, os.path.join(HERE, "drains_c.c")], check=True)
        for files in ("new", "there"):
            row("the same calls in C, %s" % files, metrics, *child_seconds([program, str(metrics), files], folder))


WHISPER = """
import os, sys, whisper
metrics, first = int(sys.argv[1]), int(sys.argv[2])
whisper.time.time = lambda: %d
points = [(first + 60 * k, k + 0.25) for k in range(100)]
for m in range(metrics):
    name = "servers/web%%04d/load.wsp" %% m
    if not os.path.exists(name):
        os.makedirs(os.path.dirname(name), exist_ok=True)
        whisper.create(name, [(60, 1440), (300, 8640), (3600, 43800)], 0.5, "average", True)
    whisper.update_many(name, points, %d)
""" % (NOW, NOW)


def with_whisper(root, metrics):
    pythons = [sys.executable, "/usr/bin/python3"]
    found = [p for p in pythons if os.path.exists(p) and subprocess.run([p, "-c", "import whisper"], stderr=subprocess.DEVNULL).returncode == 0]
    if not found:
        print("no whisper")
        return
    with tempfile.TemporaryDirectory(dir=root) as folder:
        command = [found[0], "-c", WHISPER, str(metrics), str(NOW - 30 - 6_000)]
        for files in ("new", "there"):
            row("whisper, %s" % files, metrics, *child_seconds(command, folder))


OPENED = re.compile(rb'^.*\bopen(?:at)?\(.*\.ring", .* = \d+$', re.MULTILINE)


def opens(text, folder, metrics):
    """How often a ring file is opened in a drain."""
    with tempfile.NamedTemporaryFile() as told:
        strace = ["strace", "-f", "-qq", "-e", "trace=open,openat", "-o", told.name]
        script = Script(folder, ["--limit", "10000000"], strace)
        script.tell(text)
        script.settle()
        told.seek(0, os.SEEK_END)
        said = script.ask(b"!drain\n")
        calls = told.read()
        script.leave()
    if said != b"drained %d\n" % metrics:
        sys.exit("unexpected output: %r" % said[:200])
    return len(OPENED.findall(calls))


def with_strace(root, metrics, points):
    if shutil.which("strace") is None:
        print("no strace")
        return
    text = script(metrics, points, NOW - 30 - 60 * points)
    with tempfile.TemporaryDirectory(dir=root) as folder:
        write_rules(folder, SCHEMAS)
        for files in ("new", "there"):
            count = opens(text, folder, metrics)
            name = "60s:1d,5m:30d,1h:5y, %d metrics, %d points, %s" % (metrics, points, files)
            print("%-62s %8.3f opens of a ring file for each metric" % (name, count / metrics), flush=True)


def main():
    need_program()
    root = sys.argv[1] if len(sys.argv) > 1 else MEMORY
    head = ("drain", "seconds", "kernel", "us/metric", "calls/pt", "taken/m", "spanned/m")
    print("%-62s %8s %8s %9s %9s %10s %10s" % head)
    for metrics, points in [(10_000, 1), (100, 1000), (10_000, 100)]:
        with tempfile.TemporaryDirectory(dir=root) as folder:
            for files in ["new", "there"]:
                report("%d metrics, %d points each, %s" % (metrics, points, files), metrics, points, folder)
    for metrics, points in [(10_000, 1), (10_000, 100)]:
        with tempfile.TemporaryDirectory(dir=root) as folder:
            write_rules(folder, SCHEMAS)
            for files in ["new", "there"]:
                name = "60s:1d,5m:30d,1h:5y, %d metrics, %d points, %s" % (metrics, points, files)
                report(name, metrics, points, folder)
    with tempfile.TemporaryDirectory(dir=root) as folder:
        make_files(folder, 10_000)
        for files in ["empty files", "the same again"]:
            report("60s:1d,5m:30d,1h:5y, 10000 metrics, 100 points, %s" % files, 10_000, 100, folder)
    with_c(root, 10_000)
    with_whisper(root, 10_000)
    with_strace(root, 1_000, 100)


if __name__ == "__main__":
    main()
