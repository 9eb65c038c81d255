#!/usr/bin/env python3
"""What a drain through the log brings to the device, and in which order: a script with --redo under strace.

Usage: bench/synced.py [PROGRAM..]        (the words that run `carbon script --redo`; the built program where none are said)

Two metrics are drained, one of them twice, and the system's calls are looked at in their order. Then the same is run once more over the folder, as if
all that is there had been left by a process that was killed, with nothing of it on the device. For the folder of each class:

  the gate    when its byte is written, or it is made, all else that was written, cut or made there is on the device: each file by an fsync of it,
              each name by one of the folder that has it, and the name of the class's own folder too
  all else    when it is written, cut or made, the gate is on the device
  at the end  everything is

Files that only lie there are no matter in the first run. Each breach is printed, then how often a gate was written; the status is 1 where there is a breach, or no gate.
That the device has what an fsync brought is the system's part. Needs strace, and ./carbon build first.
"""
import os
import re
import subprocess
import sys
import tempfile

from live import PROGRAM, need_program

SCRIPT = b"a.b 1.5 1700000000\n!drain\na.b 2.5 1700000040\nservers.web01.load 2 1700000100\n"
WRITES = "write,writev,pwrite64,pwritev,pwritev2,ftruncate,fallocate"
NAMES = "open,openat,creat,mkdir,mkdirat,rename,renameat2,unlink,unlinkat"
CALLS = ",".join((WRITES, NAMES, "fsync,fdatasync"))
CALL = re.compile(r"^\d+ +(\w+)\((.*)\) += (-?\d+)")
FILE = re.compile(r"^(?:AT_FDCWD|\d+)<([^>]*)>")
TEXT = re.compile(r'"((?:[^"\\]|\\.)*)"')


def traced(words, folder):
    """The calls that succeeded: the name of each, its path, and all that it was given."""
    told = os.path.join(folder, "calls")
    run = ["strace", "-f", "-y", "-qq", "-e", "trace=" + CALLS, "-o", told, *words]
    subprocess.run(run, input=SCRIPT, cwd=folder, stdout=subprocess.DEVNULL, check=True)
    with open(told, encoding="utf-8", errors="replace") as lines:
        for line in lines:
            found = CALL.match(line)
            if found and not found[3].startswith("-"):
                yield found[1], path_of(found[1], found[2], folder), found[2]


def path_of(name, given, folder):
    """The path that a call is about: one in its words, or that of the file it has open."""
    at, text = FILE.match(given), TEXT.search(given)
    base = at[1] if at else folder
    if name in NAMES.split(",") and text:
        base = os.path.join(base, text[1])
    return os.path.normpath(base)


class Folder:
    """The folder of a class: which files, and which names, await the device there."""

    def __init__(self, path):
        self.path, self.gate = path, path + "/redo.gate"
        self.files, self.names, self.faults = set(), set(), []

    def leave(self):
        """A process was killed: all that is there awaits the device."""
        for above, inner, names in os.walk(self.path):
            self.files.update(os.path.join(above, name) for name in names)
            self.names.update(os.path.join(above, name) for name in names + inner)
            self.names.add(self.path)

    def touch(self, path, what):
        waits = self.files | self.names
        waits = waits - {self.gate} if path == self.gate else waits & {self.gate}
        for other in sorted(waits):
            self.faults.append("%s %s before %s is on the device" % (what, path, other))

    def take(self, name, path, given):
        if name in ("fsync", "fdatasync"):
            self.files.discard(path)
            self.names = {it for it in self.names if os.path.dirname(it) != path}
        elif name.startswith("mkdir") and path == self.path:
            self.names.add(path)
        elif path.startswith(self.path + "/"):
            self.change(name, path, given)

    def change(self, name, path, given):
        if name.startswith("mkdir"):
            self.names.add(path)
        elif name.startswith("open") and "O_EXCL" not in given:
            pass
        elif name.startswith(("open", "creat")):
            self.touch(path, "making")
            self.names.add(path)
            self.files.add(path)
        elif name.startswith(("rename", "unlink")):
            self.files.discard(path)
            self.names.discard(path)
        else:
            self.touch(path, "writing" if "write" in name else "cutting")
            self.files.add(path)

    def end(self):
        for path in sorted(self.files | self.names):
            self.faults.append("at the end %s is not on the device" % path)


def run(words, above, folders):
    """One run; how often a gate was written in it."""
    gates = 0
    for name, path, given in traced(words, above):
        gates += name in WRITES.split(",") and path.endswith("/redo.gate") and "write" in name
        for folder in folders:
            folder.take(name, path, given)
    for folder in folders:
        folder.end()
    return gates


def main():
    words = sys.argv[1:]
    if not words:
        need_program()
        words = [PROGRAM, "script", "--redo"]
    with tempfile.TemporaryDirectory() as above:
        above = os.path.realpath(above)
        folders = [Folder("%s/data/%02d" % (above, class_)) for class_ in range(16)]
        gates = run(words, above, folders)
        for folder in folders:
            folder.leave()
        gates += run(words, above, folders)
    faults = [fault.replace(above + "/", "") for folder in folders for fault in folder.faults]
    for fault in faults:
        print(fault)
    print("%d gates were opened or closed, %d breaches" % (gates, len(faults)))
    return 1 if faults or gates == 0 else 0


if __name__ == "__main__":
    sys.exit(main())
