#!/usr/bin/env python3
"""What the proof of a crate costs, by function: processor seconds and the size of its longest module, while `rt ci` runs.

Usage: bench/function_costs.py CRATE [COMMAND..]      (rt ci CRATE without words), at the top of the repository

Runs the command, and looks each second at the processes of the prover at work on the crate, wherever they were started: the crate's own proof
and that of its tests are told apart. The prover lays each module down in a folder of its own as it ends with it; between two of them lies what the
later one took. Nearly all of a function's time goes into one module, in which each step of its body stands with all that it owns: its size hardly
changes from run to run, where seconds rise with the machine's load, so that two forms of a function are best compared by their sizes. What is told
goes by one process: with several jobs only what the first of them did is seen.

With `--watch SECONDS` in place of a command it starts nothing, and looks at what runs on the machine for so long.
"""
import bisect
import collections
import os
import re
import subprocess
import sys
import time

TICKS = os.sysconf("SC_CLK_TCK")
LONG = ".Lts.oantt"
MOST = 40


class Proof:
    """One process of the prover: its processor seconds at moments, and when each module was there."""

    def __init__(self, title):
        self.title = title
        self.moments = []
        self.seconds = []
        self.modules = {}

    def look(self, pid, seconds, crate):
        self.moments.append(time.time())
        self.seconds.append(seconds)
        folder = "/tmp/rattle-logic-built-locked-%d-0" % pid
        try:
            with os.scandir(folder) as files:
                for file in files:
                    if file.name.startswith("Rattle-%s-" % crate) and file.name not in self.modules and file.name.endswith(".oantt"):
                        said = file.stat()
                        self.modules[file.name] = (said.st_mtime, said.st_size)
        except OSError:
            pass

    def spent_at(self, moment):
        """The processor seconds at a moment, on a line between those that were seen."""
        at = bisect.bisect_left(self.moments, moment)
        if at in (0, len(self.moments)):
            return self.seconds[min(at, len(self.moments) - 1)]
        before, behind = self.moments[at - 1], self.moments[at]
        share = (moment - before) / (behind - before)
        return self.seconds[at - 1] + share * (self.seconds[at] - self.seconds[at - 1])

    def tell(self):
        rows = sorted((moment, size, name) for name, (moment, size) in self.modules.items())
        if not rows:
            print("%s: no module was seen" % self.title)
            return
        spent, sizes = collections.Counter(), collections.Counter()
        last = first = self.spent_at(rows[0][0])
        for moment, size, name in rows:
            now = self.spent_at(moment)
            function = re.sub(r"^Rattle-\w+-\w+\.(contracts\.)?", "", name).rsplit(".", 2)[0].removesuffix(".Code")
            spent[function] += now - last
            last = now
            if name.endswith(LONG):
                sizes[function] += size
        print("%s: %.0f seconds, of them %.0f before the first module; %d functions" % (self.title, self.seconds[-1], first, len(sizes)))
        print("    seconds  MB of its longest module")
        for function, seconds in spent.most_common(MOST):
            if seconds >= 0.05:
                print("    %7.1f %6.2f  %s" % (seconds, sizes[function] / 1e6, function))


def look_at_all(crate, proofs):
    for name in os.listdir("/proc"):
        if not name.isdigit():
            continue
        try:
            with open("/proc/%s/cmdline" % name, "rb") as file:
                words = file.read().decode(errors="replace").split("\0")
            if os.path.basename(words[0]) != "rattle" or "--crate-name" not in words or words[words.index("--crate-name") + 1] != crate:
                continue
            with open("/proc/%s/stat" % name) as file:
                fields = file.read().rsplit(")", 1)[1].split()
        except (OSError, ValueError, IndexError):
            continue
        title = crate + (": its tests" if "--test" in words else "")
        proof = proofs.setdefault((name, fields[19]), Proof(title))
        proof.look(int(name), sum(int(fields[at]) for at in (11, 12)) / TICKS, crate)


def main():
    if len(sys.argv) < 2 or sys.argv[1].startswith("-"):
        sys.exit(__doc__)
    crate, command = sys.argv[1], sys.argv[2:] or ["rt", "ci", sys.argv[1]]
    proofs, process, until = {}, None, time.time()
    if command[0] == "--watch":
        until += float(command[1])
    else:
        process = subprocess.Popen(command)
    while process.poll() is None if process else time.time() < until:
        look_at_all(crate, proofs)
        time.sleep(1)
    for proof in proofs.values():
        proof.tell()
    sys.exit(process.returncode if process else 0)


main()
