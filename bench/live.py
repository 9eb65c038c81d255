"""The built program while it runs a script, for the benches: what it is told, what it answers, and what it has taken so far."""
import os
import re
import subprocess
import sys
import tempfile
import time

HERE = os.path.dirname(os.path.abspath(__file__))
PROGRAM = os.path.abspath(os.path.join(HERE, "..", "crates", "carbon", "out", "carbon"))
MEMORY = "/dev/shm" if os.path.isdir("/dev/shm") else None


def need_program():
    if not os.path.exists(PROGRAM):
        sys.exit("no program yet; run ./carbon build")


def folder():
    """A new folder in memory, where there is such a place."""
    return tempfile.TemporaryDirectory(dir=MEMORY)


def class_of(path, hashed=2166136261 % 16):
    """The class of a path: its hash modulo 16, for which the last four bits of the hash are enough. It may be told in pieces."""
    for byte in path:
        hashed = (hashed ^ byte) * 16777619 % 16
    return hashed


def write_rules(folder, schemas, aggregations=b""):
    os.makedirs(os.path.join(folder, "conf"), exist_ok=True)
    for name, text in ("schemas", schemas), ("aggregation", aggregations):
        with open(os.path.join(folder, "conf", "storage-%s.conf" % name), "wb") as file:
            file.write(text)


class Script:
    """`carbon script` in this folder. It waits for the next line after each that was answered."""

    def __init__(self, folder, words=(), under=()):
        self.said = tempfile.TemporaryFile()
        command = [*under, PROGRAM, "script", *words]
        self.process = subprocess.Popen(
            command, stdin=subprocess.PIPE, stdout=subprocess.PIPE, stderr=self.said, cwd=folder
        )

    def tell(self, text):
        """Lines without an answer."""
        self.process.stdin.write(text)
        self.process.stdin.flush()

    def ask(self, line):
        """The answer to a line: the first line of it."""
        self.tell(line)
        answer = self.process.stdout.readline()
        if not answer.endswith(b"\n"):
            sys.exit("the program ended: %r" % answer[:200])
        return answer

    def settle(self):
        """All lines so far are read and obeyed, and what they still answered is passed over. Its bytes."""
        length = 0
        answer = self.ask(b"!\n")
        while answer != b"bad command\n":
            length += len(answer)
            answer = self.process.stdout.readline()
            if answer == b"":
                sys.exit("the program ended")
        return length

    def seconds(self):
        """Processor time so far, and the kernel's part of it. That is told in ticks, and only roughly where it is short."""
        both, program, all = (time.clock_gettime((~self.process.pid << 3) | kind) for kind in (0, 1, 2))
        return all, both - program

    def memory(self):
        """Bytes of memory that are held now, and the most that were."""
        with open("/proc/%d/status" % self.process.pid) as file:
            lines = dict(line.split(":", 1) for line in file)
        return tuple(int(lines[name].split()[0]) * 1024 for name in ("VmRSS", "VmHWM"))

    def calls(self):
        """Reads and writes so far, those of the script's own lines and answers too."""
        with open("/proc/%d/io" % self.process.pid) as file:
            numbers = dict(line.split(": ") for line in file)
        return int(numbers["syscr"]) + int(numbers["syscw"])

    def leave(self):
        """Ends the script with no drain of what is pending: the next answer finds no reader. What it said on its way out."""
        self.process.stdout.close()
        self.tell(b"!\n")
        self.process.stdin.close()
        if self.process.wait() != 7:
            sys.exit("unexpected status %d" % self.process.returncode)
        self.said.seek(0)
        return self.said.read().decode()


class Counted(Script):
    """The same under callgrind, which counts instructions at the lines that are to be counted alone. It leaves its counts beside this name."""

    def __init__(self, folder, counts, words=()):
        self.counts = counts
        self.dumps = 0
        super().__init__(
            folder, words, ["valgrind", "--tool=callgrind", "--instr-atstart=no", "--callgrind-out-file=" + counts]
        )
        self.settle()
        self.control("instrumentation", "off")

    def control(self, *words):
        told = subprocess.run(["vgdb", "--pid=%d" % self.process.pid, *words], stderr=subprocess.PIPE)
        if told.returncode != 0:
            sys.exit(told.stderr.decode())

    def dumped(self):
        self.control("dump", "bench")
        self.dumps += 1
        with open("%s.%d" % (self.counts, self.dumps)) as file:
            return int(re.search(r"^totals: (\d+)", file.read(), re.MULTILINE).group(1))

    def count(self, lines):
        """The instructions of these lines, and their answers."""
        self.control("instrumentation", "on")
        self.dumped()
        answers = [self.ask(line) for line in lines]
        counted = self.dumped()
        self.control("instrumentation", "off")
        return counted, answers
