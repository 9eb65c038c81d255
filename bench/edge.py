#!/usr/bin/env python3
"""The edge of the built program: bad files, folders that cannot be written, slow and broken clients, and how it stops.

Usage: bench/edge.py [WORD..]      (all cases without a word; else those whose name holds one)
       bench/edge.py --list

Each case runs the program over a folder in memory and real sockets, and prints `ok` or what it found instead, with its seconds. What is shown is
what a sender, a dashboard or an operator sees: exit statuses, lines, replies, files. Cases that wait for a patience take as long as that, up to
a minute and a half. Those that need another user's rights, few descriptors or a small file system are passed over, and say so, where this user may
not have them. The exit status is 1 where a case found something else. Run ./carbon build first.
"""
import contextlib
import os
import re
import resource
import shutil
import signal
import socket
import struct
import subprocess
import sys
import tempfile
import threading
import time
import urllib.parse

from live import HERE, PROGRAM, class_of, folder, need_program, write_rules

LAUNCHER = os.path.abspath(os.path.join(HERE, "..", "carbon"))
PORTS = re.compile(r"carbon: lines on (\d+), HTTP on (\d+)")
NOBODY = 65534
CASES = []


class Passed(Exception):
    """The case cannot be had here."""


def case(function):
    CASES.append(function)
    return function


def want(told, wanted, what):
    if told != wanted:
        raise AssertionError("%s: %r, not %r" % (what, told, wanted))


class Daemon:
    """`carbon serve` in a folder, begun without its launcher unless one is asked for."""

    def __init__(self, place, *words, ports=(0, 0), launched=False, user=None, **more):
        command = [LAUNCHER if launched else PROGRAM, "serve", "--line-port", str(ports[0]), "--http-port", str(ports[1]), *words]
        self.place = place
        self.said = open(os.path.join(place, "stderr.txt"), "w+")
        self.process = subprocess.Popen(
            command, stdin=subprocess.PIPE, stdout=subprocess.PIPE, stderr=self.said, cwd=place, text=True, user=user, **more
        )
        self.line_port = self.http_port = None
        for _ in range(300):
            ports = PORTS.search(self.told())
            if ports:
                self.line_port, self.http_port = int(ports[1]), int(ports[2])
                return
            if self.process.poll() is not None:
                return
            time.sleep(0.02)
        raise AssertionError("no ports after six seconds")

    def told(self):
        with open(self.said.name) as file:
            return file.read()

    def send(self, text, host="127.0.0.1"):
        """Sends lines over a connection of their own, and waits until it is closed."""
        with socket.create_connection((host, self.line_port), timeout=10) as link:
            link.sendall(text.encode())
            link.shutdown(socket.SHUT_WR)
            while link.recv(4096):
                pass

    def ask(self, target, seconds=5, host="127.0.0.1"):
        """The reply to a question: its status and its body."""
        now = int(time.time())
        head = "GET /render?target=%s&from=%d&until=%d&format=raw HTTP/1.0\r\n\r\n" % (target, now - 600, now)
        reply = exchange(self.http_port, head.encode(), seconds, host)
        front, _, body = reply.partition(b"\r\n\r\n")
        return int(front.split()[1]), body.decode()

    def stop(self, seconds=30):
        """Tells it to stop, and answers its status, its last line and how long that took."""
        begun = time.time()
        self.process.stdin.write("stop\n")
        self.process.stdin.flush()
        status, line = self.end(seconds)
        return status, line, time.time() - begun

    def end(self, seconds=30):
        out, _ = self.process.communicate(timeout=seconds)
        return self.process.returncode, (out.splitlines() or [""])[-1]

    def kill(self):
        if self.process.poll() is None:
            self.process.kill()
            self.process.wait()

    def spent(self):
        """Seconds of the processor so far."""
        return time.clock_gettime((~self.process.pid << 3) | 2)

    def most_held(self):
        """The most megabytes of memory that it held."""
        with open("/proc/%d/status" % self.process.pid) as file:
            return int(dict(line.split(":", 1) for line in file)["VmHWM"].split()[0]) * 1024 / 1e6


def exchange(port, request, seconds=5, host="127.0.0.1"):
    """All that comes back for a request, up to the end of the connection."""
    with socket.create_connection((host, port), timeout=seconds) as link:
        link.sendall(request)
        reply = b""
        while True:
            piece = link.recv(65536)
            if not piece:
                return reply
            reply += piece


@contextlib.contextmanager
def serving(*words, place=None, **more):
    with contextlib.ExitStack() as stack:
        if place is None:
            place = stack.enter_context(folder())
        daemon = Daemon(place, *words, **more)
        stack.callback(daemon.kill)
        yield daemon


def path_of(place, metric):
    return os.path.join(place, "data", "%02d" % class_of(metric.encode()), metric.replace(".", "/") + ".ring")


def script(place, text):
    ran = subprocess.run([PROGRAM, "script"], input=text, cwd=place, capture_output=True, text=True, timeout=60)
    return ran.returncode, ran.stdout, ran.stderr


def point(metric, value=1):
    return "%s %s %d\n" % (metric, value, int(time.time()))


def settled(found, seconds=10):
    """Waits until this is so, and says whether it came to be."""
    for _ in range(int(seconds * 50)):
        if found():
            return True
        time.sleep(0.02)
    return False


# ---- files and folders


@case
def a_file_that_is_a_link_is_refused_at_the_start():
    with folder() as place:
        want(script(place, "a.b 1 1700000000\n")[0], 0, "a first run")
        ring = path_of(place, "a.b")
        os.rename(ring, os.path.join(place, "kept.ring"))
        os.symlink(os.path.join(place, "kept.ring"), ring)
        before = open(os.path.join(place, "kept.ring"), "rb").read()
        with serving(place=place) as daemon:
            status, line = daemon.end()
            want((status, line), (5, "carbon: disk fault class %d" % class_of(b"a.b")), "status and line")
            want("neither a plain file nor a folder" in daemon.told(), True, "the reason on standard error")
        want(open(os.path.join(place, "kept.ring"), "rb").read(), before, "the file behind the link")


@case
def a_file_that_is_put_back_while_it_serves_keeps_its_points():
    with folder() as place:
        want(script(place, "".join("a.b %d %d\n" % (k, 1700000000 + 60 * k) for k in range(50)))[0], 0, "a first run")
        ring = path_of(place, "a.b")
        kept = os.path.join(place, "kept.ring")
        os.rename(ring, kept)
        with serving(place=place) as daemon:
            shutil.copy(kept, ring)
            daemon.send(point("a.b"))
            want(settled(lambda: "a file is there" in daemon.told()), True, "the reason on standard error")
            want(daemon.ask("a.b")[0], 200, "a question meanwhile")
            daemon.stop()
        want(open(ring, "rb").read(), open(kept, "rb").read(), "the file that was put back")


def cells_of(ring):
    """The cells of a ring file of either version, each its bucket and its thousandths."""
    with open(ring, "rb") as file:
        data = file.read()
    begin, width = 16 + 12 * int.from_bytes(data[12:16], "big"), 20 if data[2] else 12
    cells = [data[at : at + width] for at in range(begin, len(data), width)]
    return [(int.from_bytes(cell[:4], "big"), int.from_bytes(cell[4:], "big", signed=True)) for cell in cells]


@case
def files_of_version_1_are_made_anew_with_all_that_they_held():
    metrics = ["old." + method for method in "average sum last max min avg_zero absmax absmin".split()] + ["ends.both", "ends.late"]
    with folder() as place:
        shutil.copytree(os.path.join(HERE, "..", "crates", "carbon", "data"), place, dirs_exist_ok=True)
        shutil.rmtree(os.path.join(place, "data", "15", "p.ring"))
        rings = [path_of(place, metric) for metric in metrics]
        before = [cells_of(ring) for ring in rings]
        with serving(place=place) as daemon:
            # older than all that their archives reach back
            daemon.send("".join("%s 1 1500000000\n" % metric for metric in metrics))
            want(settled(lambda: all(open(ring, "rb").read(3) == b"\0\0\2" for ring in rings)), True, "the version of the files")
            status, line, _ = daemon.stop()
            want((status, line), (0, "stored 10 replaced 0 full 0 drains 10"), "the stop")
        want([cells_of(ring) for ring in rings], before, "what the files hold")
        want([len(cells) > 10 for cells in before], [True] * len(rings), "what they held")
        with serving(place=place) as daemon:
            want(daemon.stop()[0], 0, "another start")


@case
def a_file_of_version_1_that_is_put_back_while_it_serves_is_left_alone():
    with folder() as place:
        with serving(place=place) as daemon:
            ring = path_of(place, "d")
            os.makedirs(os.path.dirname(ring), exist_ok=True)
            shutil.copy(os.path.join(HERE, "..", "crates", "carbon", "data", "data", "03", "d.ring"), ring)
            kept = open(ring, "rb").read()
            daemon.send(point("d"))
            want(settled(lambda: "a file is there" in daemon.told()), True, "the reason on standard error")
            want(open(ring, "rb").read(), kept, "the file")
            daemon.stop()
        want(open(ring, "rb").read(), kept, "the file behind the stop")


@case
def a_file_that_is_removed_while_it_serves_is_told_and_holds_up_its_class_alone():
    with folder() as place:
        want(script(place, "a.b 1 1700000000\n")[0], 0, "a first run")
        ring = path_of(place, "a.b")
        kept = open(ring, "rb").read()
        with serving(place=place) as daemon:
            os.remove(ring)
            daemon.send(point("a.b", 7) + point("b.c", 8))
            want(settled(lambda: ring[len(place) + 1 :] in daemon.told()), True, "the file on standard error")
            want(settled(lambda: os.path.exists(path_of(place, "b.c"))), True, "another class")
            open(ring, "wb").write(kept)
            want(settled(lambda: open(ring, "rb").read() != kept), True, "the drain, once the file is back")
            status, line, _ = daemon.stop()
            want((status, line), (0, "stored 2 replaced 0 full 0 drains 2"), "the stop")


@case
def a_file_that_is_cut_while_it_serves_does_not_grow_again():
    with folder() as place:
        want(script(place, "a.b 1 1700000000\n")[0], 0, "a first run")
        ring = path_of(place, "a.b")
        with serving(place=place) as daemon:
            with open(ring, "r+b") as file:
                file.truncate(100)
            daemon.send(point("a.b", 7))
            want(settled(lambda: "shorter than it was" in daemon.told()), True, "the reason on standard error")
            daemon.stop()
        want(os.path.getsize(ring), 100, "its length")


@case
def a_file_that_is_replaced_while_it_serves_is_told_and_the_new_one_is_written():
    with folder() as place:
        want(script(place, "a.b 1 1700000000\n")[0], 0, "a first run")
        ring = path_of(place, "a.b")
        other = os.path.join(place, "other.ring")
        first = open(ring, "rb").read()
        with serving(place=place) as daemon:
            daemon.send(point("a.b", 7))
            want(settled(lambda: open(ring, "rb").read() != first), True, "a drain")
            time.sleep(0.3)
            second = open(ring, "rb").read()
            with open(other, "wb") as file:
                file.write(second)
            os.rename(other, ring)
            daemon.send("a.b 8 %d\n" % (time.time() + 60))
            want(settled(lambda: "removed or replaced" in daemon.told()), True, "the reason on standard error")
            want(settled(lambda: open(ring, "rb").read() != second), True, "the next drain, in the file that has the name now")
            want(daemon.stop()[0:2], (0, "stored 2 replaced 0 full 0 drains 2"), "the stop")


@case
def a_pipe_in_the_place_of_a_file_holds_up_its_class_alone():
    with folder() as place:
        want(script(place, "a.b 1 1700000000\n")[0], 0, "a first run")
        ring = path_of(place, "a.b")
        kept = open(ring, "rb").read()
        with serving(place=place) as daemon:
            os.remove(ring)
            os.mkfifo(ring)
            daemon.send(point("a.b", 7) + point("b.c", 8))
            want(settled(lambda: "no plain file" in daemon.told()), True, "the reason on standard error")
            want(settled(lambda: os.path.exists(path_of(place, "b.c"))), True, "another class")
            want(daemon.ask("a.b")[0], 500, "a question that reads it")
            os.remove(ring)
            open(ring, "wb").write(kept)
            want(daemon.stop()[0:2], (0, "stored 2 replaced 0 full 0 drains 2"), "the stop, once the file is back")


@case
def a_folder_that_becomes_a_link_is_told_and_nothing_is_written_behind_it():
    with folder() as place:
        want(script(place, "a.b.c 1 1700000000\n")[0], 0, "a first run")
        inner = os.path.dirname(path_of(place, "a.b.c"))
        # the file that is drained last stays open: that of another metric of the class
        other = next(name for name in map("o%d".__mod__, range(1000)) if class_of(name.encode()) == class_of(b"a.b.c"))
        with serving(place=place) as daemon:
            daemon.send(point(other))
            want(settled(lambda: os.path.exists(path_of(place, other))), True, "the drain of another metric")
            time.sleep(0.5)
            os.rename(inner, os.path.join(place, "kept"))
            os.symlink(os.path.join(place, "kept"), inner)
            daemon.send(point("a.b.c", 7))
            want(settled(lambda: "it stands behind a/b" in daemon.told()), True, "the reason on standard error")
            want(daemon.stop()[0], 5, "the stop")
        want(os.listdir(os.path.join(place, "kept")), ["c.ring"], "what stands behind it")


@case
def a_folder_that_cannot_be_written_is_refused_at_the_start():
    with own_folder() as place:
        os.makedirs(os.path.join(place, "data", "03"))
        os.chmod(os.path.join(place, "data", "03"), 0o555)
        as_nobody(place)
        os.chmod(os.path.join(place, "data", "03"), 0o555)
        with serving(place=place, user=NOBODY) as daemon:
            want(daemon.end(), (5, "carbon: disk fault class 3"), "status and line")


@case
def a_folder_that_cannot_be_read_is_no_empty_folder():
    with own_folder() as place:
        want(script(place, "a.b 1 1700000000\n")[0], 0, "a first run")
        as_nobody(place)
        inner = os.path.dirname(path_of(place, "a.b"))
        os.chmod(inner, 0o000)
        with serving(place=place, user=NOBODY) as daemon:
            want(daemon.end(), (5, "carbon: disk fault class %d" % class_of(b"a.b")), "status and line")


@case
def a_file_that_cannot_be_read_is_no_new_metric():
    with own_folder() as place:
        want(script(place, "a.b 1 1700000000\n")[0], 0, "a first run")
        as_nobody(place)
        os.chmod(path_of(place, "a.b"), 0o000)
        with serving(place=place, user=NOBODY) as daemon:
            want(daemon.end(), (5, "carbon: disk fault class %d" % class_of(b"a.b")), "status and line")


@case
def a_rule_file_that_cannot_be_read_is_no_empty_one():
    with own_folder() as place:
        os.makedirs(os.path.join(place, "conf"))
        open(os.path.join(place, "conf", "storage-schemas.conf"), "w").write("[a]\npattern = .*\nretentions = 60:10\n")
        as_nobody(place)
        os.chmod(os.path.join(place, "conf", "storage-schemas.conf"), 0o000)
        with serving(place=place, user=NOBODY) as daemon:
            want(daemon.end()[0], 5, "status")


@case
def a_folder_of_rules_that_cannot_be_searched_is_not_without_rules():
    with own_folder() as place:
        os.makedirs(os.path.join(place, "conf"))
        as_nobody(place)
        os.chmod(os.path.join(place, "conf"), 0o600)
        with serving(place=place, user=NOBODY) as daemon:
            want(daemon.end(), (5, "carbon: disk fault conf"), "status and line")


@contextlib.contextmanager
def own_folder():
    """A folder whose files may be another user's."""
    with tempfile.TemporaryDirectory() as place:
        os.chmod(place, 0o755)
        yield place
        for root, folders, _ in os.walk(place):
            for name in folders:
                os.chmod(os.path.join(root, name), 0o755)


def as_nobody(place):
    if os.geteuid() != 0:
        raise Passed("only root has another user's rights")
    for root, folders, files in os.walk(place):
        os.chown(root, NOBODY, NOBODY)
        for name in folders + files:
            os.chown(os.path.join(root, name), NOBODY, NOBODY)


@contextlib.contextmanager
def small_disk(options):
    """A folder that is a file system of its own."""
    with tempfile.TemporaryDirectory() as place:
        if os.geteuid() != 0 or subprocess.run(["mount", "-t", "tmpfs", "-o", options, "carbon", place]).returncode:
            raise Passed("no file system can be mounted")
        try:
            yield place
        finally:
            subprocess.run(["umount", "--lazy", place])


@case
def a_full_disk_loses_nothing_but_what_cannot_be_written():
    with small_disk("size=1m") as place:
        with serving(place=place) as daemon:
            daemon.send("".join(point("m.n%d" % k) for k in range(600)))
            want(settled(lambda: "No space left" in daemon.told()), True, "the reason on standard error")
            want(daemon.ask("m.n599")[0], 200, "a question meanwhile")
            status, line, took = daemon.stop()
            want(status, 5, "the status of a stop that cannot write")


def take_inodes(place):
    """Makes files until there is no inode left, and tells which."""
    names = []
    with contextlib.suppress(OSError):
        for k in range(10_000):
            name = os.path.join(place, "filler%d" % k)
            open(name, "x").close()
            names.append(name)
    return names


@case
def a_file_that_cannot_be_made_holds_up_its_class_alone():
    with small_disk("size=100m,nr_inodes=400") as place:
        want(script(place, "".join(point("o.n%d" % k) for k in range(100)))[0], 0, "a first run")
        with serving(place=place) as daemon:
            fillers = take_inodes(place)
            daemon.send(point("new.metric"))
            want(settled(lambda: "new/metric.ring: No space left" in daemon.told()), True, "the reason on standard error")
            begun = time.time()
            daemon.send("".join("o.n%d 2 %d\n" % (k, time.time() + 60) for k in range(100)))
            others = [path_of(place, "o.n%d" % k) for k in range(100) if class_of(b"o.n%d" % k) != class_of(b"new.metric")]
            changed = lambda: sum(os.path.getmtime(path) > begun for path in others)
            want(settled(lambda: changed() == len(others), 5), True, "drains of the other classes in five seconds")
            want(daemon.ask("new.metric")[1].count("\n"), 1, "the new metric, which is shown meanwhile")
            for name in fillers:
                os.remove(name)
            want(settled(lambda: os.path.exists(path_of(place, "new.metric"))), True, "its file, once there is room")
            want(daemon.stop()[0:2], (0, "stored 101 replaced 0 full 0 drains 101"), "the stop")


# ---- one carbon a folder, and what the system gives


@case
def a_second_carbon_in_a_folder_is_refused():
    with serving() as daemon:
        with serving(place=daemon.place) as second:
            want(second.end(), (12, "carbon: folder in use"), "the second one")
        want(script(daemon.place, "")[0:2], (12, "carbon: folder in use\n"), "a script there")
        daemon.kill()
        with serving(place=daemon.place) as again:
            want(again.line_port is not None, True, "one after a kill")


@case
def a_second_carbon_over_the_same_ring_files_is_refused():
    for first_is_linked in False, True:
        with folder() as one, folder() as other:
            os.mkdir(os.path.join(one, "data"))
            os.symlink(os.path.join(one, "data"), os.path.join(other, "data"))
            first, second = (other, one) if first_is_linked else (one, other)
            with serving(place=first):
                with serving(place=second) as daemon:
                    want(daemon.end(), (12, "carbon: folder in use"), "the second one")


@case
def two_carbons_that_start_at_once_lose_nothing():
    with folder() as place:
        both = [Daemon(place), Daemon(place)]
        serving_now = [daemon for daemon in both if daemon.line_port]
        want(len(serving_now), 1, "how many serve")
        serving_now[0].send("".join(point("a.n%d" % k) for k in range(1200)))
        want(serving_now[0].stop()[0:2], (0, "stored 1200 replaced 0 full 0 drains 1200"), "the stop")
        for daemon in both:
            daemon.kill()


@case
def few_descriptors_are_told_at_the_start():
    def few():
        resource.setrlimit(resource.RLIMIT_NOFILE, (60, 60))

    with serving("--receivers", "16", "--renderers", "16", preexec_fn=few) as daemon:
        want(daemon.end(), (13, "carbon: file descriptors: 333 needed, 60 given"), "status and line")


@case
def a_stop_opens_no_more_than_the_start_demands():
    def exact():
        resource.setrlimit(resource.RLIMIT_NOFILE, (333, 333))

    with serving("--receivers", "16", "--renderers", "16", preexec_fn=exact) as daemon:
        senders = [socket.create_connection(("127.0.0.1", daemon.line_port), 5) for _ in range(16 + 120)]
        askers = [socket.create_connection(("127.0.0.1", daemon.http_port), 5) for _ in range(16 + 120)]
        for k, link in enumerate(senders):
            link.sendall(point("a.n%d" % k).encode())
        for link in askers:
            link.sendall(b"GET /metrics/find?query=a HTTP/1.1\r\nHost: a\r\n\r\n")
        want(daemon.stop()[0:2], (0, "stored 136 replaced 0 full 0 drains 136"), "the stop")
        want(sum(link.recv(64).startswith(b"HTTP/1.1 200") for link in askers), 136, "replies to all that waited")
        for link in senders + askers:
            link.close()


@case
def few_threads_are_told_at_the_start():
    def few():
        resource.setrlimit(resource.RLIMIT_NPROC, (20, 20))

    with own_folder() as place:
        as_nobody(place)
        with serving("--receivers", "16", "--renderers", "16", place=place, user=NOBODY, preexec_fn=few) as daemon:
            status, line = daemon.end()
            want((status, re.sub(r"\d+ given", "N given", line)), (13, "carbon: threads: 34 needed, N given"), "status and line")


@case
def streams_that_fail_have_their_status():
    with serving() as daemon, folder() as place, open("/dev/full", "w") as full:
        inside = os.open(place, os.O_RDONLY)
        ran = subprocess.run([PROGRAM, "script"], stdin=inside, cwd=place, capture_output=True, text=True, timeout=60)
        os.close(inside)
        want((ran.returncode, ran.stdout), (6, "carbon: read fault\n"), "an input that is a folder")
        for what, words, where in (
            ("a summary", ["script"], place),
            ("a usage", ["serve", "--ports"], place),
            ("a folder in use", ["script"], daemon.place),
        ):
            ran = subprocess.run([PROGRAM, *words], stdin=subprocess.DEVNULL, stdout=full, stderr=subprocess.DEVNULL, cwd=where, timeout=60)
            want(ran.returncode, 7, what + " that cannot be written")


@case
def an_input_that_is_reset_has_not_ended():
    with folder() as place, socket.create_server(("127.0.0.1", 0)) as server:
        sender = socket.create_connection(server.getsockname(), 10)
        input_of_script, _ = server.accept()
        with input_of_script:
            process = subprocess.Popen([PROGRAM, "script"], stdin=input_of_script, stdout=subprocess.PIPE, cwd=place, text=True)
        sender.sendall(point("a.b").encode())
        time.sleep(0.5)
        sender.setsockopt(socket.SOL_SOCKET, socket.SO_LINGER, struct.pack("ii", 1, 0))
        sender.close()
        told, _ = process.communicate(timeout=30)
        want((process.returncode, told), (6, "carbon: read fault\n"), "status and line")
        want(os.path.exists(path_of(place, "a.b")), False, "a drain behind it")


@case
def words_that_are_no_command_touch_nothing():
    with serving() as daemon:
        ran = subprocess.run([PROGRAM, "serve", "--ports"], cwd=daemon.place, capture_output=True, text=True)
        want((ran.returncode, ran.stdout), (2, "carbon: usage\n"), "status and line in a folder in use")


# ---- ports and links


@case
def each_port_has_its_own_kind_on_all_addresses():
    with serving() as daemon:
        for host in "127.0.0.1", "127.0.0.2":
            daemon.send(point("host." + host.replace(".", "_")), host)
        status, body = daemon.ask("host.*", host="127.0.0.2")
        want((status, body.count("\n")), (200, 2), "the answer")


def free_ports():
    """Two ports that nobody has."""
    with socket.create_server(("", 0)) as one, socket.create_server(("", 0)) as other:
        return one.getsockname()[1], other.getsockname()[1]


@case
def each_port_has_the_number_that_was_asked_for():
    asked = free_ports()
    with serving(ports=asked) as daemon:
        want((daemon.line_port, daemon.http_port), asked, "the ports on standard error")
        daemon.send(point("a.b"))
        want(daemon.ask("a.b")[1].startswith("a.b,"), True, "the answer")


def refuses(host, port):
    try:
        socket.create_connection((host, port), 1).close()
        return False
    except OSError:
        return True


@case
def a_port_that_has_an_address_is_open_there_alone():
    for option in "--line-host", "--http-host":
        with serving(option, "127.0.0.1") as daemon:
            kept, other = daemon.line_port, daemon.http_port
            if option == "--http-host":
                kept, other = other, kept
            told = refuses("127.0.0.1", kept), refuses("127.0.0.2", kept), refuses("127.0.0.1", other), refuses("127.0.0.2", other)
            want(told, (False, True, False, False), option)


@case
def each_port_has_the_addresses_of_its_own_option():
    with serving("--line-host", "127.0.0.1", "--http-host", "127.0.0.2") as daemon:
        daemon.send(point("host.own"))
        want(daemon.ask("host.own", host="127.0.0.2")[0], 200, "the answer")
        want((refuses("127.0.0.2", daemon.line_port), refuses("127.0.0.1", daemon.http_port)), (True, True), "the other addresses")


@case
def a_port_answers_at_each_address_that_is_named():
    hosts = "127.0.0.1", "127.0.0.2", "127.0.0.3"
    words = [word for host in hosts for word in ("--line-host", host, "--http-host", host)]
    with serving(*words) as daemon:
        for _ in range(20):
            for host in hosts:
                daemon.send(point("host." + host.replace(".", "_")), host)
                status, body = daemon.ask("host." + host.replace(".", "_"), host=host)
                want((status, body.count("\n")), (200, 1), "the answer at " + host)
        want((refuses("127.0.0.4", daemon.line_port), refuses("127.0.0.4", daemon.http_port)), (True, True), "another address")
        status, line, _ = daemon.stop()
        told = re.match(r"stored (\d+) replaced (\d+) full 0 ", line)
        want((status, told and int(told[1]) + int(told[2])), (0, 60), "status and points")


@case
def an_address_does_not_wait_for_another_that_is_busy():
    with serving("--http-host", "127.0.0.1", "--http-host", "127.0.0.2", "--renderers", "1") as daemon:
        request = b"GET /metrics/find?query=a HTTP/1.0\r\n\r\n"
        busy = [socket.create_connection(("127.0.0.1", daemon.http_port), 10) for _ in range(60)]
        other = socket.create_connection(("127.0.0.2", daemon.http_port), 10)
        other.sendall(request)
        begun = time.time()
        want(other.recv(64)[:12], b"HTTP/1.1 200", "the reply at the other address")
        seconds = time.time() - begun
        want(seconds < 3, True, "in %.1f seconds" % seconds)
        for link in busy + [other]:
            link.close()


@case
def connections_that_wait_at_several_addresses_are_served_at_the_stop():
    words = ["--line-host", "127.0.0.1", "--line-host", "127.0.0.2", "--receivers", "1"]
    with serving(*words) as daemon:
        senders = [socket.create_connection(("127.0.0.%d" % (1 + k % 2), daemon.line_port), 5) for k in range(100)]
        for k, link in enumerate(senders):
            link.sendall(point("a.n%d" % k).encode())
        want(daemon.stop()[0:2], (0, "stored 100 replaced 0 full 0 drains 100"), "the stop")
        for link in senders:
            link.close()


@case
def sixteen_addresses_may_be_named_and_not_seventeen():
    most = resource.getrlimit(resource.RLIMIT_NOFILE)[1]
    if most != resource.RLIM_INFINITY and most < 2283:
        raise Passed("too few descriptors")

    def enough():
        resource.setrlimit(resource.RLIMIT_NOFILE, (2283, most))

    words = [word for k in range(1, 18) for word in ("--http-host", "127.0.0.%d" % k)]
    with serving(*words[:32], preexec_fn=enough) as daemon:
        told = [refuses("127.0.0.%d" % k, daemon.http_port) for k in range(1, 18)]
        want(told, [False] * 16 + [True], "refusals")
    with serving(*words) as daemon:
        want(daemon.end(), (2, "carbon: usage"), "status and line")


@case
def an_address_that_the_machine_lacks_or_has_twice_is_no_port():
    for more in ["192.0.2.1"], ["127.0.0.1", "192.0.2.1"], ["127.0.0.1", "127.0.0.1"], ["0.0.0.0", "127.0.0.1"]:
        with serving(*[word for host in more for word in ("--http-host", host)]) as daemon:
            want(daemon.end(), (9, "carbon: no port"), " ".join(more))


@case
def each_address_wants_descriptors():
    def few():
        resource.setrlimit(resource.RLIMIT_NOFILE, (60, 60))

    words = "--line-host", "127.0.0.1", "--line-host", "127.0.0.2", "--line-host", "127.0.0.3"
    with serving("--receivers", "16", "--renderers", "16", *words, preexec_fn=few) as daemon:
        want(daemon.end(), (13, "carbon: file descriptors: 593 needed, 60 given"), "status and line")


@case
def a_reset_of_a_sender_frees_its_receiver():
    with serving("--receivers", "1") as daemon:
        link = socket.create_connection(("127.0.0.1", daemon.line_port))
        link.sendall(b"a.b 1 ")
        time.sleep(0.1)
        link.setsockopt(socket.SOL_SOCKET, socket.SO_LINGER, struct.pack("ii", 1, 0))
        link.close()
        daemon.send(point("a.c"))
        want(daemon.ask("a.c")[1].startswith("a.c,"), True, "the next sender's point")


RULE = "all.<app>.requests (60) = sum web.<app>.*.requests\n"


@contextlib.contextmanager
def gathering(*words):
    """A carbon with an aggregation rule, and a connection that brought two points of one output."""
    with folder() as place:
        write_rules(place, b"[all]\npattern = .*\nretentions = 60s:1d\n")
        with open(os.path.join(place, "conf", "aggregation-rules.conf"), "w") as file:
            file.write(RULE)
        with serving(*words, place=place) as daemon:
            link = socket.create_connection(("127.0.0.1", daemon.line_port))
            at = int(time.time()) // 60 * 60 - 60
            link.sendall(b"web.x.h1.requests 1 %d\nweb.x.h2.requests 2 %d\n" % (at, at))
            want(settled(lambda: "web" in daemon.ask("web.x.h2.requests")[1]), True, "the second point")
            want(daemon.ask("all.x.requests")[1], "", "the output before the connection's end")
            yield daemon, link
            link.close()


def sum_is_there(daemon):
    return "3.0" in daemon.ask("all.x.requests")[1]


@case
def the_end_of_a_connection_gives_its_open_intervals():
    with gathering() as (daemon, link):
        link.shutdown(socket.SHUT_WR)
        want(settled(lambda: sum_is_there(daemon)), True, "the sum behind the sender's end")
        want(daemon.stop()[0:2], (0, "stored 3 replaced 0 full 0 drains 3"), "the stop")
    with gathering("--line-patience", "1") as (daemon, link):
        want(settled(lambda: sum_is_there(daemon)), True, "the sum behind the patience")
    with gathering() as (daemon, link):
        want(daemon.stop()[0:2], (0, "stored 3 replaced 0 full 0 drains 3"), "a stop with the connection open")
        want(os.path.exists(path_of(daemon.place, "all.x.requests")), True, "the output's file")


@case
def a_reset_of_a_connection_gives_nothing_of_its_open_intervals():
    with gathering("--receivers", "1") as (daemon, link):
        link.setsockopt(socket.SOL_SOCKET, socket.SO_LINGER, struct.pack("ii", 1, 0))
        link.close()
        daemon.send(point("web.x.h3.requests", 4))
        want(settled(lambda: "4.0" in daemon.ask("all.x.requests")[1]), True, "the next connection's sum")
        want("3.0" in daemon.ask("all.x.requests")[1], False, "the sum of the connection that was reset")
        want(daemon.stop()[0:2], (0, "stored 4 replaced 0 full 0 drains 4"), "the stop")


@case
def refused_requests_leave_their_renderers():
    with serving("--renderers", "2") as daemon:
        for _ in range(20):
            want(b"400" in exchange(daemon.http_port, b"no request\r\n\r\n")[:20], True, "a refusal")
        want(daemon.ask("a.b")[0], 200, "a question afterwards")


@case
def thirty_two_links_of_each_kind_are_served_at_once():
    with serving("--receivers", "32", "--renderers", "32") as daemon:
        lines = [socket.create_connection(("127.0.0.1", daemon.line_port), 5) for _ in range(32)]
        for k, link in enumerate(lines):
            link.sendall(point("at.n%d" % k).encode())
        want(settled(lambda: daemon.ask("at.*")[1].count("\n") == 32), True, "the points of all senders, whose links are open")
        asks = [socket.create_connection(("127.0.0.1", daemon.http_port), 5) for _ in range(32)]
        for link in asks:
            link.sendall(b"GET /metrics/find?query=at HTTP/1.1\r\nHost: a\r\n\r\n")
        want(all(link.recv(64).startswith(b"HTTP/1.1 200") for link in asks), True, "the replies on links that stay open")
        for link in lines + asks:
            link.close()


def one_of_each_class(front):
    names = {}
    for k in range(1000):
        name = "%s.n%d" % (front, k)
        names.setdefault(class_of(name.encode()), name)
    want(len(names), 16, "classes")
    return [names[k] for k in range(16)]


def have_files(daemon, names):
    return settled(lambda: all(os.path.exists(path_of(daemon.place, name)) for name in names))


@case
def every_class_is_drained_while_lines_come():
    names = one_of_each_class("c")
    with serving() as daemon:
        daemon.send("".join(point(name) for name in names))
        want(have_files(daemon, names), True, "a file of each class")


@contextlib.contextmanager
def sending(daemon, metric):
    """A sender that goes on meanwhile."""
    is_over = threading.Event()

    def send():
        with contextlib.suppress(OSError), socket.create_connection(("127.0.0.1", daemon.line_port), timeout=10) as link:
            while not is_over.is_set():
                link.sendall(point(metric).encode())
                time.sleep(0.001)

    sender = threading.Thread(target=send, daemon=True)
    sender.start()
    try:
        yield
    finally:
        is_over.set()
        sender.join()


@case
def no_class_waits_for_one_that_gets_points_all_the_time():
    busy = one_of_each_class("busy")
    with serving() as daemon:
        for front, one in ("c", busy[0]), ("d", busy[15]):
            names = one_of_each_class(front)
            with sending(daemon, one):
                time.sleep(0.2)
                daemon.send("".join(point(name) for name in names))
                want(have_files(daemon, names), True, "a file of each class beside " + one)


@case
def a_daemon_that_has_nothing_to_do_takes_no_processor():
    for words in [], ["--drainers", "4"]:
        with serving(*words) as daemon:
            daemon.send(point("a.b"))
            want(settled(lambda: os.path.exists(path_of(daemon.place, "a.b"))), True, "the drain")
            time.sleep(0.5)
            before = daemon.spent()
            time.sleep(2)
            took = daemon.spent() - before
            want(took < 0.4, True, "%.2f seconds of the processor in two" % took)
            want(daemon.stop()[0:2], (0, "stored 1 replaced 0 full 0 drains 1"), "the stop")


def paced(words, place):
    """How many ring files are there two and a half seconds after the points of 200 new metrics came, in how many seconds of the clock, and how it ended."""
    with serving(*words, place=place) as daemon:
        first = int(time.time())
        daemon.send("".join(point("p.n%d" % k) for k in range(200)))
        time.sleep(2.5)
        made, seconds = len(rings_in(place)), int(time.time()) - first + 1
        want(daemon.ask("p.n*")[1].count("\n"), 200, "metrics on a graph, written or not")
        status, line, _ = daemon.stop()
        want((status, line), (0, "stored 200 replaced 0 full 0 drains 200"), "the end")
        want(len(rings_in(place)), 200, "ring files at the end")
    return made, seconds


def rings_in(place):
    return [name for _, _, files in os.walk(os.path.join(place, "data")) for name in files if name.endswith(".ring")]


@case
def a_pace_is_kept_and_points_stay_pending():
    with folder() as place:
        made, seconds = paced(["--pace", "10"], place)
    want(20 <= made <= 10 * seconds, True, "%d drains in %d seconds at 10 a second" % (made, seconds))


@case
def files_are_made_at_their_pace():
    with folder() as place:
        made, seconds = paced(["--creates", "8"], place)
    want(16 <= made <= 8 * seconds, True, "%d files in %d seconds at 8 a second" % (made, seconds))


@case
def a_pace_comes_to_every_class():
    for word in "--pace", "--creates":
        with folder() as place:
            with serving(word, "4", place=place) as daemon:
                daemon.send("".join(point("p.n%d" % k) for k in range(1000)))
                classes = lambda: sum(any(files for _, _, files in os.walk(os.path.join(place, "data", "%02d" % k))) for k in range(16))
                want(settled(lambda: classes() == 16, 8), True, "files of all classes after eight seconds of %s 4" % word)


@case
def new_files_come_to_every_class():
    """Also while the metrics of some classes that have their files get points all the time."""
    old = [name for name in ("old.n%d" % k for k in range(1000)) if class_of(name.encode()) < 10]
    new = [name for name in ("new.n%d" % k for k in range(1000)) if class_of(name.encode()) >= 10]
    made = lambda: sum(os.path.isdir(os.path.join(place, "data", "%02d" % k, "new")) for k in range(16))
    with folder() as place:
        want(script(place, "".join(point(name) for name in old))[0], 0, "the script")
        with serving("--creates", "1", place=place) as daemon:
            daemon.send("".join(point(name) for name in new))
            for _ in range(24):
                daemon.send("".join(point(name) for name in old))
                if settled(lambda: made() == 6, 0.5):
                    break
            want(made(), 6, "classes with a new file after twelve seconds of a file a second")


@case
def files_that_are_there_are_drained_without_the_pace_of_new_ones():
    with folder() as place:
        want(script(place, "".join(point("o.n%d" % k) for k in range(100)))[0], 0, "the script")
        begun = time.time()
        with serving("--creates", "1", place=place) as daemon:
            daemon.send("".join("o.n%d 2 %d\n" % (k, time.time() + 60) for k in range(100)))
            changed = lambda: sum(os.path.getmtime(path_of(place, "o.n%d" % k)) > begun for k in range(100))
            want(settled(lambda: changed() == 100, 3), True, "drains of a hundred files in three seconds")


@case
def a_drainer_goes_on_where_no_sender_is_left():
    with serving("--links", "1", "--creates", "20") as daemon:
        daemon.send("".join(point("p.n%d" % k) for k in range(100)))
        want(settled(lambda: len(rings_in(daemon.place)) == 100, 12), True, "the files of all metrics while the port of HTTP waits for its link")
        want(daemon.ask("p.n*")[1].count("\n"), 100, "the answer over that link")
        want(daemon.end(), (0, "stored 100 replaced 0 full 0 drains 100"), "the end")


@case
def drainers_write_all_that_comes():
    with folder() as place:
        with serving("--drainers", "4", place=place) as daemon:
            daemon.send("".join(point("d.n%d" % k) for k in range(1000)))
            want(settled(lambda: len(rings_in(place)) == 1000), True, "the files of a thousand metrics")
            want(daemon.stop()[:2], (0, "stored 1000 replaced 0 full 0 drains 1000"), "the end")


@case
def a_long_reply_arrives_whole_at_a_slow_reader():
    with serving() as daemon:
        daemon.send("".join(point("long.n%06d" % k) for k in range(100_000)))
        request = b"GET /metrics/index.json HTTP/1.0\r\n\r\n"
        with socket.create_connection(("127.0.0.1", daemon.http_port), 20) as link:
            link.sendall(request)
            size = 0
            tail = b""
            while True:
                piece = link.recv(1000)
                if not piece:
                    break
                size += len(piece)
                tail = (tail + piece)[-20:]
        want(tail.endswith(b'"long.n099999"]'), True, "the end of the reply")
        want(size > 100_000 * 16, True, "its length")


@case
def a_reply_of_twenty_megabytes_arrives_whole_in_small_pieces():
    count = 999_990
    with folder() as place:
        write_rules(place, b"[all]\npattern = .*\nretentions = 1s:1000000\n")
        with serving(place=place) as daemon:
            daemon.send(point("a.b"))
            now = int(time.time())
            request = "GET /render?target=a.b&from=%d&until=%d HTTP/1.0\r\n\r\n" % (now - count, now)
            reply = bytearray()
            with socket.create_connection(("127.0.0.1", daemon.http_port), 20) as link:
                link.sendall(request.encode())
                while piece := link.recv(1000):
                    reply += piece
            head, _, body = bytes(reply).partition(b"\r\n\r\n")
            want(int(re.search(rb"Content-Length: (\d+)", head)[1]), len(body), "its length")
            want(len(body) > 19_000_000, True, "some twenty megabytes")
            want((body.count(b"], [") + 1, body[-4:]), (count, b"]]}]"), "its values and its end")


@case
def a_line_without_a_time_has_the_second_of_the_system():
    with folder() as place:
        write_rules(place, b"[all]\npattern = .*\nretentions = 1s:600\n")
        with serving(place=place) as daemon:
            # odd seconds and even ones
            for k in range(5):
                before = int(time.time())
                daemon.send("now.n%d 1 -1\n" % k)
                after = int(time.time())
                front, _, values = daemon.ask("now.n%d" % k)[1].partition("|")
                at = int(front.split(",")[1]) + values.strip().split(",").index("1.0")
                want(before <= at <= after, True, "%d, sent from %d to %d" % (at, before, after))
                time.sleep(0.5)


# ---- questions that take too much


@case
def a_question_that_takes_too_much_is_told_by_its_first_bytes():
    now = int(time.time())
    query = "target=a.b&from=%d&until=%d&x=\x1b[2J" % (now - 150_000, now)
    requests = {
        "GET /render?%s HTTP/1.0\r\n\r\n" % query.replace("\x1b", "%1b"): "GET /render?%s HTTP/1.0" % query.replace("\x1b", "%1b"),
        "POST /render HTTP/1.0\r\nContent-Length: %d\r\n\r\n%s" % (len(query), query): "POST /render HTTP/1.0 %s" % query.replace("\x1b", "\\x1b"),
        "GET /render?%s&%s HTTP/1.0\r\n\r\n" % (query[:-6], "y" * 1000): ("GET /render?%s&%s" % (query[:-6], "y" * 1000))[:200],
    }
    for request, told in requests.items():
        with folder() as place:
            write_rules(place, b"[all]\npattern = .*\nretentions = 1s:200000\n")
            with serving("--answer-bytes", "1048576", place=place) as daemon:
                daemon.send(point("a.b"))
                for _ in range(3):
                    want(exchange(daemon.http_port, request.encode()).split()[1], b"503", "the status")
                lines = daemon.told().splitlines()[1:]
                want(lines, ["carbon: out of memory, status 503: " + told], "standard error behind the line of the ports")
                want(daemon.ask("a.b")[0], 200, "a question that takes less")
                want(daemon.stop()[0:2], (0, "stored 1 replaced 0 full 0 drains 1"), "the stop")


def doubled(levels):
    """A target whose name is twice as long with each level."""
    target = "a.b"
    for _ in range(levels):
        target = "aliasSub(%s,'^(.*)$','\\1\\1')" % target
    return urllib.parse.quote(target, safe="(),'")


@case
def names_that_grow_are_refused():
    with serving() as daemon:
        daemon.send(point("a.b"))
        status, body = daemon.ask(doubled(8))
        want((status, body.partition(",")[0]), (200, "a.b" * 256), "a name of 768 bytes")
        begun = time.time()
        want(daemon.ask(doubled(27), 30)[0], 503, "one of 400 megabytes")
        want(time.time() - begun < 5, True, "within five seconds")
        want(daemon.most_held() < 100, True, "%.0f MB held at most" % daemon.most_held())
        want(daemon.ask("a.b")[0], 200, "a question afterwards")
        want(daemon.stop()[0:2], (0, "stored 1 replaced 0 full 0 drains 1"), "the stop")


# ---- patience


@case
def a_silent_sender_is_closed_and_its_receiver_goes_on():
    with serving("--receivers", "1", "--line-patience", "2") as daemon:
        silent = socket.create_connection(("127.0.0.1", daemon.line_port))
        silent.settimeout(10)
        begun = time.time()
        want(silent.recv(10), b"", "the silent sender's end")
        want(1.5 < time.time() - begun < 5, True, "seconds until then")
        daemon.send(point("a.c"))
        want(daemon.ask("a.c")[0], 200, "the next sender")


@case
def a_silent_sender_stays_where_its_patience_is_0():
    for patience, stays in ("1", False), ("0", True):
        with serving("--line-patience", patience) as daemon:
            silent = socket.create_connection(("127.0.0.1", daemon.line_port))
            time.sleep(4)
            with contextlib.suppress(ConnectionError):
                silent.sendall(point("a.b").encode())
            told = settled(lambda: daemon.ask("a.b")[1] != "", 1)
            want(told, stays, "whether a line comes through after four seconds, with a patience of " + patience)


def last_values(body):
    """Of each series its last value."""
    return {row.split(",", 1)[0]: float(row.rsplit(",", 1)[1].rsplit("|", 1)[-1]) for row in body.splitlines()}


@case
def a_question_over_many_pending_points_shows_one_moment():
    """Lines of 2,000 metrics come over one connection, in the same order again and again, each time with the next number. What a question shows of a class is
    the numbers at one moment: none is above that of a metric before it, or more than one below. The classes differ by no more than a batch of lines."""
    minute, count = int(time.time()) // 60 * 60, 2_000
    names = ["w.m%04d" % k for k in range(count)]
    with serving("--creates", "1", "--limit", "1000000") as daemon:
        for back in range(59, -1, -1):
            daemon.send("".join("%s 0 %d\n" % (name, minute - 60 * back) for name in names))
        over, sent = threading.Event(), []

        def send():
            with socket.create_connection(("127.0.0.1", daemon.line_port)) as link:
                while not over.is_set():
                    sent.append(0)
                    link.sendall("".join("%s %d %d\n" % (name, len(sent), minute) for name in names).encode())

        sender = threading.Thread(target=send, daemon=True)
        sender.start()
        query = "GET /render?target=w.*&from=%d&until=%d&format=raw HTTP/1.0\r\n\r\n" % (minute - 3600, minute)
        for _ in range(20):
            body = exchange(daemon.http_port, query.encode(), 30).partition(b"\r\n\r\n")[2].decode()
            shown = last_values(body)
            want(list(shown), names, "the series")
            for hashed in range(16):
                values = [shown[name] for name in names if class_of(name.encode()) == hashed]
                falls = all(0 <= one - other <= 1 for one, other in zip(values, values[1:])) and values[0] - values[-1] <= 1
                want(falls, True, "one moment of class %d, %r" % (hashed, values[:3] + values[-3:]))
            want(max(shown.values()) - min(shown.values()) <= 2, True, "classes of about one moment")
        over.set()
        sender.join(10)
        want(len(sent) > 20, True, "%d rounds of lines meanwhile" % len(sent))


@case
def slow_heads_do_not_keep_the_renderers():
    with serving("--renderers", "2") as daemon:
        slow = [socket.create_connection(("127.0.0.1", daemon.http_port)) for _ in range(2)]
        begun = time.time()
        answered = None
        for _ in range(60):
            for link in slow:
                with contextlib.suppress(OSError):
                    link.sendall(b"G")
            if answered is None and time.time() - begun > 19:
                answered = daemon.ask("a.b", 15)[0]
                break
            time.sleep(0.5)
        want(answered, 200, "a question behind two slow heads")
        want(time.time() - begun < 30, True, "within half a minute")


@case
def a_body_that_never_comes_ends_after_a_minute():
    with serving("--renderers", "1") as daemon:
        begun = time.time()
        with socket.create_connection(("127.0.0.1", daemon.http_port), 90) as slow:
            slow.sendall(b"POST /render HTTP/1.1\r\nHost: a\r\nContent-Length: 1000000\r\n\r\ntarget=a")
            while slow.recv(4096):
                pass
        took = time.time() - begun
        want(59 < took < 75, True, "the end after %.1f seconds" % took)
        want(daemon.ask("a.b", 15)[0], 200, "a question behind it")


def stalled(daemon):
    """A connection that asks for more than the buffers of the system take, and takes nothing."""
    link = socket.socket()
    link.setsockopt(socket.SOL_SOCKET, socket.SO_RCVBUF, 4096)
    link.connect(("127.0.0.1", daemon.http_port))
    link.sendall(b"GET /metrics/index.json HTTP/1.1\r\nHost: a\r\n\r\n" * 64)
    return link


@case
def a_reply_that_nobody_takes_does_not_keep_its_renderer():
    with serving("--renderers", "1") as daemon:
        daemon.send("".join(point("long.n%06d" % k) for k in range(20_000)))
        link = stalled(daemon)
        time.sleep(0.5)
        begun = time.time()
        want(daemon.ask("a.b", 300)[0], 200, "a question behind it")
        took = time.time() - begun
        print("    (%.1f s)" % took)
        # writes may wait for 20 seconds at first and never for more than 75, whatever the system's buffers took
        want(18 < took < 85, True, "in %.1f seconds" % took)
        link.close()


@case
def a_reply_that_is_sipped_does_not_keep_its_renderer():
    with serving("--renderers", "1") as daemon:
        daemon.send("".join(point("long.n%06d" % k) for k in range(20_000)))
        link = stalled(daemon)
        ended = threading.Event()
        threading.Thread(target=sip_behind_a_gulp, args=(link, ended), daemon=True).start()
        time.sleep(0.5)
        begun = time.time()
        want(daemon.ask("a.b", 300)[0], 200, "a question behind it")
        took = time.time() - begun
        ended.set()
        print("    (%.1f s)" % took)
        # 75 seconds, and one for each KiB that it took: a fifth of the time
        want(18 < took < 110, True, "in %.1f seconds" % took)
        link.close()


def sip_behind_a_gulp(link, ended):
    """Takes a megabyte at once, and then 4,096 bytes each 20 seconds."""
    with contextlib.suppress(OSError):
        taken = 0
        while taken < 1_000_000 and (piece := link.recv(65536)):
            taken += len(piece)
        while not ended.wait(20) and link.recv(4096):
            pass


@case
def silent_connections_do_not_keep_the_renderers():
    with serving("--renderers", "16") as daemon:
        silent = [socket.create_connection(("127.0.0.1", daemon.http_port), 5) for _ in range(120)]
        begun = time.time()
        want(daemon.ask("a.b", 20)[0], 200, "a question behind 120 connections that say nothing")
        took = time.time() - begun
        print("    (%.1f s)" % took)
        want(took < 5, True, "within five seconds")
        for link in silent:
            link.close()


@case
def a_kept_connection_stays_while_a_renderer_is_free():
    with serving("--renderers", "2") as daemon:
        kept = socket.create_connection(("127.0.0.1", daemon.http_port), 5)
        for _ in range(2):
            kept.sendall(b"GET /metrics/find?query=a HTTP/1.1\r\nHost: a\r\n\r\n")
            want(kept.recv(65536)[:12], b"HTTP/1.1 200", "a reply over the kept connection")
            for _ in range(5):
                want(daemon.ask("a.b")[0], 200, "a question beside it")
                time.sleep(0.3)
        kept.close()


# ---- the stop


@case
def a_stop_waits_for_no_reader_that_stalls_or_sips():
    count = 20_000
    for sips in False, True:
        with serving() as daemon:
            daemon.send("".join(point("long.n%06d" % k) for k in range(count)))
            want(settled(lambda: files_in(daemon.place) == count, 60), True, "all drained before the stop")
            link = stalled(daemon)
            if sips:
                threading.Thread(target=sip, args=(link,), daemon=True).start()
            time.sleep(1)
            status, line, took = daemon.stop(60)
            want((status, line), (0, "stored %d replaced 0 full 0 drains %d" % (count, count)), "the stop")
            print("    (%s: %.1f s)" % ("sips" if sips else "stalls", took))
            # a second in which links go on, five for what is under way, and one for what else runs on the machine
            want(took < 7, True, "within seven seconds")
            link.close()


def sip(link):
    with contextlib.suppress(OSError):
        while link.recv(4096):
            time.sleep(1)


def files_in(place):
    return sum(len(files) for _, _, files in os.walk(os.path.join(place, "data")))


@case
def lines_that_were_sent_before_the_stop_are_taken():
    lost = 0
    for turn in range(20):
        with serving(launched=turn % 2 == 1) as daemon:
            links = [socket.create_connection(("127.0.0.1", daemon.line_port)) for _ in range(8)]
            for k, link in enumerate(links):
                link.sendall(point("a.n%d" % k).encode())
                link.close()
            if turn % 2 == 1:
                daemon.process.send_signal(signal.SIGTERM)
                status, line = daemon.end()
            else:
                status, line, _ = daemon.stop()
            want(status, 0, "the status")
            lost += line != "stored 8 replaced 0 full 0 drains 8"
    want(lost, 0, "rounds of twenty in which a line was lost")


@case
def the_end_of_the_launcher_is_a_stop():
    for how in signal.SIGTERM, signal.SIGHUP, signal.SIGKILL:
        with serving(launched=True) as daemon:
            daemon.send(point("a.b", 7))
            below = children(daemon.process.pid)
            want(len(below), 2, "the program and the listener")
            daemon.process.send_signal(how)
            gone = settled(lambda: refuses("127.0.0.1", daemon.line_port), 20)
            want(gone, True, "the port after %s" % how.name)
            settled(lambda: lock_is_free(daemon.place), 20)
            want(os.path.exists(path_of(daemon.place, "a.b")), True, "the drained file after %s" % how.name)
            want(settled(lambda: not any(map(is_there, below)), 20), True, "the end of both after %s" % how.name)


def children(pid):
    found = []
    for name in filter(str.isdigit, os.listdir("/proc")):
        with contextlib.suppress(OSError), open("/proc/%s/stat" % name) as file:
            if int(file.read().rpartition(")")[2].split()[1]) == pid:
                found.append(int(name))
    return found


def is_there(pid):
    """Whether a process is, and has not ended."""
    with contextlib.suppress(OSError), open("/proc/%d/stat" % pid) as file:
        return file.read().rpartition(")")[2].split()[0] != "Z"
    return False


def lock_is_free(place):
    import fcntl

    handle = os.open(place, os.O_RDONLY)
    try:
        fcntl.flock(handle, fcntl.LOCK_EX | fcntl.LOCK_NB)
        return True
    except OSError:
        return False
    finally:
        os.close(handle)


@case
def any_other_line_stops_nothing():
    with serving() as daemon:
        daemon.process.stdin.write("stopp\nrestart\n\n")
        daemon.process.stdin.flush()
        time.sleep(0.5)
        daemon.send(point("a.b"))
        want(daemon.stop()[0:2], (0, "stored 1 replaced 0 full 0 drains 1"), "the stop")


def main():
    words = [word for word in sys.argv[1:] if not word.startswith("--")]
    chosen = [one for one in CASES if not words or any(word in one.__name__ for word in words)]
    if "--list" in sys.argv:
        print("\n".join(one.__name__ for one in chosen))
        return
    need_program()
    failed = 0
    for one in chosen:
        begun = time.time()
        try:
            one()
            said = "ok"
        except Passed as why:
            said = "passed over: %s" % why
        except (AssertionError, OSError, subprocess.TimeoutExpired) as why:
            said = "NOT SO: %s" % why
            failed += 1
        print("%-80s %6.1f s  %s" % (one.__name__.replace("_", " "), time.time() - begun, said), flush=True)
    sys.exit(1 if failed else 0)


main()
