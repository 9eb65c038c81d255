#!/usr/bin/env python3
"""The Debian package: made, looked at, installed on a clean root, run by its unit's own words, upgraded, removed.

Usage: bench/package.py [--stand-in] [ROOT]

ROOT is a folder with a Debian of which nothing runs, such as `debootstrap --variant=minbase bookworm ROOT` makes: dpkg installs the package there,
and the daemon is started in it as the unit's user, in its folder and by its words, over a network of its own, where it is sent a point and asked for
it. Without ROOT the package is unpacked into an empty folder, and the daemon is started from there, which shows less. With --stand-in the package has
a script in place of the program, which takes no points: so it can be tried before the program is built. It wants root's rights. The exit status is 1
where something is not as it is to be.
"""
import os
import re
import shutil
import signal
import subprocess
import sys
import tempfile
import time

HERE = os.path.dirname(os.path.abspath(__file__))
TOP = os.path.dirname(HERE)
STAND_IN = """#!/bin/bash
echo "carbon: lines on 2003, HTTP on 8080" >&2
mkdir -p data || exit 5
while IFS= read -r line; do
    [ "$line" = stop ] && break
done
echo "stored 0 replaced 0 full 0 drains 0"
"""
FILES = """
etc/carbon/storage-aggregation.conf
etc/carbon/storage-schemas.conf
usr/bin/carbon
usr/lib/carbon/carbon
usr/lib/systemd/system/carbon.service
usr/share/doc/carbon/FORMATS.md
usr/share/doc/carbon/OPERATING.md
usr/share/doc/carbon/README.md
usr/share/doc/carbon/examples/aggregation-rules.conf
usr/share/doc/carbon/examples/collectd.conf
usr/share/doc/carbon/examples/import_whisper.py
usr/share/man/man1/carbon.1.gz
var/lib/carbon/conf
""".split()
# Sends a point and asks for it, with nothing but Python, from within the daemon's network.
TALK = r"""
import socket, time
def over(port, text):
    with socket.create_connection(("127.0.0.1", port), 10) as link:
        link.sendall(text.encode())
        link.shutdown(socket.SHUT_WR)
        return b"".join(iter(lambda: link.recv(65536), b"")).decode()
now = int(time.time())
over(2003, "a.b 1.5 %d\n" % now)
head = "GET /render?target=a.b&from=%d&until=%d&format=raw HTTP/1.0\r\n\r\n" % (now - 60, now)
print(over(8080, head).partition("\r\n\r\n")[2].rpartition("|")[2].strip().split(",")[-1])
"""


def need(holds, what):
    if not holds:
        sys.exit("NOT SO: %s" % (what,))


def ran(*words, **more):
    told = subprocess.run(words, capture_output=True, text=True, **more)
    need(told.returncode == 0, "%s: %d %s %s" % (" ".join(words), told.returncode, told.stdout, told.stderr))
    return told.stdout


def made(folder, program):
    """The package, made twice."""
    environment = dict(os.environ, **({"CARBON_PROGRAM": program} if program else {}))
    packages = []
    for name in "first", "second":
        place = os.path.join(folder, name)
        packages.append(ran(os.path.join(TOP, "packaging", "deb.sh"), place, env=environment).splitlines()[-1])
        time.sleep(1.1)
    with open(packages[0], "rb") as first, open(packages[1], "rb") as second:
        need(first.read() == second.read(), "two packages of one program are the same")
    print("made: %s, %d bytes, twice the same" % (os.path.basename(packages[0]), os.path.getsize(packages[0])))
    return packages[0]


def check_content(package):
    lines = [line.split(None, 5) for line in ran("dpkg-deb", "--contents", package).splitlines()]
    files = {line[5].partition(" -> ")[0].removeprefix("./") for line in lines if not line[5].endswith("/")}
    need(files == set(FILES), files ^ set(FILES))
    need(all(line[1] == "root/root" for line in lines), "all files are root's")
    control = ran("dpkg-deb", "--field", package)
    need(re.search(r"^Version: \d\S*$", control, re.MULTILINE) and "\nDepends: passwd, libc6" in control, control)
    print("content: %d files" % len(files))


def settings(root, name):
    """What the installed unit says under this name."""
    with open(os.path.join(root, "usr/lib/systemd/system/carbon.service")) as file:
        return re.findall("^%s=(.*)$" % name, file.read(), re.MULTILINE)


def setting(root, name):
    found = settings(root, name)
    need(len(found) == 1, "the unit has %s once" % name)
    return found[0]


class Service:
    """The daemon as the unit starts it: its words, its folder, its user. Its network and its /proc are its own."""

    def __init__(self, root, is_installed):
        begin, folder, user = setting(root, "ExecStart"), setting(root, "WorkingDirectory"), setting(root, "User")
        need(folder == "/var/lib/" + setting(root, "StateDirectory"), folder)
        environment = " ".join(["PATH=/usr/bin:/bin"] + settings(root, "Environment"))
        if is_installed:
            step = 'mount -t proc proc "$0/proc" && exec chroot --userspec=%s "$0" env -i %s /bin/bash -c "cd %s && exec %s"'
            step %= user, environment, folder, begin
        else:
            step = 'cd "$0%s" && exec env -i %s "$0"%s' % (folder, environment, begin)
        command = ["unshare", "--net", "--mount", "sh", "-c", "ip link set lo up && " + step, root]
        self.process = subprocess.Popen(command, stdin=subprocess.DEVNULL, stdout=subprocess.PIPE, stderr=subprocess.PIPE, text=True)

    def first_line(self):
        return self.process.stderr.readline()

    def within(self, *words):
        return ran("nsenter", "--net=/proc/%d/ns/net" % self.process.pid, *words)

    def stop(self):
        self.process.send_signal(signal.SIGTERM)
        out, told = self.process.communicate(timeout=60)
        return self.process.returncode, out, told


def check_service(root, is_installed, is_stand_in):
    need(setting(root, "KillSignal") == "SIGTERM" and setting(root, "KillMode") == "mixed", "how the unit stops it")
    service = Service(root, is_installed)
    try:
        need(service.first_line() == "carbon: lines on 2003, HTTP on 8080\n", "the first line")
        if not is_stand_in:
            need(service.within(sys.executable, "-c", TALK) == "1.5\n", "the point that was sent")
    finally:
        status, out, told = service.stop()
    need((status, out.splitlines()[-1:]) == (0, ["stored %d replaced 0 full 0 drains %d" % ((not is_stand_in,) * 2)]), (status, out, told))
    if is_installed:
        data = os.stat(os.path.join(root, "var/lib/carbon/data"))
        need(data.st_uid == user_of(root), "the files are the user's")
    print("service: started by the unit's words, %s, stopped: %s" % ("a stand-in" if is_stand_in else "sent a point and asked for it", out.strip()))


def user_of(root):
    with open(os.path.join(root, "etc/passwd")) as file:
        return int(re.search(r"^carbon:[^:]*:(\d+):", file.read(), re.MULTILINE)[1])


def check_installed(root, package, is_stand_in):
    told = ran("dpkg", "--root=" + root, "-i", package)
    need("look at the rule files in /etc/carbon" in told, told)
    need(ran("dpkg-query", "--root=" + root, "-W", "-f=${Status}", "carbon") == "install ok installed", "the state")
    folder = os.stat(os.path.join(root, "var/lib/carbon"))
    need(folder.st_uid == user_of(root), "the folder is the user's")
    need(ran("chroot", root, "carbon", "--version").splitlines()[1] == "program /usr/lib/carbon/carbon", "the launcher in the root")
    print("installed: on %s" % root)
    check_service(root, True, is_stand_in)
    rules = os.path.join(root, "etc/carbon/storage-schemas.conf")
    with open(rules, "a") as file:
        file.write("# of the operator\n")
    told = ran("dpkg", "--root=" + root, "--force-confold", "-i", package)
    with open(rules) as file:
        need(file.read().endswith("# of the operator\n"), "the operator's rules stay")
    need("look at the rule files" not in told, told)
    print("upgraded: the operator's rules stay")
    ran("dpkg", "--root=" + root, "-r", "carbon")
    need(os.path.isdir(os.path.join(root, "var/lib/carbon/data")) and os.path.exists(rules), "points and rules after the removal")
    told = ran("dpkg", "--root=" + root, "-P", "carbon")
    need(os.path.isdir(os.path.join(root, "var/lib/carbon/data")) and not os.path.exists(rules), "points alone after the purge")
    shutil.rmtree(os.path.join(root, "var/lib/carbon/data"))
    print("removed: points stay, and rules until a purge")


def check_unpacked(root, package, is_stand_in):
    ran("dpkg-deb", "-x", package, root)
    # the link to /etc/carbon leads out of a folder that is no root
    conf = os.path.join(root, "var/lib/carbon/conf")
    os.remove(conf)
    os.symlink(os.path.join(root, "etc/carbon"), conf)
    print("unpacked: into an empty folder")
    check_service(root, False, is_stand_in)


def main():
    words = [word for word in sys.argv[1:] if word != "--stand-in"]
    is_stand_in = "--stand-in" in sys.argv
    with tempfile.TemporaryDirectory() as folder:
        program = None
        if is_stand_in:
            program = os.path.join(folder, "program")
            with open(program, "w") as file:
                file.write(STAND_IN)
            os.chmod(program, 0o755)
        package = made(folder, program)
        check_content(package)
        if words:
            check_installed(os.path.abspath(words[0]), package, is_stand_in)
        else:
            check_unpacked(os.path.join(folder, "root"), package, is_stand_in)


main()
