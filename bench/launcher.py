#!/usr/bin/env python3
"""The launcher: what it runs wherever it was copied or linked to, what it says of newer sources, when it builds, and its help.

Usage: bench/launcher.py [WORD..]      (all cases without a word; else those whose name holds one)

Each case has a small tree in a folder of its own, with the launcher and a stand-in for the program, which says its words and what it was given of
the environment. So no program has to be built, and nothing is proved or timed here. Beside it stands an `rt` that leaves a trace where it is
called. The exit status is 1 where a case found something else.
"""
import os
import shutil
import signal
import subprocess
import sys
import tempfile
import time

HERE = os.path.dirname(os.path.abspath(__file__))
TOP = os.path.dirname(HERE)
LAUNCHER = os.path.join(TOP, "carbon")
STAND_IN = r"""#!/bin/bash
echo "ran $*"
[ "$1" = serve ] || { echo "heap ${GLIBC_TUNABLES:-none}"; exit 3; }
echo "heap ${GLIBC_TUNABLES:-none} at end $CARBON_STOPS_AT_END"
while IFS= read -r line; do
    [ "$line" = stop ] && break
done
echo "stored 0 replaced 0 full 0 drains 0"
"""
CALLED = '#!/bin/bash\necho "$*" >>"%s"\nexit 1\n'
CASES = []


def case(function):
    CASES.append(function)
    return function


def want(told, wanted, what):
    if told != wanted:
        raise AssertionError("%s: %r, not %r" % (what, told, wanted))


def want_in(part, text, what):
    if part not in text:
        raise AssertionError("%s: no %r in %r" % (what, part, text))


def write(path, text, age=0, mode=0o644):
    os.makedirs(os.path.dirname(path), exist_ok=True)
    with open(path, "w") as file:
        file.write(text)
    os.chmod(path, mode)
    moment = time.time() - age
    os.utime(path, (moment, moment))


class Tree:
    """A repository in small, whose program is newer than its sources, or is not there."""

    def __init__(self, place, is_built=True):
        self.place = place
        self.launcher = os.path.join(place, "carbon")
        self.out = os.path.join(place, "crates", "carbon", "out")
        self.program = os.path.join(self.out, "carbon")
        shutil.copy(LAUNCHER, self.launcher)
        write(os.path.join(place, "crates.txt"), "carbon:\n", 100)
        self.source = os.path.join(place, "crates", "carbon", "src", "main.rt")
        write(self.source, "fn main() {}\n", 100)
        if is_built:
            write(self.program, STAND_IN, 50, 0o755)
        self.tools = os.path.join(place, "tools")
        self.calls = os.path.join(place, "rt-calls")
        write(os.path.join(self.tools, "rt"), CALLED % self.calls, mode=0o755)

    def run(self, *words, launcher=None, path=None, cwd="/", **more):
        """What comes of these words, and of a line `stop`: the status, and both streams."""
        environment = {"PATH": path if path is not None else self.tools + ":" + os.environ["PATH"], **more}
        command = [launcher or self.launcher, *words]
        told = subprocess.run(command, input="stop\n", capture_output=True, text=True, env=environment, cwd=cwd, timeout=20)
        return told.returncode, told.stdout, told.stderr

    def is_rt_called(self):
        return os.path.exists(self.calls)


def in_tree(is_built=True):
    """A case over a tree."""

    def over(function):
        def run():
            with tempfile.TemporaryDirectory() as place:
                function(Tree(os.path.realpath(place), is_built))

        run.__name__ = function.__name__
        return case(run)

    return over


@in_tree()
def a_built_program_is_run_with_its_words_and_status(tree):
    want(tree.run("script", "--limit", "5"), (3, "ran script --limit 5\nheap none\n", ""), "the answer")


@in_tree()
def links_of_every_kind_lead_to_the_program(tree):
    links = os.path.join(tree.place, "bin")
    os.mkdir(links)
    os.symlink(tree.launcher, os.path.join(links, "whole"))
    os.symlink("../carbon", os.path.join(links, "relative"))
    os.symlink("relative", os.path.join(links, "of-a-link"))
    os.symlink(tree.place, os.path.join(links, "folder"))
    for name in "whole", "relative", "of-a-link", "folder/carbon":
        want(tree.run("script", launcher=os.path.join(links, name)), (3, "ran script\nheap none\n", ""), name)
    told = tree.run("script", launcher="whole", path=links + ":" + os.environ["PATH"])
    want(told, (3, "ran script\nheap none\n", ""), "found on PATH")
    told = tree.run("script", launcher="bin/whole", cwd=tree.place, CDPATH=links)
    want(told, (3, "ran script\nheap none\n", ""), "from the folder above, with a CDPATH")
    told = tree.run("script", launcher="crates/../carbon", cwd=tree.place, CDPATH=tree.place)
    want(told, (3, "ran script\nheap none\n", ""), "by a path from the folder, with a CDPATH")


@in_tree()
def a_tree_that_was_copied_runs_its_own_program_though_all_is_new(tree):
    with tempfile.TemporaryDirectory() as place:
        copy = os.path.join(os.path.realpath(place), "a copy")
        os.mkdir(copy)
        # the order in which a copy writes them makes sources newer than the program
        for name in "crates/carbon/out/carbon", "crates/carbon/src/main.rt", "crates.txt", "carbon":
            os.makedirs(os.path.dirname(os.path.join(copy, name)), exist_ok=True)
            shutil.copy(os.path.join(tree.place, name), os.path.join(copy, name))
            time.sleep(0.02)
        status, said, told = tree.run("serve", launcher=os.path.join(copy, "carbon"))
        want(status, 0, "the status")
        want_in("stored 0 replaced 0 full 0 drains 0\n", said, "the last line")
        want_in("newer than the program, which runs as it was built: crates.txt and 1 more", told, "what is newer")
    want(tree.is_rt_called(), False, "a call of rt")


@in_tree()
def an_installed_launcher_finds_the_program_beside_it(tree):
    installed = os.path.join(tree.place, "usr", "bin", "carbon")
    os.makedirs(os.path.dirname(installed))
    shutil.copy(LAUNCHER, installed)
    write(os.path.join(tree.place, "usr", "lib", "carbon", "carbon"), STAND_IN, mode=0o755)
    want(tree.run("script", launcher=installed), (3, "ran script\nheap none\n", ""), "the answer")
    status, said, _ = tree.run("--version", launcher=installed)
    want((status, said.splitlines()[1]), (0, "program %s/usr/lib/carbon/carbon" % tree.place), "the version")
    status, _, told = tree.run("build", launcher=installed)
    want(status, 127, "the status of a build without sources")
    want_in("there are no sources beside this script", told, "why")


@in_tree()
def a_program_that_the_caller_names_is_run(tree):
    other = os.path.join(tree.place, "other")
    write(other, "#!/bin/bash\necho other $*\n", 200, 0o755)
    want(tree.run("script", CARBON_PROGRAM=other), (0, "other script\n", ""), "the answer")
    status, _, told = tree.run("serve", CARBON_PROGRAM=other + "s")
    want(status, 127, "the status where it is not there")
    want_in(other + "s is not there", told, "why")


@in_tree()
def newer_sources_are_named_and_the_program_serves_as_it_is(tree):
    write(tree.source, "fn main() { }\n")
    status, said, told = tree.run("serve")
    want((status, said.splitlines()[0]), (0, "ran serve"), "the service")
    want_in("newer than the program, which runs as it was built: crates/carbon/src/main.rt; `carbon build` builds it anew\n", told, "what is newer")
    write(os.path.join(tree.place, "crates", "other", "specs", "deep", "Law.antt"), "")
    write(os.path.join(tree.place, "crates", "carbon", "out", "more", "new.rt"), "")
    write(os.path.join(tree.place, "crates", "carbon", "stdin"), "")
    want_in("main.rt and 1 more; ", tree.run("script")[2], "what is newer with a definition, but without what rt makes")
    want(tree.is_rt_called(), False, "a call of rt")


@in_tree()
def while_a_build_is_under_way_the_program_before_it_serves(tree):
    write(os.path.join(tree.out, "begun"), "")
    shutil.move(tree.program, os.path.join(tree.out, "before"))
    write(tree.program, "half of a program", mode=0o644)
    status, said, told = tree.run("serve")
    want((status, said.splitlines()[0]), (0, "ran serve"), "the service")
    want_in("a build was begun and has not ended: the program before it runs\n", told, "what is said")


@in_tree()
def a_build_that_fails_leaves_the_program_that_serves(tree):
    write(tree.source, "fn main() { }\n")
    status, _, _ = tree.run("build")
    want((status, tree.is_rt_called()), (1, True), "the build")
    os.remove(tree.program)
    status, said, told = tree.run("script")
    want((status, said), (3, "ran script\nheap none\n"), "the answer")
    want_in("a build was begun and has not ended", told, "what is said")


@in_tree(is_built=False)
def a_start_of_the_service_builds_nothing(tree):
    status, said, told = tree.run("serve", CARBON_BUILD="never")
    want((status, said), (127, ""), "the answer")
    want_in("a daemon wants a built program", told, "why")
    want_in("carbon build` proves the sources here and builds it", told, "what to do")
    want(tree.is_rt_called(), False, "a call of rt")


@in_tree(is_built=False)
def a_daemon_where_nothing_is_built_is_built_first(tree):
    status, said, told = tree.run("serve")
    want((status, said), (1, ""), "the answer where the build fails")
    want_in("a daemon wants a built program, and none is built: it is built first", told, "what is said")
    want(tree.is_rt_called(), True, "a call of rt")


@in_tree()
def a_build_with_nothing_to_do_does_nothing(tree):
    want(tree.run("build"), (0, "", "carbon: the program is built, and no source has changed since\n"), "the answer")
    want(tree.run("build", "all")[0], 2, "the status with a word more")
    want(tree.is_rt_called(), False, "a call of rt")


@in_tree()
def the_program_needs_nothing_but_bash(tree):
    for words in (["script"], ["serve"], ["--version"], ["help"], ["serve", "--help"]):
        environment = {"PATH": "/nonexistent"}
        command = ["/bin/bash", tree.launcher, *words]
        told = subprocess.run(command, input="stop\n", capture_output=True, text=True, env=environment, cwd="/", timeout=20)
        want((told.returncode, told.stderr), (3 if words == ["script"] else 0, ""), "%s with no command at hand" % words)


@in_tree()
def signals_and_lines_end_the_service_with_its_last_line(tree):
    for how in signal.SIGTERM, signal.SIGINT, signal.SIGHUP, "stop\n":
        server = subprocess.Popen([tree.launcher, "serve"], stdin=subprocess.PIPE, stdout=subprocess.PIPE, text=True)
        server.stdout.readline(), server.stdout.readline()
        if how == "stop\n":
            server.stdin.write(how)
            server.stdin.flush()
        else:
            server.send_signal(how)
        want(server.wait(10), 0, "the status after %s" % how)
        want(server.stdout.read(), "stored 0 replaced 0 full 0 drains 0\n", "the last line after %s" % how)
        server.stdin.close()


@in_tree(is_built=False)
def help_and_version_need_no_program(tree):
    general = tree.run("--help")
    want(general[0], 0, "the status")
    for words in ["help"], ["-h"], ["help", "help"]:
        want(tree.run(*words), general, words)
    serve = tree.run("serve", "--help")
    want((serve[0], serve[1].splitlines()[0]), (0, "carbon serve - take metric lines and answer HTTP until told to stop"), "that of serve")
    for words in ["help", "serve"], ["serve", "--limit", "5", "--help"]:
        want(tree.run(*words), serve, words)
    for command in "script", "sample", "build", "try":
        want_in("Usage: carbon %s" % command, tree.run(command, "--help")[1], command)
    want(tree.run("help", "nothing")[0], 2, "the status of help on nothing")
    status, said, told = tree.run("--version")
    want((status, said.splitlines()[1], told), (0, "no program is built", ""), "the version")
    for text in general[1], serve[1]:
        want([line for line in text.splitlines() if len(line) > 80], [], "lines of more than 80 columns")


@case
def the_man_page_has_the_words_of_the_help_and_all_options():
    told = subprocess.run([os.path.join(TOP, "packaging", "man.py"), "--check"], capture_output=True, text=True)
    want((told.returncode, told.stdout), (0, ""), "packaging/man.py --check")


def main():
    chosen = [one for one in CASES if len(sys.argv) == 1 or any(word in one.__name__ for word in sys.argv[1:])]
    failed = 0
    for one in chosen:
        try:
            one()
            said = "ok"
        except (AssertionError, OSError, subprocess.TimeoutExpired) as why:
            said = "NOT SO: %s" % why
            failed += 1
        print("%-70s %s" % (one.__name__.replace("_", " "), said), flush=True)
    sys.exit(1 if failed else 0)


main()
