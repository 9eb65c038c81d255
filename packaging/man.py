#!/usr/bin/env python3
"""Makes the man page docs/carbon.1 of the texts that the launcher prints as help, so that both have the same words.

Usage: packaging/man.py           writes docs/carbon.1
       packaging/man.py --check   writes nothing; the exit status is 1 where docs/carbon.1 is not what the texts come to, and where an option of
                                  the program is missing in them

A text is a title, its usage, and then paragraphs and lists. The terms of a list stand behind two blanks; what they mean stands behind two or
more, or on the lines below, further in.
"""
import os
import re
import subprocess
import sys

TOP = os.path.dirname(os.path.dirname(os.path.abspath(__file__)))
LAUNCHER = os.path.join(TOP, "carbon")
PAGE = os.path.join(TOP, "docs", "carbon.1")
WORDS = os.path.join(TOP, "crates", "carbon_words", "src", "app.rt")
COMMANDS = ["serve", "script", "sample", "build", "try"]
TERM = re.compile(r"  (\S.*?)(?:  +(\S.*))?$")


def told(*words):
    return subprocess.run([LAUNCHER, *words], check=True, capture_output=True, text=True).stdout


def escaped(text):
    """A text as roff has it. What stands in backquotes is bold."""
    text = text.replace("\\", "\\e").replace("-", "\\-")
    text = re.sub(r"`([^`]*)`", r"\\fB\1\\fR", text)
    return re.sub(r"^([.'])", r"\\&\1", text, flags=re.MULTILINE)


def blocks_of(text):
    """The title of a text, its usages, and what follows them: pairs of a heading, which paragraphs lack, and the lines."""
    title, usage, *blocks = text.rstrip("\n").split("\n\n")
    usages = [line.split(None, 1)[1] if at == 0 else line.strip() for at, line in enumerate(usage.splitlines())]
    found = []
    for block in blocks:
        first, _, rest = block.partition("\n")
        is_list = re.fullmatch(r"[A-Z][A-Za-z ]*:", first) is not None
        found.append((first[:-1], rest.splitlines()) if is_list else (None, block.splitlines()))
    return title, usages, found


def terms_of(lines):
    """The terms of a list, with what they mean."""
    terms = []
    for line in lines:
        term = TERM.fullmatch(line) if line[2] != " " else None
        if term:
            terms.append((term[1], [term[2]] if term[2] else []))
        else:
            terms[-1][1].append(line.strip())
    return [(term, " ".join(meaning)) for term, meaning in terms]


def roff_of(heading, lines):
    if heading is None:
        return [".PP", *map(escaped, lines)]
    made = []
    for term, meaning in terms_of(lines):
        made += [".TP", "\\fB%s\\fR" % escaped(term), escaped(meaning)]
    return made


def page():
    title, usages, blocks = blocks_of(told("help"))
    texts = {command: blocks_of(told("help", command)) for command in COMMANDS}
    version = told("--version").splitlines()[0]
    lines = ['.\\" Made by packaging/man.py of what the launcher prints as help.', '.TH CARBON 1 "" "%s" ""' % version]
    lines += [".SH NAME", escaped(title).replace(" \\- ", " \\- ", 1), ".SH SYNOPSIS"]
    for usage in usages + [usage for _, own, _ in texts.values() for usage in own]:
        lines += ["\\fB%s\\fR" % escaped(usage), ".br"]
    lines[-1:] = [".SH DESCRIPTION"]
    for heading, own in blocks:
        if heading is not None:
            lines.append(".SH %s" % heading.upper())
        lines += roff_of(heading, own)
        if heading == "Commands":
            for command, (_, _, of_command) in texts.items():
                lines.append(".SS carbon %s" % command)
                for below, its in of_command:
                    lines += roff_of(below, its)
    return "\n".join(lines) + "\n"


def missing_options():
    """The options of the program that no help names, and those in a help that the program does not have."""
    with open(WORDS) as file:
        known = set(re.findall(r'(?:option|repeatable|flag)\(alloc, "([a-z-]+)"\)', file.read()))
    named = set(re.findall(r"^  --([a-z-]+)", "".join(told("help", command) for command in COMMANDS), re.MULTILINE))
    return sorted(known - named), sorted(named - known)


def check():
    with open(PAGE) as file:
        is_same = file.read() == page()
    untold, unknown = missing_options()
    if not is_same:
        print("docs/carbon.1 is not what the help of the launcher comes to; packaging/man.py makes it")
    for option in untold:
        print("the help of the launcher does not name --%s" % option)
    for option in unknown:
        print("the help of the launcher names --%s, which the program does not have" % option)
    return 0 if is_same and not untold and not unknown else 1


def main():
    if sys.argv[1:] == ["--check"]:
        sys.exit(check())
    if sys.argv[1:]:
        sys.exit(__doc__)
    with open(PAGE, "w") as file:
        file.write(page())


main()
