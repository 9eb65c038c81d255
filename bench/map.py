#!/usr/bin/env python3
"""Compares crates.txt with the map of docs/DESIGN.md: the same crates under the same headings.

Usage: bench/map.py           says what differs, and is well only where nothing does
       bench/map.py --sort    puts the lines of crates.txt under the headings of the map, in its order

A heading of crates.txt is a line that begins with `# `; one of the map is a line in bold. A row of the map names its crates in its first column.
Nothing is proved or built. It takes a moment.
"""

import os
import re
import sys

ROOT = os.path.dirname(os.path.dirname(os.path.abspath(__file__)))
LIST = os.path.join(ROOT, "crates.txt")
DESIGN = os.path.join(ROOT, "docs", "DESIGN.md")


def lines_of(path):
    with open(path, encoding="utf-8") as file:
        return file.read().splitlines()


def listed():
    """The headings of crates.txt, each with its crates and their lines."""
    found, under = {}, ""
    for line in lines_of(LIST):
        if line.startswith("# "):
            under = line[2:]
        elif line.strip():
            found.setdefault(under, {})[re.match(r"\w+", line).group()] = line
    return found


def mapped():
    """The headings of the map, each with its crates."""
    lines = lines_of(DESIGN)
    start = lines.index("## The map")
    found, under = {}, ""
    for line in lines[start + 1 :]:
        if line.startswith("#"):
            break
        heading = re.fullmatch(r"\*\*(.+)\*\*", line)
        if heading:
            under = heading.group(1)
        elif line.startswith("| `"):
            found.setdefault(under, []).extend(re.findall(r"`(\w+)`", line.split("|")[1]))
    return found


def differences(crates, rooms):
    """What one of the two says and the other does not."""
    told = []
    if list(crates) != list(rooms):
        told.append("headings: crates.txt has %s, the map has %s" % (", ".join(crates), ", ".join(rooms)))
    here = {name: room for room, names in crates.items() for name in names}
    there = {name: room for room, names in rooms.items() for name in names}
    for name in sorted(set(here) | set(there)):
        if here.get(name) != there.get(name):
            told.append("%s: under %r in crates.txt, under %r in the map" % (name, here.get(name), there.get(name)))
    for room, names in rooms.items():
        twice = {name for name in names if names.count(name) > 1}
        told += ["%s: twice in the map" % name for name in sorted(twice)]
    return told


def sort(crates, rooms):
    """Writes crates.txt anew. A crate that the map lacks stays, behind all others."""
    rows = {name: row for names in crates.values() for name, row in names.items()}
    made = []
    for room, names in rooms.items():
        made += ["# " + room, *[rows.pop(name) for name in names if name in rows], ""]
    with open(LIST, "w", encoding="utf-8") as file:
        file.write("\n".join(made[:-1] + list(rows.values())) + "\n")


def main():
    if sys.argv[1:] == ["--sort"]:
        sort(listed(), mapped())
    elif sys.argv[1:]:
        sys.exit(__doc__)
    told = differences(listed(), mapped())
    print("\n".join(told) or "crates.txt and the map have the same crates under the same headings")
    sys.exit(1 if told else 0)


main()
