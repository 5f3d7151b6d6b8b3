#!/usr/bin/env python3
"""Puts whole expressions in the place of tags that are said to be cut: whole.py WHOLE < LINES

LINES is what licscan says by the starter set, WHOLE what it says by examples/expressions of the same files, or of those with such a tag. Lines
whose template is `cut-..`, `unknown-identifier` or `..-dot` give way to those of WHOLE that begin at the same byte; all others stay. Status: 0.
"""
import re
import sys

import lines

# tags that may be cut, and expressions that are
OPEN = re.compile(r"cut-|unknown-identifier$|.*-dot$")
CUT = re.compile(r"cut-")


def groups(written):
    """The lines of each match: its own, and those of its variables."""
    found = []
    for line in written:
        if not line.startswith("\t"):
            found.append([])
        found[-1].append(line)
    return found


def place(group):
    """The file of a match, and the byte at which it begins."""
    fields = group[0].split("\t")
    return fields[0], fields[4]


def is_of(kind, group):
    return bool(kind.match(group[0].split("\t")[1]))


def main():
    if len(sys.argv) != 2:
        sys.exit("usage: whole.py WHOLE < LINES")
    lines.open_streams()
    with open(sys.argv[1], encoding="utf-8", errors="surrogateescape", newline="\n") as file:
        whole = {place(group): group for group in groups(file) if not is_of(CUT, group)}
    for group in groups(sys.stdin):
        sys.stdout.writelines(whole.get(place(group), group) if is_of(OPEN, group) else group)


if __name__ == "__main__":
    main()
