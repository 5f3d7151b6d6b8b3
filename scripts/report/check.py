#!/usr/bin/env python3
"""Fails on a licence that is not in a list: licscan scan .. | check.py [--mentions] LIST

LIST has an identifier, or an identifier `WITH` an exception, on each line; `#` begins a comment. Of an expression one side of `OR` and both
sides of `AND` have to be in the list. Each fault is a line `FILE:LINE:COLUMN: LICENCE is not in the list (TEMPLATE)`, with the column in bytes,
from 1. Mentions count with --mentions. Status: 0 without a fault, 1 with one, 2 where a file cannot be read.
"""
import argparse
import re
import sys

import lines


def is_allowed(expression, allowed):
    """Whether an expression of identifiers is one of those that are in the list."""
    words = re.findall(r"[()]|[^\s()]+", expression.lower())
    at = 0

    def taken(word):
        nonlocal at
        if at < len(words) and words[at] == word:
            at += 1
            return True
        return False

    def one():
        nonlocal at
        if taken("("):
            answer = either()
            taken(")")
            return answer
        name, at = lines.identifier(" ".join(words[at:at + 1])).lower(), at + 1
        if taken("with"):
            name, at = f"{name} with {' '.join(words[at:at + 1])}", at + 1
        return name in allowed

    def both():
        answer = one()
        while taken("and"):
            answer = one() and answer
        return answer

    def either():
        answer = both()
        while taken("or"):
            answer = both() or answer
        return answer

    return either()


def place_of(match, texts):
    """The line and the column at which a match begins."""
    if match.file not in texts:
        texts.clear()
        with open(match.file.encode("utf-8", "surrogateescape"), "rb") as file:
            texts[match.file] = file.read()
    data = texts[match.file]
    return data.count(b"\n", 0, match.start) + 1, match.start - data.rfind(b"\n", 0, match.start)


def main():
    parser = argparse.ArgumentParser(description=__doc__, formatter_class=argparse.RawDescriptionHelpFormatter)
    parser.add_argument("list")
    parser.add_argument("--mentions", action="store_true")
    asked = parser.parse_args()
    lines.open_streams()
    faults, texts = 0, {}
    try:
        with open(asked.list, encoding="utf-8") as file:
            allowed = {" ".join(map(lines.identifier, line.split("#")[0].split())).lower() for line in file} - {""}
        for match in lines.matches(sys.stdin):
            licence = match.licence
            if licence == "" or (match.is_mention and not asked.mentions) or (licence and is_allowed(licence.replace("/", " OR "), allowed)):
                continue
            line, column = place_of(match, texts)
            said = f"{licence} is not in the list" if licence else "a licence that is not known"
            print(f"{match.file}:{line}:{column}: {said} ({match.id})")
            faults += 1
    except OSError as error:
        print(f"check.py: {error}", file=sys.stderr)
        return 2
    return 1 if faults else 0


if __name__ == "__main__":
    sys.exit(main())
