#!/usr/bin/env python3
"""A line for each file, or for each folder: licscan scan .. | summary.py [--folders]

A file's licences: its texts, notices, tags and fields, or its mentions where it has nothing else. A family is left out beside a version of it.
A folder's line counts the files in it and below it by these answers. Files without a match have no line.
"""
import argparse
import collections
import itertools
import os
import sys

import lines


def shown(name):
    """A file name with the escapes that licscan writes."""
    return name.replace("\\", "\\\\").replace("\n", "\\n").replace("\r", "\\r").replace("\t", "\\t")


def main():
    parser = argparse.ArgumentParser(description=__doc__, formatter_class=argparse.RawDescriptionHelpFormatter)
    parser.add_argument("--folders", action="store_true")
    asked = parser.parse_args()
    lines.open_streams()
    answers = {}
    for file, found in itertools.groupby(lines.matches(sys.stdin), key=lambda it: it.file):
        answers[file] = ", ".join(lines.answer(list(found))) or "no licence named"
    if not asked.folders:
        for file in sorted(answers):
            print(f"{shown(file)}\t{answers[file]}")
        return 0
    folders = collections.defaultdict(collections.Counter)
    for file, answer in answers.items():
        parts = os.path.dirname(os.path.normpath(file)).split(os.sep)
        for count in range(0 if parts[0] else 1, len(parts) + 1):
            folders[os.sep.join(parts[:count]) or "."][answer] += 1
    for folder in sorted(folders):
        print(f"{shown(folder)}\t" + "; ".join(f"{count} {answer}" for answer, count in sorted(folders[folder].items(), key=lambda it: (-it[1], it[0]))))
    return 0


if __name__ == "__main__":
    sys.exit(main())
