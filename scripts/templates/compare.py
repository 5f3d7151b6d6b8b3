#!/usr/bin/env python3
"""Counts the source files in which the starter templates find a licence beside those in which Debian's licensecheck does.

Files are picked at random, by a seed, from all source files below some folders that say 'license' or 'licence', at most six below one folder
such as /usr/lib/python3. Those in which licensecheck alone names a licence are listed.
Usage: compare.py PROGRAM [--count N] [--seed N] [FOLDER..]"""
import argparse
import os
import random
import re
import shutil
import subprocess
import sys

import starter

TOP = os.path.realpath(f"{os.path.dirname(os.path.realpath(__file__))}/../..")
FOLDERS = ["/usr/include", "/usr/lib", "/usr/share"]
ENDINGS = tuple(f".{it}" for it in "c cc cpp h hh hpp py pl pm rb js ts css sh java go rs el lua tcl m4 cmake".split())
MAX_BYTES = 1_000_000
MAX_OF_A_FOLDER = 6


def names_a_licence(path):
    try:
        if os.path.islink(path) or os.path.getsize(path) > MAX_BYTES:
            return False
        with open(path, "rb") as file:
            return bool(re.search(rb"licen[cs]e", file.read(), re.IGNORECASE))
    except OSError:
        return False


def sources_below(folders):
    for folder in folders:
        for at, _, files in os.walk(folder):
            yield from (f"{at}/{it}" for it in files if it.endswith(ENDINGS) and "\t" not in it and "\n" not in it)


def pick(files, count, seed):
    """Some of the files at random, few of them below one folder."""
    picked, of_folder = [], {}
    for path in random.Random(seed).sample(files, len(files)):
        folder = "/".join(path.split("/")[:4])
        if of_folder.get(folder, 0) < MAX_OF_A_FOLDER and len(picked) < count:
            of_folder[folder] = of_folder.get(folder, 0) + 1
            picked.append(path)
    return picked


def first_fields(words, files):
    """The output of a command on these files as lists of fields between tabs, one a line."""
    ran = subprocess.run([*words, *files], stdin=subprocess.DEVNULL, stdout=subprocess.PIPE, stderr=subprocess.DEVNULL)
    return [line.split("\t") for line in ran.stdout.decode("utf-8", "surrogateescape").splitlines()]


def found_by_program(program, files):
    """The files with a licence, and those of them with a text, notice, tag or field: not with mentions alone."""
    with starter.both() as templates:
        words = [program, "scan", "--templates", templates, "--rules", f"{TOP}/examples/rules/more-comments.rules", "--"]
        found = [fields[:2] for fields in first_fields(words, files) if fields[0]]
    return {name for name, _ in found}, {name for name, id in found if not re.search("-mention(-[b-z])?$", id)}


def found_by_licensecheck(files):
    lines = first_fields(["licensecheck", "--machine", "--lines=0", "--"], files)
    return {fields[0] for fields in lines if len(fields) > 1 and not fields[1].startswith(("UNKNOWN", "*No copyright* UNKNOWN"))}


def main():
    parser = argparse.ArgumentParser()
    parser.add_argument("program")
    parser.add_argument("--count", type=int, default=60)
    parser.add_argument("--seed", type=int, default=1)
    parser.add_argument("folders", nargs="*", default=FOLDERS)
    asked = parser.parse_args()
    if not shutil.which("licensecheck"):
        sys.exit("compare.py: licensecheck is not on the path (on Debian: apt install licensecheck)")
    all_files = sorted(it for it in sources_below(asked.folders) if names_a_licence(it))
    files = pick(all_files, asked.count, asked.seed)
    (ours, granted), theirs = found_by_program(asked.program, files), found_by_licensecheck(files)
    print(f"{len(files)} of {len(all_files)} source files that say 'license', seed {asked.seed}")
    print(f"the starter templates find one in {len(ours)}, in {len(ours - granted)} of these a mention alone; licensecheck in {len(theirs)}; both in {len(ours & theirs)}, neither in {len(set(files) - ours - theirs)}")
    for path in sorted(theirs - ours):
        print(f"licensecheck alone: {path}")


if __name__ == "__main__":
    main()
