#!/usr/bin/env python3
"""Counts what each line of a file of line rules gains and loses on real sources: trial.py PROGRAM RULES FOLDER..

Each line that the profile has not is tried alone, added to the profile, on the files below the folders that say licence, copyright, warranty,
redistribute or public domain. A row counts, for each kind of template, the licences of files that are then found better, and those that are found
worse: by a text, or by a notice, tag or field, or by a mention, or not at all. `--show` lists them. The last row is that of all lines together.
A line whose text no template has is tried on those files alone in which it occurs: it changes no other.
"""
import argparse
import os
import re
import subprocess
import sys
import tempfile

TOP = os.path.dirname(os.path.dirname(os.path.dirname(os.path.abspath(__file__))))
sys.path.append(f"{TOP}/scripts/templates")
import starter

SAYS = re.compile(rb"licen[cs]e|copyright|warrant|redistribut|public domain", re.IGNORECASE)
SUFFIX = re.compile(r"-(identifier|field|notice|mention)(-[b-z])?(-dot)?$")
RANKS = {"mention": 1, "notice": 2, "identifier": 2, "field": 2}
MAX_BYTES = 1_000_000
FILES_OF_A_RUN = 1000


def rules_of(path):
    """The lines of a file of rules that are no remarks."""
    with open(path, encoding="utf-8") as file:
        return [line.strip() for line in file if line.strip() and not line.startswith("#")]


def occurs(line, path):
    """Whether the text of a rule is in the file, with its white space."""
    word, text = line.split(maxsplit=1)
    pattern = re.escape(text.encode())
    pattern = {"lead-space": pattern + rb"[\s\x80-\xff]", "tail-space": rb"[\s\x80-\xff]" + pattern}.get(word, pattern)
    with open(path, "rb") as file:
        return bool(re.search(pattern, file.read()))


def changed_by(line, files):
    """The files of which a line may change something: all, where it changes a template."""
    with starter.both() as templates:
        if any(occurs(line, os.path.join(templates, name)) for name in os.listdir(templates)):
            return files
    return [file for file in files if occurs(line, file)]


def files_below(folders):
    for folder in folders:
        for at, _, names in os.walk(folder):
            for path in (os.path.join(at, name) for name in sorted(names)):
                if os.path.isfile(path) and not os.path.islink(path) and os.path.getsize(path) <= MAX_BYTES and path.isprintable():
                    with open(path, "rb") as file:
                        data = file.read()
                    if b"\0" not in data and SAYS.search(data):
                        yield path


def found(program, rules, files):
    """By file and licence how well it is found: 3 by a text, 2 by a notice, tag or field, 1 by a mention."""
    best = {}
    with tempfile.NamedTemporaryFile("w", suffix=".rules") as file, starter.both() as templates:
        file.write("".join(f"{line}\n" for line in rules))
        file.flush()
        words = [program, "scan", "--templates", templates, "--rules", file.name, "--"]
        for start in range(0, len(files), FILES_OF_A_RUN):
            done = subprocess.run(words + files[start:start + FILES_OF_A_RUN], stdout=subprocess.PIPE, check=False)
            for fields in (line.split("\t") for line in done.stdout.decode("utf-8", "replace").split("\n")):
                if fields[0]:
                    kind = SUFFIX.search(fields[1])
                    key = fields[0], SUFFIX.sub("", fields[1])
                    best[key] = max(best.get(key, 0), RANKS[kind[1]] if kind else 3)
    return best


def compared(before, after):
    """The licences of files that are found better and worse, with both ranks."""
    keys = before.keys() | after.keys()
    ranks = {key: (before.get(key, 0), after.get(key, 0)) for key in keys}
    return {key: it for key, it in ranks.items() if it[1] > it[0]}, {key: it for key, it in ranks.items() if it[1] < it[0]}


def counts(changed):
    """Of texts, of notices, tags and fields, and of mentions: by the better of both ranks."""
    return [sum(max(ranks) == rank for ranks in changed.values()) for rank in (3, 2, 1)]


def main():
    parser = argparse.ArgumentParser(usage="trial.py [--show] PROGRAM RULES FOLDER..")
    parser.add_argument("program")
    parser.add_argument("rules")
    parser.add_argument("folders", nargs="+")
    parser.add_argument("--show", action="store_true")
    asked = parser.parse_args()
    profile = rules_of(f"{TOP}/examples/rules/profile.rules")
    added = [line for line in rules_of(asked.rules) if line not in profile]
    files = sorted(files_below(asked.folders))
    of_line = {line: changed_by(line, files) for line in added}
    every = sorted(set().union(*of_line.values()))
    before = found(asked.program, profile, every)
    print(f"{len(files)} files; licences found better and worse than by the profile, as texts / notices, tags, fields / mentions")
    for name, lines in [(line, [line]) for line in added] + [("all of these", added)]:
        tried = set(of_line.get(name, every))
        gained, lost = compared({key: it for key, it in before.items() if key[0] in tried}, found(asked.program, profile + lines, sorted(tried)))
        print(f"{name:24}  better {' / '.join(map(str, counts(gained))):18}  worse {' / '.join(map(str, counts(lost)))}", flush=True)
        if asked.show:
            for sign, changed in (("+", gained), ("-", lost)):
                for (file, licence), ranks in sorted(changed.items()):
                    print(f"  {sign} {ranks[0]} {ranks[1]} {licence}  {file}")


if __name__ == "__main__":
    sys.exit(main())
