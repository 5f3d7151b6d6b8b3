#!/usr/bin/env python3
"""Scores scanners against what maintainers state: score.py FOLDER [--licscan PROGRAM] [--rules FILE] [--licensecheck] [--lines NAME=FILE] [--most N] [--show]

FOLDER is that of packages.py. Of each package the text files are taken that say licence, redistribute, public domain, SPDX, copyright or warranty,
and for which debian/copyright states a licence. What a scanner says of a file is a set of names. It agrees if one is among those that are
stated; it is less exact if one is of the same family, and has no version, or has 'or later' where the other has not; else it says another
one, or is silent. `--lines` scores any scanner by lines of a file name (below FOLDER), a tab, and a licence or an expression.
Of licscan, texts, notices, tags and fields count; in the second row also mentions, where a file has nothing else. Paragraphs are often coarse (`Files: *`), so
another licence is not always the scanner's fault."""
import argparse
import os
import random
import re
import subprocess
import sys

import copyright_file
import licences

sys.path.append(os.path.join(os.path.dirname(os.path.abspath(__file__)), "..", "templates"))
import starter

SAYS = re.compile(rb"licen[cs]e|redistribut|public domain|SPDX|copyright|warrant", re.IGNORECASE)
MAX_BYTES = 1_000_000
FILES_OF_A_RUN = 500
VERDICTS = ["agree", "less exact", "other", "silent"]


def files_of(folder):
    """The names of the files below the folder that are scored, with what is stated of each."""
    rows = {}
    for package in sorted(os.listdir(folder)):
        places = [it.path for it in os.scandir(os.path.join(folder, package)) if it.is_dir()] if package[0] != "." else []
        for place in places:
            with open(os.path.join(place, "debian", "copyright"), encoding="utf-8", errors="replace") as file:
                stated = copyright_file.stated(file.read())
            for at, folders, names in os.walk(place):
                folders[:] = [it for it in folders if it not in (".git", ".pc")]
                for path in (os.path.join(at, name) for name in names):
                    licence = copyright_file.licence_of(stated, os.path.relpath(path, place))
                    if licence and path != os.path.join(place, "debian", "copyright") and says_licence(path):
                        rows[os.path.relpath(path, folder)] = licences.names_of(licence)
    return rows


def says_licence(path):
    if os.path.islink(path) or not os.path.isfile(path) or os.path.getsize(path) > MAX_BYTES or not path.isprintable() or "\\" in path:
        return False
    with open(path, "rb") as file:
        data = file.read()
    return b"\0" not in data and bool(SAYS.search(data))


def lines_of(words, folder, names):
    """The fields of each line that a command writes of the files."""
    for start in range(0, len(names), FILES_OF_A_RUN):
        done = subprocess.run([*words, *names[start:start + FILES_OF_A_RUN]], cwd=folder, stdout=subprocess.PIPE, stderr=subprocess.DEVNULL, check=False)
        yield from (line.split("\t") for line in done.stdout.decode("utf-8", "replace").splitlines())


def lines_of_licscan(program, rules, folder, names):
    """Its lines by the templates of grants and those of mentions together."""
    with starter.both() as templates:
        words = [os.path.abspath(program), "scan", "--templates", templates, *(["--rules", os.path.abspath(rules)] if rules else []), "--"]
        yield from lines_of(words, folder, names)


def said_by_licscan(program, rules, folder, names):
    """Grants, and where a file has none its mentions. A family is left out beside a version of it."""
    grants, mentions = {}, {}
    for fields in lines_of_licscan(program, rules, folder, names):
        if fields[0]:
            name, id = fields[0], fields[1]
            if not re.match("(unknown-identifier|(License|Document)Ref|expression-|cut-|(OR|AND)-field|no-grant|same-as-|other-file)|[A-Za-z]+-exception-", id):
                kept = mentions if re.search("-mention(-[b-z])?$", id) else grants
                kept.setdefault(name, set()).update(licences.names_of(licences.SUFFIX.sub("", id)))
        elif fields[1] in ("first", "beginning") and fields[2] != "-":
            last = re.match("(?:expression|cut)-(OR|AND)-(.*?)(-[b-d])?(-dot)?$", id)
            grants.setdefault(name, set()).update(licences.names_of(fields[4]) | (licences.names_of(last[2]) if last else set()))
        elif fields[1] == "next" and re.match("cut-(?!OR|AND|WITH|LicenseRef|DocumentRef)", id):
            grants.setdefault(name, set()).update(licences.names_of(licences.SUFFIX.sub("", id.removeprefix("cut-"))))
    said = {name: grants.get(name) or mentions.get(name, set()) for name in names}
    return {name: {one for one in it if not any(one == licences.family_of(other) != other for other in it)} for name, it in said.items()}, grants


def said_in_lines(lines):
    said = {}
    for fields in lines:
        if len(fields) > 1 and fields[0]:
            licence = re.sub(r"^\*No copyright\* |\[[^]]*\]", "", fields[1])
            said.setdefault(fields[0], set()).update(licences.names_of(licence) - {"unknown"})
    return said


def at_most(most, stated):
    """At most this number of files of each package."""
    by_package = {}
    for file in sorted(stated):
        by_package.setdefault(file.split("/")[0], []).append(file)
    drawn = random.Random(1)
    return {file: stated[file] for files in by_package.values() for file in drawn.sample(files, min(most, len(files)))}


def row(name, stated, said):
    """A line of the table: files by verdict, and the mean over packages of the part that agrees."""
    by_package = {}
    for file, names in stated.items():
        by_package.setdefault(file.split("/")[0], []).append(licences.verdict(names, said.get(file, set())))
    all_of = [verdict for verdicts in by_package.values() for verdict in verdicts]
    counts = " | ".join(str(all_of.count(it)) for it in VERDICTS)
    mean = sum(it.count("agree") / len(it) for it in by_package.values()) / len(by_package)
    return f"| {name} | {counts} | {100 * all_of.count('agree') / len(all_of):.1f} % | {100 * mean:.1f} % |"


def main():
    parser = argparse.ArgumentParser(description=__doc__, formatter_class=argparse.RawDescriptionHelpFormatter)
    parser.add_argument("folder")
    parser.add_argument("--licscan", metavar="PROGRAM")
    parser.add_argument("--rules", metavar="FILE", help="line rules for licscan")
    parser.add_argument("--licensecheck", action="store_true", help="licensecheck, which is on the path, reads whole files")
    parser.add_argument("--lines", metavar="NAME=FILE", action="append", default=[])
    parser.add_argument("--most", type=int, default=150, help="files of a package, drawn at random by a fixed seed: a large one outweighs all others")
    parser.add_argument("--show", action="store_true", help="the files on which licscan does not agree")
    asked = parser.parse_args()
    stated = at_most(asked.most, files_of(asked.folder))
    names = sorted(stated)
    print(f"{len({it.split('/')[0] for it in names})} packages, {len(names)} files\n")
    print("| scanner | " + " | ".join(VERDICTS) + " | agree | mean over packages |\n|---|" + "---|" * (len(VERDICTS) + 2))
    if asked.licscan:
        said, grants = said_by_licscan(asked.licscan, asked.rules, asked.folder, names)
        print(row("licscan, starter set", stated, grants), flush=True)
        print(row("the same with mentions", stated, said), flush=True)
    if asked.licensecheck:
        words = ["licensecheck", "--machine", "--lines=0", "--shortname-scheme=debian,spdx", "--"]
        beside = said_in_lines(lines_of(words, asked.folder, names))
        print(row("licensecheck", stated, beside), flush=True)
    for name, path in (it.split("=", 1) for it in asked.lines):
        with open(path, encoding="utf-8", errors="replace") as file:
            print(row(name, stated, said_in_lines(line.rstrip("\n").split("\t") for line in file)), flush=True)
    if asked.licscan and asked.licensecheck:
        others = [name for name in names if licences.verdict(stated[name], said[name]) == "other"]
        same = sum(licences.verdict(beside.get(name, set()), said[name]) in ("agree", "less exact") for name in others)
        print(f"\nOf {len(others)} files of which licscan says another one licensecheck says the same of {same}.")
    if asked.show and asked.licscan:
        for name in names:
            verdict = licences.verdict(stated[name], said[name])
            if verdict != "agree":
                print(verdict, name, ",".join(sorted(stated[name])), ",".join(sorted(said[name])) or "-", "" if name in grants else "no grant", sep="\t")


if __name__ == "__main__":
    sys.exit(main())
