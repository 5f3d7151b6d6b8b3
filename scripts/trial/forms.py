#!/usr/bin/env python3
"""Counts the projects in which each form of the starter set is found: forms.py FOLDER .. --licscan PROGRAM [--few N] [--examples FILE]

What is below FOLDER/NAME is the project NAME, as packages.py lays it out. Below a folder such as `vendor` or `node_modules` it is the project that
the next folder names; a file that a build tool copies (`config.guess`) is the tool's. Files of the same bytes count once; those that say no
licence, copyright, warranty or permission are left out. A template is found where it is reported, so not where a longer one is.

Some forms are a frame that any name fills: `licensed under the terms of NAME version 2`, `License: NAME`. Where such a form is found in less than
two projects, its name is looked for alone. Each line has a template, the number of projects, two of them, and the same of the name. With --examples
FILE has a line for each template that is found, mentions and tags too: its project, a file of it, and the words there; lines of others stay.
Status: 0 if each form, or its name, is in two projects, else 1.
"""
import argparse
import collections
import hashlib
import os
import re
import subprocess
import sys
import tempfile

sys.path.append(os.path.join(os.path.dirname(os.path.abspath(__file__)), "..", "templates"))
import listing
import starter

SAYS = (b"licen", b"copyright", b"warrant", b"permission", b"public domain", b"redistribut")
# folders of other projects, and folders there that are none
COPIES = re.compile(r"(vendor|third[-_]?party|node_modules|(site|dist)-packages|extern(al)?|deps|subprojects|bundled)$", re.IGNORECASE)
HOSTS = re.compile(r"(github|gitlab|golang|gopkg|google|k8s)\.\w+$|src$")
TOOLS = re.compile(r"config\.(guess|sub)|install-sh|ltmain\.sh|missing|depcomp|compile|mkinstalldirs|ylwrap|aclocal\.m4|configure|Makefile\.in(\.in)?|"
                   r"(lt|libtool|pkg|ax_).*\.m4|texinfo\.tex|test-driver|ar-lib|py-compile|INSTALL")
# tags are made of the list of identifiers; some templates keep others from being wrong
OTHERS = re.compile("cut-|expression-|.*-identifier(-[b-z])?(-dot)?$|no-grant-|(OR|AND)-field|.*-notice-x$")
OPTIONAL = r"<<beginOptional>>(?:[^<]|<<beginOptional>>[^<]*<<endOptional>>)*<<endOptional>>"
# what is before the name, in a form that any name fills
FRAME = re.compile(rf'((<<var;name="verb".*?>> |licensed |distributed |distribute this file |modify it )?under(?:{OPTIONAL}|\s|the |terms of the |either of )+|'
                   rf'free software.*?under\s+the terms of the |(subject to the terms( and conditions)?|according to the terms) of the |'
                   rf'the terms of (?:{OPTIONAL})?(?=version)|same terms as (?:{OPTIONAL})?|OSI Approved :: |Use of this source code is governed by an? |'
                   rf'the (?=GNU General Public License as published)|subject to version [\d.]+ of the |'
                   rf'cc:license rdf:resource="|licen[cs]es?(?![a-z])(?:-expression: | ?["_:=>]*|{{"type": "|{OPTIONAL}|\s|=>|\[)*)(?!to )(?=[A-Za-z0-9])', re.IGNORECASE | re.DOTALL)
# and what is after it: a version, `or later`, as published by .., what it is called or where its text is
END = re.compile(r'\s*(<<beginOptional>> ?[,(v].*|<<var;name="(version|later|next)".*|,? version .*|as published .*|(?<=\s)(v\d )?or later|\(>= .*|'
                 r'(?<=\s)(v\d )?\(L?GPLv\d\)|(?<=\s)v\d|\(the "License"\).*|\. See LICENSE|that can be found .*|\+ file|/?")?\s*$', re.DOTALL | re.IGNORECASE)
MAX_BYTES = 1_000_000
MOST_LETTERS = 160
FILES_OF_A_RUN = 500


def project_of(path):
    """The project of a file below one of the folders, by its path there."""
    *folders, name = path.split("/")
    if TOOLS.fullmatch(name):
        return name
    copies = [at for at, it in enumerate(folders) if COPIES.match(it)]
    rest = folders[copies[-1] + 1:] if copies else folders
    while len(rest) > 1 and HOSTS.match(rest[0]):
        rest = rest[1:]
    return re.sub(r"[-_.]v?\d.*", "", rest[0] if rest else name).lower() or name


def files_of(folders):
    """The paths of files that may hold a form, each with its project."""
    found, seen = {}, set()
    for folder in folders:
        for at, below, names in os.walk(folder):
            below[:] = sorted(it for it in below if it not in (".git", ".pc", ".apt"))
            for path in (os.path.join(at, name) for name in sorted(names)):
                if os.path.islink(path) or not os.path.isfile(path) or os.path.getsize(path) > MAX_BYTES or not path.isprintable() or "\\" in path:
                    continue
                with open(path, "rb") as file:
                    data = file.read().lower()
                digest = hashlib.sha1(data).digest()
                if b"\0" not in data and digest not in seen and any(it in data for it in SAYS):
                    seen.add(digest)
                    found[path] = project_of(os.path.relpath(path, folder))
    return found


def projects_of(program, texts, files):
    """The projects in which each of these templates is reported, each with a file and the bytes there."""
    projects, paths = collections.defaultdict(dict), list(files)
    with tempfile.TemporaryDirectory() as folder:
        for id, text in texts.items():
            with open(os.path.join(folder, id + starter.ENDING), "w", encoding="utf-8") as file:
                file.write(text)
        for start in range(0, len(paths), FILES_OF_A_RUN):
            words = [program, "scan", "--templates", folder, "--", *paths[start:start + FILES_OF_A_RUN]]
            done = subprocess.run(words, stdout=subprocess.PIPE, stderr=subprocess.DEVNULL, check=False)
            for fields in (line.split("\t") for line in done.stdout.decode("utf-8", "replace").splitlines()):
                if fields[0] in files:
                    projects[fields[1]].setdefault(files[fields[0]], (fields[0], int(fields[4]), int(fields[5])))
    return projects


def templates(folder):
    """All templates of a folder."""
    found = {}
    for name in sorted(os.listdir(folder)):
        if name.endswith(starter.ENDING):
            with open(os.path.join(folder, name), encoding="utf-8") as file:
                found[name.removesuffix(starter.ENDING)] = file.read()
    return found


def forms():
    """The templates of texts, notices and fields."""
    return {id: text for id, text in templates(starter.GRANTS).items() if not OTHERS.match(id) and not listing.guarded(id)}


def words_of(path, start, end):
    """The words of a match, without the marks of a comment before its lines."""
    with open(path, "rb") as file:
        text = file.read()[start:end].decode("utf-8", "replace")
    words = " ".join(re.sub(r"(?m)^\s*(?://+|#+|\*+(?!/)|;+|--|dnl\b|%+|\.\\\")?", "", text).split())
    return words if len(words) <= MOST_LETTERS else words[:MOST_LETTERS].rsplit(" ", 1)[0] + " .."


def write_examples(path, found, folders):
    """A line for each template that is found: its project with the shortest file name, the file, and the words. Lines of other templates stay."""
    with open(path, encoding="utf-8") as file:
        rows = dict(line.rstrip("\n").split("\t", 1) for line in file)
    for id, projects in found.items():
        project, (name, start, end) = min(projects.items(), key=lambda it: (len(it[1][0]), it[0]))
        top = next(it for it in folders if name.startswith(os.path.join(it, "")))
        rows[id] = "\t".join([project, os.path.relpath(name, top), words_of(name, start, end)])
    with open(path, "w", encoding="utf-8") as file:
        file.writelines(f"{id}\t{row}\n" for id, row in sorted(rows.items()))


def name_of(text):
    """The name that fills the frame of a form."""
    return END.sub("", FRAME.sub("", text, count=1))


def shown(projects):
    return f"{len(projects)}\t{', '.join(sorted(projects)[:2]) or '-'}"


def main():
    parser = argparse.ArgumentParser(description=__doc__, formatter_class=argparse.RawDescriptionHelpFormatter)
    parser.add_argument("folders", nargs="+")
    parser.add_argument("--licscan", metavar="PROGRAM", required=True)
    parser.add_argument("--few", type=int, metavar="N", help="forms of at most N projects alone")
    parser.add_argument("--examples", metavar="FILE")
    asked = parser.parse_args()
    files, texts = files_of(asked.folders), forms()
    if asked.examples:
        found = projects_of(asked.licscan, templates(starter.GRANTS) | templates(starter.MENTIONS), files)
        write_examples(asked.examples, found, asked.folders)
    found = projects_of(asked.licscan, texts, files)
    names = {id: name_of(text) for id, text in texts.items() if len(found[id]) < 2 and FRAME.match(text)}
    named = projects_of(asked.licscan, names, files)
    for id in texts:
        if asked.few is None or len(found[id]) <= asked.few:
            print(id, shown(found[id]), shown(named[id]) if id in names else "", sep="\t")
    by_name = sum(len(named[id]) > 1 for id in names)
    in_two = sum(len(found[id]) > 1 for id in texts)
    print(f"{len(files)} files of {len(set(files.values()))} projects: of {len(texts)} forms {in_two} in two or more, {by_name} by frame and name, "
          f"{len(texts) - in_two - by_name} not")
    return 0 if in_two + by_name == len(texts) else 1


if __name__ == "__main__":
    sys.exit(main())
