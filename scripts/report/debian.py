#!/usr/bin/env python3
"""Writes a draft of debian/copyright: licscan scan .. | debian.py [--name NAME]

Each file has its texts, notices, tags and fields, or its mentions where it has nothing else; a family is left out beside a version of it, and alone
is the version of it that a LICENSE or COPYING has in the file's folder, or else in one above. Names are Debian's. Years and holders are those of the
files' own notices and fields of SPDX, each holder once. The most frequent answer is that of `Files: *`; a folder whose files all have another one is
one glob, so a file without an answer goes with its folder. Licences end the page: a reference to /usr/share/common-licenses, or the text as a file or
the folder LICENSES has it, or FIXME. debian/copyright and quilt's .pc are left out, and what FILE.license has counts for FILE, too. It is run in the
folder of the files. What it writes is to be read: a file's licences may be a choice or a sum, FIXME is written where nothing is known, and `unknown`
for a tag that is cut.
"""
import argparse
import collections
import itertools
import os
import re
import sys

import lines
import notices

FORMAT = "https://www.debian.org/doc/packaging-manuals/copyright-format/1.0/"
COMMON = "/usr/share/common-licenses"
# identifiers of SPDX whose names in Debian's format differ by more than `+`
NAMES = {"MIT": "Expat", "Artistic-1.0-Perl": "Artistic", "BSD-2-Clause": "BSD-2-clause", "BSD-3-Clause": "BSD-3-clause",
         "BSD-4-Clause": "BSD-4-clause", "PSF-2.0": "Python", "Python-2.0": "Python"}
# a permission beside a licence
EXCEPTION = re.compile(r"([A-Za-z]+-exception)-([\d.]+-)?notice")
# a file that has the licence of its folder
OF_FOLDER = re.compile(r"(licen[cs]e|copying)([-._].*)?", re.IGNORECASE)
VERSIONED = re.compile(r"((?:[AL]?GPL|GFDL)-\d+(?:\.\d+)?)(-or-later|-only|\+)?$")


def name_of(identifier):
    """Debian's name of an identifier."""
    versioned = VERSIONED.match(identifier)
    if versioned:
        return versioned[1].removesuffix(".0") + ("+" if versioned[2] in ("-or-later", "+") else "")
    return NAMES.get(identifier, identifier)


def expression_of(licence):
    """An expression in Debian's words."""
    words = []
    for word in re.sub(r"([()])", r" \1 ", licence.replace("/", " OR ")).split():
        if words and words[-1] == "with":
            words.append(re.sub(r"-exception.*", "", word).replace("-", " ") + " exception")
        elif word in ("OR", "AND", "WITH"):
            words.append(word.lower())
        elif word not in "()":
            words.append(name_of(word))
    return " ".join(words)


def licence_of(names):
    """One field of all that a file has."""
    parts = sorted(set(map(expression_of, names)))
    both = ", and " if len(parts) > 1 and any(" or " in it for it in parts) else " and "
    return both.join(parts)


def exceptions_of(found):
    """The permissions beside a licence in a file, each with a match of it."""
    named = ((EXCEPTION.match(it.id), it) for it in found)
    return {it[1]: match for it, match in named if it}


def licences_of(found):
    """All that a file has. A permission counts where it is the only one, beside one licence of the GPL's family."""
    names, exceptions = lines.answer(found), exceptions_of(found)
    if len(names) == 1 and len(exceptions) == 1 and re.match("[AL]?GPL-", names[0]):
        return [f"{names[0]} WITH {next(iter(exceptions))}"]
    return names


def folders_of(file):
    """Its folder, the one above, and so on."""
    while file:
        file = os.path.dirname(file)
        yield file


def with_versions(answers, alone):
    """A family that is named alone, as in these files, is the version of it that the next LICENSE or COPYING at its file, or above, has."""
    of_folders = collections.defaultdict(set)
    for file, answer in answers.items():
        if OF_FOLDER.fullmatch(os.path.basename(file)) and " " not in answer:
            of_folders[os.path.dirname(file)].add(answer)
    versions = {}
    for file, answer in answers.items():
        family = answer.removesuffix("-style")
        if file in alone and family in lines.FAMILIES:
            found = ([it for it in of_folders[folder] if it.startswith(f"{family}-")] for folder in folders_of(file))
            nearest = next(filter(None, found), [])
            versions[file] = nearest[0] if len(nearest) == 1 else answer
    return answers | versions


def globs(answers):
    """The files of each answer, or folders whose files all have it; `*` for the most frequent one, which comes first."""
    below = collections.defaultdict(collections.Counter)
    for file, answer in answers.items():
        parts = file.split("/")
        for count in range(1, len(parts)):
            below["/".join(parts[:count])][answer] += 1
    most = collections.Counter(answers.values()).most_common(1)[0][0]
    found = {most: ["*"]}
    for file, answer in sorted(answers.items()):
        parts = file.split("/")
        folders = ("/".join(parts[:count]) for count in range(1, len(parts)))
        whole = next((it for it in folders if len(below[it]) == 1 and below[it][answer] > 1), None)
        glob = re.sub(r"[ *?\\]", "?", whole or file) + ("/*" if whole else "")
        if answer != most and glob not in found.setdefault(answer, []):
            found[answer].append(glob)
    return found


def paragraph_of(name, text):
    """The paragraph of a licence."""
    common = name.split(" with ")[0].removesuffix("+")
    if os.path.exists(os.path.join(COMMON, common)):
        body = [f"On Debian systems, the text of this licence is in {COMMON}/{common}."]
        body += ["", *text.split("\n")] if common != name.removesuffix("+") and text else []
    else:
        body = text.split("\n") if text else ["FIXME"]
    return f"License: {name}\n" + "\n".join(f" {line.rstrip()}" if line.strip() else " ." for line in body)


def text_of(match):
    """The text of a licence as a file has it, without the marks of a comment before its lines."""
    with open(match.file.encode("utf-8", "surrogateescape"), "rb") as file:
        text = file.read()[match.start:match.end].decode("utf-8", "replace")
    return "\n".join(re.sub(r"^\s*(?://+|#+|\*+(?!/)|;+|--|dnl\b|%+)?\s?", "", line) for line in text.split("\n"))


def page(found, name):
    """The whole file, of the matches of each file."""
    answers = {file: licence_of(licences_of(it)) or "FIXME" for file, it in found.items() if any(one.licence != "" for one in it)}
    # what is in NAME.license counts for NAME
    answers.update({it.removesuffix(".license"): answers[it] for it in list(answers) if it.endswith(".license") and os.path.exists(it.removesuffix(".license"))})
    # (a version may be called as its family: Artistic-1.0-Perl is Debian's Artistic)
    alone = {file for file, it in found.items() if all(name.removesuffix("-style") in lines.FAMILIES for name in licences_of(it))}
    answers = with_versions(answers, alone | {it.removesuffix(".license") for it in alone})
    texts = {name_of(one.id): one for it in found.values() for one in it if lines.SUFFIX.sub("", one.id) == one.id and one.licence}
    for file, answer in answers.items():
        if " with " in answer and exceptions_of(found.get(file, [])):
            texts.setdefault(answer, next(iter(exceptions_of(found[file]).values())))
    written = [f"Format: {FORMAT}" + (f"\nUpstream-Name: {name}" if name else "")]
    for answer, patterns in globs(answers).items() if answers else ():
        holders = notices.merged(itertools.chain.from_iterable(notices.read(file) for file in sorted(answers) if answers[file] == answer and file in found))
        written.append("Files: " + "\n ".join(patterns) + "\nCopyright: " + "\n ".join(holders or ["FIXME"]) + f"\nLicense: {answer}")
    names = sorted({it for answer in answers.values() for it in re.split(r",? (?:and|or) ", answer)})
    kept = {name_of(it): text for it, text in lines.kept_texts().items()}
    for it in names:
        written.append(paragraph_of(it, text_of(texts[it]) if it in texts else kept.get(it, "")))
    return "\n\n".join(written) + "\n"


def main():
    parser = argparse.ArgumentParser(description=__doc__, formatter_class=argparse.RawDescriptionHelpFormatter)
    parser.add_argument("--name", default="")
    asked = parser.parse_args()
    lines.open_streams()
    found = {}
    for match in lines.matches(sys.stdin):
        name = os.path.normpath(match.file)
        if name != "debian/copyright" and not name.startswith(".pc/"):
            found.setdefault(name, []).append(match)
    try:
        sys.stdout.write(page(found, asked.name))
    except OSError as error:
        print(f"debian.py: {error}", file=sys.stderr)
        return 2
    return 0


if __name__ == "__main__":
    sys.exit(main())
