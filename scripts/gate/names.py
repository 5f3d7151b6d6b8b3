#!/usr/bin/env python3
"""Whether what the documents name is there: the file and the heading of each link, and in some source each name of code (a word with `_`, or with a
capital inside) that is in backticks. Examples between lines of ``` are passed over."""
import os
import re
import sys

TOP = os.path.dirname(os.path.dirname(os.path.dirname(os.path.abspath(__file__))))
# texts of licences, which are no document of this project
OTHERS = {"examples/TEMPLATES.md"}
# names of std, of a regex library, and of pages of the kit
OUTSIDE = {"BufWriter", "from_utf8_lossy", "PatternID", "find_iter", "FIRST_PROOFS", "SHORTER_PROOFS"}
LINK = re.compile(r"\[[^\]]*\]\(([^)\s]+)\)")
CODE = re.compile(r"`([^`]+)`")
NAME = re.compile(r"\w*(?:_|[a-z][A-Z])\w*")
ANCHOR = re.compile(r'<a id="([^"]+)">')


def files():
    """The paths of all files, but for what was built."""
    for at, folders, names in os.walk(TOP):
        folders[:] = sorted(it for it in folders if it not in (".git", "out", "__pycache__"))
        yield from (os.path.relpath(os.path.join(at, name), TOP) for name in sorted(names))


def text_of(path):
    with open(os.path.join(TOP, path), encoding="utf-8", errors="replace") as file:
        return file.read()


def prose(path):
    """A document without its examples."""
    return re.sub(r"```.*?```", "", text_of(path), flags=re.S)


def anchors(path):
    """What a link can lead to within a document: its headings, and the places that it names."""
    headings = re.findall(r"^#+ (.*)$", prose(path), re.M)
    return {re.sub(r"[^\w\- ]", "", it.lower()).replace(" ", "-") for it in headings} | set(ANCHOR.findall(text_of(path)))


def faults_of_links(path):
    for link in LINK.findall(prose(path)):
        if link.startswith("http"):
            continue
        file, _, heading = link.partition("#")
        to = os.path.normpath(os.path.join(os.path.dirname(path), file)) if file else path
        if not os.path.exists(os.path.join(TOP, to)):
            yield f"{path}: no file {link}"
        elif heading and heading not in anchors(to):
            yield f"{path}: no heading {link}"


def faults_of_names(path, known):
    for code in CODE.findall(prose(path)):
        for name in NAME.findall(code):
            # a name may be cut, as in `_the_end` and `matches_are_found..`
            is_cut = name.startswith("_") or name.endswith("_") or ".." in code
            if not (name in known or name in OUTSIDE or name[0].isdigit() or is_cut):
                yield f"{path}: no {name} in the sources"


def main():
    paths = list(files())
    documents = [it for it in paths if it.endswith(".md") and it not in OTHERS]
    known = set(re.findall(r"\w+", "\n".join(paths)))
    for path in paths:
        if not path.endswith(".md"):
            known.update(re.findall(r"\w+", text_of(path)))
    faults = [it for path in documents for it in (*faults_of_links(path), *faults_of_names(path, known))]
    print("\n".join([*faults, f"{len(documents)} documents, {len(faults)} bad"]))
    sys.exit(bool(faults))


main()
