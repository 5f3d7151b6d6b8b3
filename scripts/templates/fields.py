#!/usr/bin/env python3
"""Makes the templates of fields: fields.py OUT

- NAME-field ..: of each name of fields.txt, as `tags.py --field` makes them, and of each published identifier that goes on after one of these, as
  BSD-3-Clause-Clear does after BSD-3-Clause.
- cut-NAME-field ..: a field whose name goes on after one of these and is none, with the mark or word after it in the variable `next`: `-` of
  `"license": "MIT-Own"`.
- NAME-field-r: a field of an R package with a file beside the licence: `License: MIT + file LICENSE`.
- NAME-field-s, -t: the first of a list of licences, of a gem and of an old package.json. They end with a quote, so no name goes on.

A name goes on with a dash, an underscore, a plus, the word `with`, or a dot and a number; before a closing quote with a dot and a word of at most 13
characters. (Elsewhere a dot and a word are the end of a sentence and another one.) Each has a text with its name in it, so that it is tried where that
is: one template of all names, or one of a short name for all forms, would be tried at each `license` of a file.
"""
import os
import re
import sys

import tags

HERE = os.path.dirname(os.path.abspath(__file__))
# two licences in one field, and names in words, which have templates that are written by hand
CHOICES = ["MIT OR Apache-2.0", "Apache-2.0 OR MIT", "MIT/Apache-2.0", "Apache-2.0/MIT"]
IN_WORDS = {"GPL-field-w": "GNU GPL", "LGPL-field-w": "GNU LGPL", "Apache-2.0-field-w": "Apache 2.0", "BSD-3-Clause-field-v": "Modified BSD", "BSD-3-Clause-field-w": "New BSD"}
# names that R has for licences
OF_R = "AGPL-3 Artistic-2.0 BSD_3_clause GPL-2 GPL-3 LGPL-2 LGPL-2.1 LGPL-3 MIT".split()
WITH_FILE = "license: {} + file\n"
# names of lists of licences
OF_LISTS = "Apache-2.0 BSD BSD-2-Clause BSD-3-Clause GPL-2.0 GPL-3.0 ISC LGPL-2.1 LGPL-3.0 MIT MPL-2.0".split()
LISTS = {"-s": 'licenses = ["{}"\n', "-t": 'licenses": [{{"type": "{}"\n'}


def begins(name, other):
    """Whether a name is the beginning of another one, which goes on with a mark."""
    return bool(re.match(re.escape(name) + "[-+._]", other, re.IGNORECASE))


def names():
    """The names of the list, then the published ones that go on after one of these."""
    listed = tags.read_list(os.path.join(HERE, "fields.txt"))
    published = tags.read_list(os.path.join(HERE, "tags.txt"))
    return listed + [it for it in published if it not in listed and any(begins(name, it) for name in listed)]


def goes_on(name, known):
    """What shows that a name goes on, unless it makes another known name of it."""
    small = {it.lower() for it in known}
    marks = "[-_]" if f"{name}+".lower() in small else "[-+_]"
    digits = "".join(it for it in "0123456789" if f"{name}.{it}".lower() not in small)
    number = "[0-9][a-z0-9]{0,4}" if len(digits) == 10 else f"([{digits}]|[0-9][a-z0-9]{{1,4}})"
    others = "|/|or|and" if name in CHOICES else ""
    return f' <<var;name="next";original="-";match="{marks}|\\.{number}|\\.[a-z][-+._a-z0-9]{{0,12}}\'|with{others}">>\n'


def templates():
    """The names and the texts of all of them."""
    known = names()
    for name in known + CHOICES:
        for suffix, text in tags.fields_of(name):
            if name in known:
                yield tags.name_of(name) + suffix, text.format(name)
            yield f"cut-{tags.name_of(name.replace('/', ' OR '))}{suffix}{'-c' * ('/' in name)}", text.format(name).rstrip("\n") + goes_on(name, known)
    for id, words in IN_WORDS.items():
        yield f"cut-{id}", f"License: {words}{goes_on(words, known)}"
    for name in OF_R:
        yield f"{name}-field-r", WITH_FILE.format(name)
    for suffix, text in LISTS.items():
        yield from ((f"{name}-field{suffix}", text.format(name)) for name in OF_LISTS)


def main():
    if len(sys.argv) != 2:
        sys.exit("usage: fields.py OUT")
    os.makedirs(sys.argv[1], exist_ok=True)
    for name, text in templates():
        with open(os.path.join(sys.argv[1], name + tags.ENDING), "w", encoding="utf-8") as file:
            file.write(text)


if __name__ == "__main__":
    main()
