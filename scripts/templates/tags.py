#!/usr/bin/env python3
"""Makes templates of licence tags: one for each identifier or expression that is given.

Each template goes to OUT/NAME-identifier.template.txt and describes `SPDX-License-Identifier: IDENTIFIER`. With --field it goes
to OUT/NAME-field.template.txt and describes the field of a manifest or header: `"license": "IDENTIFIER"`, `license = "IDENTIFIER"`,
`:license: IDENTIFIER`. An identifier of seven letters has six templates, NAME-field, NAME-field-e .., one of six ten, and a shorter one
thirteen, NAME-field, NAME-field-b ..: a file is searched for the longest text of a template, and with one for all forms that would be the word
`license`, which is frequent. NAME is the identifier, with `-` for blanks and without parentheses, so `(A OR B)` and `A OR B` cannot both be given. A file of that name is
written anew.

Identifiers come from the command line, from FILE (one on each line; `#` begins a comment), and from the names of the templates in
DIR: `tags.py --folder license-list-data/template OUT` makes a tag for each licence that is published. An expression is one
identifier, so it is given in quotes: `tags.py OUT 'Apache-2.0 WITH LLVM-exception'`.

A tag is found wherever its tokens are. The template of `MIT` is also found in `SPDX-License-Identifier: MIT OR ISC` and in that of
`MIT-0`. Where the longer one has a template too, only the longer one is reported: give each expression and each longer
identifier that your files hold.

Status: 0 if the templates are written, 2 if not.
"""
import argparse
import os
import re
import sys

ENDING = ".template.txt"
LETTERS = ["", *(f"-{letter}" for letter in "bcdefgh")]

TAG = "SPDX-License-Identifier: {}\n"


def optional(text):
    return f"<<beginOptional>>{text}<<endOptional>>"


# a quote, underscores, a colon or an equals sign, the end of a tag of XML, a bracket, a quote
FIELD = "license " + "".join(map(optional, ['"', "__", ":", "=", ">", "[", '"'])) + "{}\n"
# The same of an identifier that is not longer than `license`: each form has a text with the identifier in it that is. Of one of seven letters that is
# the identifier with the mark before it.
MIDDLE_FIELDS = {
    "": "license " + optional('"') + ": {}\n",
    "-e": "license {}\n",
    "-m": "license " + "".join(map(optional, ['"', ":", "="])) + "[{}\n",
    "-p": "license = {}\n",
    "-u": FIELD.replace(optional('"') + "{}", '"{}'),
    "-x": "license>{}\n",
}
SHORT_FIELDS = {
    "": "license: {}\n",
    "-b": "license\": \"{}\n",
    "-c": "license = \"{}\n",
    "-d": "license__ = \"{}\n",
    "-e": "license {}\n",
    "-f": "license \"{}\n",
    "-l": "license: \"{}\n",
    "-m": "license: [{}\n",
    "-n": "license: [\"{}\n",
    "-o": "license\": [\"{}\n",
    "-p": "license = {}\n",
    "-q": "license [{}\n",
    "-x": "license>{}\n",
}
# Of one of six letters that is the identifier with the two marks before it.
SIX_FIELDS = {suffix: text for suffix, text in SHORT_FIELDS.items() if suffix not in ("-d", "-l", "-o")} | {
    "-b": "license " + optional('"') + ": \"{}\n",
    "-c": "license " + optional("__") + "= \"{}\n",
    "-n": "license " + "".join(map(optional, ['"', ":", "="])) + "[\"{}\n",
}


def fields_of(identifier):
    """The ends of the names of the templates of a field, and their texts."""
    longer = len(identifier) - len("license")
    texts = {"": FIELD} if longer > 0 else MIDDLE_FIELDS if longer == 0 else SIX_FIELDS if longer == -1 else SHORT_FIELDS
    return [("-field" + letter, text) for letter, text in texts.items()]


def read_list(path):
    """The identifiers of a file, one on each line."""
    with open(path, encoding="utf-8") as file:
        lines = [line.split("#")[0].strip() for line in file]
    return [line for line in lines if line]


def read_folder(path):
    """The identifiers of the templates in a folder. The published names of old identifiers begin with `deprecated_`."""
    names = sorted(os.listdir(path))
    return [name.removesuffix(ENDING).removeprefix("deprecated_") for name in names if name.endswith(ENDING) and name != ENDING]


def name_of(identifier):
    """The name of an identifier's file, without its ending. Raises ValueError where it is no identifier or expression."""
    if not re.fullmatch(r"[A-Za-z0-9.+()_-]+( [A-Za-z0-9.+()_-]+)*", identifier):
        raise ValueError(f"not an identifier or expression: {identifier}")
    return re.sub(r"[()]", "", identifier).replace(" ", "-")


def named(identifiers):
    """Each name with its identifier. Raises ValueError where two have one name."""
    known = {}
    for identifier in (" ".join(it.split()) for it in identifiers):
        other = known.setdefault(name_of(identifier), identifier)
        if other != identifier:
            raise ValueError(f"two with one name: {other}, {identifier}")
    return known


def read_arguments():
    parser = argparse.ArgumentParser(description=__doc__, formatter_class=argparse.RawDescriptionHelpFormatter,
                                     usage="tags.py [--field] [--list FILE] [--folder DIR] OUT [IDENTIFIER ..]")
    parser.add_argument("out", metavar="OUT", help="the folder of the templates; it is made where it is missing")
    parser.add_argument("identifiers", metavar="IDENTIFIER", nargs="*", help="an identifier or an expression")
    parser.add_argument("--list", metavar="FILE", help="identifiers, one on each line")
    parser.add_argument("--folder", metavar="DIR", help="a folder whose templates are named as the identifiers")
    parser.add_argument("--field", action="store_true", help="templates of fields in place of tags")
    return parser.parse_args()


def main():
    arguments = read_arguments()
    try:
        identifiers = list(arguments.identifiers)
        identifiers += read_list(arguments.list) if arguments.list else []
        identifiers += read_folder(arguments.folder) if arguments.folder else []
        known = named(identifiers)
        os.makedirs(arguments.out, exist_ok=True)
        for name, identifier in known.items():
            for suffix, text in fields_of(identifier) if arguments.field else [("-identifier", TAG)]:
                with open(os.path.join(arguments.out, name + suffix + ENDING), "w", encoding="utf-8") as file:
                    file.write(text.format(identifier))
    except (OSError, ValueError) as error:
        print(f"tags.py: {error}", file=sys.stderr)
        return 2
    return 0


if __name__ == "__main__":
    sys.exit(main())
