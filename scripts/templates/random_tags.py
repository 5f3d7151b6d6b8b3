#!/usr/bin/env python3
"""Tries random expressions of the grammar of SPDX as tags: random_tags.py PROGRAM [--count N] [--operators N] [--seed N]

Each has up to N operators, identifiers of the set and others, some with dots, `+`, LicenseRef- and DocumentRef- ones, exceptions,
parentheses at any depth, and operators in either case. Each is to be reported by one line: whole, or by a template that says that it is cut, or
that a dot follows. With --whole the templates are those of examples/expressions, and none may be cut but one with a dot before a letter, and at
the end of a file one of more items than they have. Status: 0 if each is as it is to be.
"""
import argparse
import collections
import os
import random
import re
import subprocess
import sys
import tempfile

import expressions
import starter
import tags
import whole_expressions

sys.path.insert(0, os.path.join(os.path.dirname(os.path.abspath(__file__)), "..", "report"))
import lines

KNOWN = tags.read_list(os.path.join(os.path.dirname(os.path.abspath(__file__)), "tags.txt"))
WORDS = ["Own", "MIT", "Foo", "2.0", "or", "later", "and", "with", "GPL", "1", "clause", "x", "B2", "Long" * 20]
# what is after a tag, such as a dot, and a comment in reStructuredText
FOLLOWING = ["", "\n", "\n#include <a.h>\n", "\nint main(void);\n", "\n\nCopyright 2020 A. Author\n", "\nSPDX-License-Identifier: MIT\n",
             "\n.text\n", "\n\n.PHONY: all\n", "\n.. a comment\n", ".", ".\nint main(void);\n", ".;\n"]


def identifier(draw):
    kind = draw.random()
    own = draw.choice(WORDS) + "".join(draw.choice(("-", "-", "-", "-", "-", ".", "..")) + draw.choice(WORDS) for _ in range(draw.choice((0, 0, 1, 1, 2, 3, 5, 8))))
    if kind < 0.5:
        found = draw.choice(expressions.LAST if kind < 0.25 else KNOWN)
        return found.rstrip("+") + "+" if draw.random() < 0.1 else found
    if kind < 0.65:
        return f"{draw.choice(KNOWN).rstrip('+')}{draw.choice('---.')}{own}"
    if kind < 0.8:
        return f"LicenseRef-{own}"
    return f"DocumentRef-{own}:LicenseRef-{own}" if kind < 0.85 else own + ("+" if draw.random() < 0.1 else "")


def expression(draw, operators):
    """An expression of this number of operators."""
    if operators == 0:
        found = identifier(draw)
    elif operators == 1 and draw.random() < 0.2:
        found = f"{identifier(draw)} {draw.choice(('WITH', 'with'))} {draw.choice([*expressions.EXCEPTIONS, 'Own-exception-1.0'])}"
    else:
        left = draw.randrange(operators)
        found = f"{expression(draw, left)} {draw.choice(('OR', 'AND', 'or', 'and'))} {expression(draw, operators - 1 - left)}"
    return f"({found})" if draw.random() < 0.15 else found


def plain(text):
    """An expression without its parentheses, which templates have in part."""
    return " ".join(re.sub(r"[()]", " ", text.replace("\\n", " ").lower()).split())


def may_be_cut(tag, following):
    """Whether examples/expressions have too few items for a tag, or a dot before a letter, which is in the tag or follows a name of one's own."""
    items = len(re.findall(r"[-.+):]|\b(?:or|and|with)\b", tag.lower()))
    is_dotted = re.search(r"\.[A-Za-z]|\.\.", tag) or following.startswith(".") or (following.strip().startswith(".") and "LicenseRef" in tag)
    return bool(is_dotted) or (not following.strip() and items > whole_expressions.MOST_ITEMS)


def kind_of(tag, following, match):
    """Whether a tag is whole in a match, or cut and said to be."""
    if plain(match.whole or "") == plain(tag):
        return "whole"
    return "cut" if match.licence is None or match.id.endswith("-dot") else "wrong"


class Match(lines.Match):
    @property
    def whole(self):
        """What the template says of a tag, without a name of Debian made to one of SPDX."""
        name = re.fullmatch("(?!LicenseRef|DocumentRef|unknown)(.*)-identifier(-b)?", self.id)
        return name[1] if name and not self.is_joined else self.licence


def trial(program, folder, count, operators, seed, whole=False):
    """The faults of this number of tags, and how many are whole and cut; if they are to be whole, those that are cut are faults, too."""
    draw, faults, tally = random.Random(seed), [], collections.Counter()
    with tempfile.TemporaryDirectory() as place:
        drawn = {}
        for number in range(count):
            tag = expression(draw, draw.randrange(draw.choice((1, 2, 3, 6, operators)) + 1))
            following = draw.choice(FOLLOWING)
            drawn[str(number)] = tag, following
            with open(os.path.join(place, str(number)), "w", encoding="utf-8") as file:
                file.write(f"// SPDX-License-Identifier: {tag}{following}")
        names = list(drawn)
        found = collections.defaultdict(list)
        for at in range(0, len(names), 5000):
            done = subprocess.run([program, "scan", "--templates", os.path.abspath(folder), "--", *names[at:at + 5000]], cwd=place, stdout=subprocess.PIPE, check=False, text=True)
            for match in lines.matches(done.stdout.splitlines()):
                # the tag that follows some is not looked at
                if match.start < 10:
                    found[match.file].append(Match(**dict(vars(match), file=os.path.join(place, match.file))))
        for name, (tag, following) in drawn.items():
            kinds = [kind_of(tag, following, match) for match in found[name]]
            if kinds == ["whole"] or kinds == ["cut"] and (not whole or may_be_cut(tag, following)):
                tally[kinds[0]] += 1
            else:
                tally["wrong"] += 1
                faults.append(f"{tag}{following}: {[(it.id, it.values) for it in found[name]]}")
    return faults, tally


def main():
    parser = argparse.ArgumentParser(description=__doc__, formatter_class=argparse.RawDescriptionHelpFormatter)
    parser.add_argument("program")
    parser.add_argument("--whole", action="store_true")
    parser.add_argument("--count", type=int, default=20000)
    parser.add_argument("--operators", type=int, default=40)
    parser.add_argument("--seed", type=int, default=1)
    asked = parser.parse_args()
    folder = starter.EXPRESSIONS if asked.whole else starter.GRANTS
    faults, tally = trial(os.path.abspath(asked.program), folder, asked.count, asked.operators, asked.seed, asked.whole)
    print(*faults, sep="\n", end="\n" if faults else "")
    print(", ".join(f"{count} {kind}" for kind, count in sorted(tally.items())))
    return 1 if faults else 0


if __name__ == "__main__":
    sys.exit(main())
