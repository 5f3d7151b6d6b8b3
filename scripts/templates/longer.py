#!/usr/bin/env python3
"""Makes the notices of longer identifiers: longer.py OUT

NAME-notice-x, of each published identifier that goes on after one with which a notice ends, as BSD-3-Clause-Clear does after BSD-3-Clause: without it
`licensed under the BSD-3-Clause-Clear license` would be reported as BSD-3-Clause. The frames are those of these notices. (A notice of BSD-3-Clause and any
mark would take `under BSD-3-Clause - see LICENSE`, too.)
"""
import os
import sys

import fields
import tags

VERB = ('<<var;name="verb";original="licensed";match="licen[cs]ed|released|distributed|redistributed|available|published|provided|covered|copied|modify it|redistribute it|distribute it|modified|used">>'
        " under")
FRAME = VERB + "<<beginOptional>>:<<endOptional>> " + "".join(map(tags.optional, ["the ", "terms " + tags.optional("and conditions ") + "of ", "the "])) + "{}\n"
# those of notices that have less before the name
FRAMES = {"MIT": VERB + " {}\n"} | dict.fromkeys(["AGPL", "GPL", "LGPL"], f"{VERB} {tags.optional('the ')}{{}}\n")
# the identifiers with which notices end, and what goes on as others of their notices have it
SHORTER = "AGPL-3.0 Apache-2.0 BSD-2-Clause BSD-3-Clause GPL-2.0 GPL-3.0 LGPL-2.0 LGPL-2.1 LGPL-3.0 MIT MPL-2.0".split()
KNOWN = ("+", "-or-later")


def names():
    """The published identifiers that go on after one of these."""
    return [it for it in tags.read_list(os.path.join(fields.HERE, "tags.txt")) if any(fields.begins(name, it) and it not in [name + end for end in KNOWN] for name in SHORTER)]


def templates():
    """The names and the texts of all of them."""
    for name in names():
        yield f"{name}-notice-x", FRAMES.get(name.split("-")[0], FRAME).format(name)


def main():
    if len(sys.argv) != 2:
        sys.exit("usage: longer.py OUT")
    os.makedirs(sys.argv[1], exist_ok=True)
    for name, text in templates():
        with open(os.path.join(sys.argv[1], name + tags.ENDING), "w", encoding="utf-8") as file:
            file.write(text)


if __name__ == "__main__":
    main()
