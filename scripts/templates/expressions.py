#!/usr/bin/env python3
"""Makes templates of tags that hold an expression, or an identifier without a template of its own: expressions.py OUT

A template reports its shortest ranges, so each ends with a text: the last operator of an expression and what follows it. Of several that begin
at one tag the longest is left, which is the whole expression, without a parenthesis at its end. Each template that could be whole has another one
that is longer where the tag goes on, so nothing is silently cut. By its end a file is searched, and not by the tag, where that is long enough to be
rare: a text of less than seven letters is looked for at each byte of every file.

- expression-OR-MIT, expression-AND-MIT, expression-WITH-LLVM-exception ..: an expression with this end; its beginning is a variable.
- expression-OR-GPL-2.0-c, cut-OR-GPL-2.0-c ..: the same with the last identifier in parentheses.
- cut-OR-MIT ..: the same, and a mark or an operator after it.
- MIT-identifier-dot, LicenseRef-identifier-dot, expression-OR-MIT-dot ..: an identifier, or an expression, then a dot: it goes on with it, as
  `GPL-2.0.1` does, or ends a sentence, or the next line begins with it (`.text`, `.. a comment`), and tokens do not tell which.
- cut-MIT ..: a tag of one identifier, and a mark or an operator after it; cut-MIT-c ..: parentheses and an operator. (Three parentheses before
  the identifier are a separator, which is no token.)
- MIT-identifier-b, cut-MIT-b ..: a tag of one identifier in parentheses, and the same with an operator after it.
- LicenseRef-identifier, -b, -c ..: one, two, three .. words after `LicenseRef-`; DocumentRef-identifier ..: the same of another document.
- cut-LicenseRef, cut-DocumentRef: more words than those have, or a mark or an operator after them.
- unknown-identifier: a tag alone, where it has none of these.
"""
import os
import sys

import tags

ENDING = tags.ENDING
HERE = os.path.dirname(os.path.abspath(__file__))
TAG = "SPDX-License-Identifier: "
# a file is searched by an identifier of this length or more
LONG_IDENTIFIER = 7
# the tag is optional, so that the end is the longest text, by which a file is searched; without it the colon has no place
OPTIONAL_TAG = "SPDX<<beginOptional>>-License-Identifier: <<endOptional>>"
OPEN = "<<beginOptional>>(<<endOptional>>"
OPERAND = "[-+.:()a-z0-9]{1,60}"
OPERATOR = "(or|and|with)"
# the marks of ASCII, as ranges of a set
MARKS = "!-/:-@[-`{-~"
# more than any expression has: what is not there costs nothing
MOST_OPERATORS = 100
MOST_PARENTHESES = 100
# an operator after parentheses that end
CLOSED = rf"\){{1,{MOST_PARENTHESES}}} " + OPERATOR
# the same after the first parenthesis
PAST_PARENTHESES = rf"(\){{1,{MOST_PARENTHESES}}} )?" + OPERATOR
WORD = "[a-z0-9]{1,200}"
JOINED = "[-._]{1,40}"
OWN = "[-._a-z0-9]{0,400}[a-z0-9]"
LONGEST_IDENTIFIER = 8
LETTERS = ["", *(f"-{letter}" for letter in "bcdefgh")]
LAST = """0BSD AGPL-3.0-only AGPL-3.0-or-later Apache-2.0 Artistic-1.0-Perl Artistic-2.0 BSD-2-Clause BSD-2-Clause-Patent BSD-3-Clause BSL-1.0 CC0-1.0
CC-BY-3.0 CC-BY-4.0 CC-BY-SA-3.0 CC-BY-SA-4.0 CDDL-1.0 EPL-1.0 EPL-2.0 EUPL-1.2 GPL-1.0-or-later GPL-2.0 GPL-2.0+ GPL-2.0-only
GPL-2.0-or-later GPL-3.0 GPL-3.0+ GPL-3.0-only GPL-3.0-or-later ISC LGPL-2.0-or-later LGPL-2.1 LGPL-2.1+ LGPL-2.1-only LGPL-2.1-or-later
LGPL-3.0-only LGPL-3.0-or-later LicenseRef-KDE-Accepted-GPL LicenseRef-KDE-Accepted-LGPL Linux-OpenIB MIT MIT-0 MPL-1.1 MPL-2.0 NCSA OFL-1.1
PSF-2.0 Python-2.0 Python-2.0.1 Unicode-3.0 Unicode-DFS-2016 Unlicense X11 Zlib""".split()
EXCEPTIONS = """Autoconf-exception-3.0 Bison-exception-2.2 Classpath-exception-2.0 GCC-exception-3.1 Linux-syscall-note LLVM-exception
OpenSSL-exception""".split()


def variable(name, original, pattern):
    return f'<<var;name="{name}";original="{original}";match="{pattern}">>'


def more(identifier, identifiers, *others):
    """What a tag goes on with after an identifier, at least: a mark or an operator; `+` is none where the identifier with it is another one.
    A dot has templates of its own, whose names do not say that the tag is cut."""
    marks = "-" if identifier + "+" in identifiers else "[-+]"
    return " " + variable("next", "OR", "|".join([marks, OPERATOR, *others]))


def ends(operator, last):
    """Of each template for this end of an expression: the end of its name, the beginning of its text, and the end. A file is searched by the end
    where that is long enough. An identifier in parentheses has a template of its own, so that the operator and the identifier are one text,
    which is rarer than the identifier."""
    if len(f"{operator} {last}") < LONG_IDENTIFIER:
        yield "", TAG, f" {operator} {OPEN}{OPEN}{last}"
        return
    yield "", OPTIONAL_TAG, f" {operator} {last}"
    if len(last) >= LONG_IDENTIFIER and operator != "WITH":
        yield "-c", OPTIONAL_TAG, f" {operator} {OPEN}({last}"


def dotted_ends(operator, last):
    """The same of an end with a dot, which is long enough without the tag."""
    if len(f"{operator} {last}") < LONG_IDENTIFIER:
        return [(letter, f" {operator} {opened}{last}") for letter, opened in (("", ""), ("-c", "("), ("-d", "(("))]
    return [(letter, end) for letter, _, end in ends(operator, last)]


def expressions():
    first = variable("beginning", "ISC", f"{OPERAND}( {OPERATOR} {OPERAND}){{0,{MOST_OPERATORS - 1}}}")
    known = [(operator, last) for operator in ("OR", "AND") for last in LAST] + [("WITH", last) for last in EXCEPTIONS]
    for operator, last in known:
        for letter, tag, end in ends(operator, last):
            yield f"expression-{operator}-{last}{letter}", tag + first + end
            yield f"cut-{operator}-{last}{letter}", tag + first + end + more(last, LAST, CLOSED)
        for letter, end in dotted_ends(operator, last):
            yield f"expression-{operator}-{last}{letter}-dot", OPTIONAL_TAG + first + end + "."
    for tag, last in ((OPTIONAL_TAG, "Apache-2.0"), (TAG, "MIT")):
        yield f"expression-OR-{last}-b", f"{tag}{first}/{last}"


def identifiers():
    """Tags of one identifier that go on, and identifiers without a template of their own."""
    known = tags.read_list(os.path.join(HERE, "tags.txt"))
    for identifier in known:
        yield f"cut-{identifier}", TAG + identifier + more(identifier, known)
        yield f"{identifier}-identifier-dot", TAG + identifier + "."
        yield f"cut-{identifier}-c", f"{TAG}{identifier}) {variable('next', 'OR', PAST_PARENTHESES)}"
    for identifier in [it for it in LAST if it in known]:
        yield f"{identifier}-identifier-b", f"{TAG}({identifier})"
        yield f"cut-{identifier}-b", f"{TAG}({identifier}) {variable('next', 'OR', OPERATOR)}"
    for kind, beginning in (("LicenseRef", "LicenseRef-"), ("DocumentRef", f"DocumentRef-{variable('document', 'Other', OWN)}:LicenseRef-")):
        for count in range(1, LONGEST_IDENTIFIER + 1):
            words = WORD + (f"({JOINED}{WORD}){{{count - 1}}}" if count > 1 else "")
            whole = TAG + beginning + variable("name", "-".join(["Own"] * count), words)
            yield f"{kind}-identifier{LETTERS[count - 1]}", whole
            yield f"{kind}-identifier{LETTERS[count - 1]}-dot", whole + "."
        yield f"cut-{kind}", f"{TAG}{beginning}{variable('name', 'Own', OWN)} {variable('next', 'OR', f'[+:]|{OPERATOR}|{CLOSED}')}"
        yield f"cut-{kind}-b", f"{whole} {variable('next', '-', '[-_]')}"
    yield "unknown-identifier", TAG.strip()


def main():
    if len(sys.argv) != 2:
        sys.exit("usage: expressions.py OUT")
    os.makedirs(sys.argv[1], exist_ok=True)
    for name, text in [*expressions(), *identifiers()]:
        with open(os.path.join(sys.argv[1], name + ENDING), "w", encoding="utf-8") as file:
            file.write(text + "\n")


if __name__ == "__main__":
    main()
