#!/usr/bin/env python3
"""Tries what check.py, summary.py, debian.py, spdx.py and whole.py make of licscan's lines. It runs no program."""
import sys
import tempfile

import check
import debian
import harness
import lines
import notices
import spdx
import whole

ALLOWED = {"mit", "apache-2.0", "gpl-2.0-only", "gpl-2.0-only with linux-syscall-note"}
# expressions, and whether they are allowed
EXPRESSIONS = [
    ("MIT", True), ("ISC", False), ("MIT OR ISC", True), ("MIT AND ISC", False), ("ISC OR MIT AND Apache-2.0", True), ("ISC OR MIT AND Zlib", False),
    ("(MIT OR ISC) AND Zlib", False), ("(MIT OR ISC) AND Apache-2.0", True), ("MIT AND (ISC OR Apache-2.0", True), ("GPL-2.0", True), ("GPL-2.0+", False),
    ("((GPL-2.0 WITH Linux-syscall-note) OR ISC", True), ("GPL-2.0-only WITH LLVM-exception", False),
]
# identifiers of templates, values, and the licences that they name
MATCHES = [
    ("MIT", [], "MIT"), ("MIT-notice-b", [], "MIT"), ("GPL-2.0-b", [], "GPL-2.0"), ("GPL-2+-field", [], "GPL-2.0-or-later"), ("Expat-field", [], "MIT"),
    ("GPL-2.0-identifier", [], "GPL-2.0-only"), ("GPL-2.0-mention", ["2"], "GPL-2.0"), ("expression-OR-MIT", ["ISC"], "ISC OR MIT"),
    ("expression-OR-MIT-b", ["ISC"], "ISC OR MIT"), ("LicenseRef-identifier-c", ["A-B.2"], "LicenseRef-A-B.2"), ("DocumentRef-identifier-b", ["A", "B-C"], "DocumentRef-A:LicenseRef-B-C"),
    ("expression", ["(MIT OR\n Own)", "int"], "MIT OR Own"), ("expression-OR-MIT", ["(ISC"], "ISC OR MIT"), ("expression", ["(A OR B) AND (C OR D)", "int"], "(A OR B) AND (C OR D)"), ("own-expression-end-2", ["LicenseRef-A.B"], "LicenseRef-A.B"), ("expression", ["MIT OR\n LicenseRef-A\n.text", "x"], "MIT OR LicenseRef-A"), ("own-expression-end-2", ["LicenseRef-A.\nint"], "LicenseRef-A"),
    ("cut-expression-b", ["MIT OR LicenseRef-A", ".B"], None), ("cut-OR-MIT", ["ISC", "AND"], None), ("cut-MIT", ["OR"], None), ("cut-LicenseRef-b", ["A", "-"], None), ("LicenseRef-identifier-c", ["A.B\n.. a"], "LicenseRef-A.B"), ("OR-field-b", ["MIT"], None), ("cut-GPL-2+-field-c", ["with"], "GPL-2.0-or-later WITH unknown"),
    ("cut-Apache-2.0-OR-MIT-field", ["with"], None), ("MIT-field-r", [], "MIT"), ("MIT-field-d", [], "MIT"), ("GPL-2.0-notice-c", ["licensed", "v2"], "GPL-2.0"), ("unknown-identifier", [], None), ("no-grant-mention-b", ["not"], ""), ("other-file-notice", ["lua.h"], ""),
    ("Artistic-1.0-Perl-OR-GPL-1.0-or-later-notice", [], "Artistic-1.0-Perl OR GPL-1.0-or-later"), ("GCC-exception-3.1-notice", [], ""),
    ("Apache-2.0-WITH-LLVM-exception-notice", [], "Apache-2.0 WITH LLVM-exception"),
    ("GPL-2.0-with-GCC-exception-identifier", [], "GPL-2.0-with-GCC-exception"),
]
# templates of a tag with marks after it or in it, their values, a file up to the end of the match and after it, and the licence: none where they belong to the tag
MARKS = [
    ("MIT-identifier-dot", [], "MIT.", "Foo", None), ("MIT-identifier-dot", [], "  MIT.", ".Foo", None), ("MIT-identifier-dot", [], "MIT.", "-Foo", None),
    ("MIT-identifier-dot", [], "MIT\n.", "text", "MIT"), ("MIT-identifier-dot", [], "MIT\n.", ". a comment", "MIT"), ("MIT-identifier-dot", [], "MIT.", "", "MIT"),
    ("cut-MIT-field", ["-"], "MIT-", "Own", None), ("cut-ISC-field-c", ["-"], "ISC -", " see", "ISC"), ("MIT-field", [], "MIT", ".Foo", None), ("MIT-field", [], "MIT", ". Foo", "MIT"), ("MIT-field", [], "MIT", "---Own", None), ("MIT-field-k", ["License"], "License-Expression: MIT\nLicense", "-File", "MIT"),
    ("MIT-identifier-dot", [], "MIT.", "\nint x;", "MIT"), ("GPL-2.0+-identifier-dot", [], "GPL-2.0+.", "1", None),
    ("GPL-2.0-only-identifier-dot", [], "GPL-2.0-only\n.", "text", "GPL-2.0-only"), ("expression-OR-MIT-dot", ["ISC"], "ISC OR MIT.", "Foo", None),
    ("expression-OR-MIT-dot", ["ISC"], "ISC OR MIT\n.", "text", "ISC OR MIT"), ("expression-OR-MIT-c-dot", ["ISC"], "ISC OR (MIT.", "Foo", None),
    ("LicenseRef-identifier-dot", ["A"], "LicenseRef-A.", "", "LicenseRef-A"), ("LicenseRef-identifier-b-dot", ["A-B"], "LicenseRef-A-B.", " x", "LicenseRef-A-B"),
    ("expression-b", ["Own", ".Foo"], "Own.Foo", "", None), ("expression-b", ["Own", ".text"], "Own\n.text", "", "Own"), ("expression-b", ["Own", ":"], "Own:", "", "Own"),
    ("expression-b", ["Own", "..Foo"], "Own..Foo", "", None), ("expression-b", ["Own", ".. a"], "Own\n.. a", "", "Own"), ("expression-0-dot", ["Own"], "Own.", "", "Own"),
    ("MIT-identifier", [], "MIT", "---Foo", None), ("MIT-identifier", [], "MIT", "...Foo", None), ("MIT-identifier", [], "MIT", "---", "MIT"),
    ("MIT-identifier", [], "MIT", " ---Foo", "MIT"), ("MIT-identifier", [], "MIT", "\n---\nFoo", "MIT"), ("expression-OR-MIT", ["ISC"], "ISC OR MIT", "+++Foo", None),
    ("expression-OR-ISC", ["MIT"], "MIT---OR---ISC", "", None), ("LicenseRef-identifier", ["A"], "LicenseRef-A", "---B", None),
    ("expression", ["MIT", "Foo"], "MIT---Foo", "", None), ("expression", ["MIT", "int"], "MIT\nint", "", "MIT"), ("MIT-notice", [], "MIT", "---Foo", "MIT"),
]
# templates, and whether a whole expression is put in their place
PLACES = [("cut-MIT", True), ("cut-OR-MIT", True), ("unknown-identifier", True), ("MIT-identifier-dot", True), ("expression-OR-MIT-c-dot", True),
          ("MIT-identifier", False), ("MIT-identifier-b", False), ("expression-OR-MIT", False)]
# what a file has, the field of debian/copyright, and the licences in the file as SPDX's documents have them
FIELDS = [
    (["MIT"], "Expat", ["MIT"]), (["GPL-2.0-or-later", "ISC"], "GPL-2+ and ISC", ["GPL-2.0-or-later", "ISC"]), (["GPL-2.0-only"], "GPL-2", ["GPL-2.0-only"]),
    (["LGPL-2.1"], "LGPL-2.1", ["LGPL-2.1"]), (["MIT OR Zlib", "ISC"], "Expat or Zlib, and ISC", ["ISC", "MIT", "Zlib"]),
    (["(GPL-2.0+ WITH Linux-syscall-note) OR MIT"], "GPL-2+ with Linux syscall note exception or Expat", ["GPL-2.0+", "MIT"]),
    (["Apache-2.0 WITH LLVM-exception"], "Apache-2.0 with LLVM exception", ["Apache-2.0"]), (["unknown"], "unknown", ["NOASSERTION"]),
    (["GPL-2.0-or-later WITH unknown"], "GPL-2+ with unknown exception", ["GPL-2.0-or-later"]),
    (["BSD", "public-domain"], "BSD and public-domain", ["LicenseRef-BSD", "LicenseRef-public-domain"]),
]
# the answers of files, and the globs of each
GLOBS = [
    ({"a.c": "X", "b.c": "X", "s/c.c": "Y"}, {"X": ["*"], "Y": ["s/c.c"]}), ({"a.c": "X", "s/t/b.c": "Y", "s/t/c.c": "Y", "c.c": "X"}, {"X": ["*"], "Y": ["s/*"]}),
    ({"s/a.c": "X", "s/b.c": "X", "s/t/c d.c": "Y", "s/t/d.c": "Z"}, {"X": ["*"], "Y": ["s/t/c?d.c"], "Z": ["s/t/d.c"]}),
]
# the answers of files, those that name a family alone, and the answers with a version in place of a family
VERSIONS = [
    ({"LICENSE": "BSD-3-clause", "s/a.hs": "BSD-style", "s/b.hs": "BSD", "s/c.c": "GPL"}, ["s/a.hs", "s/b.hs", "s/c.c"], {"LICENSE": "BSD-3-clause", "s/a.hs": "BSD-3-clause", "s/b.hs": "BSD-3-clause", "s/c.c": "GPL"}),
    ({"COPYING": "GPL-3", "s/LICENSE.txt": "GPL-2+", "s/t/a.c": "GPL", "a.c": "GPL"}, ["s/t/a.c", "a.c"], {"COPYING": "GPL-3", "s/LICENSE.txt": "GPL-2+", "s/t/a.c": "GPL-2+", "a.c": "GPL-3"}),
    ({"COPYING": "GPL-3", "COPYING.old": "GPL-2", "a.c": "GPL"}, ["a.c"], {"COPYING": "GPL-3", "COPYING.old": "GPL-2", "a.c": "GPL"}),
    ({"LICENSE": "BSD-3-clause and Expat", "t/BSD.c": "BSD-2-clause", "a.c": "BSD"}, ["a.c"], {"LICENSE": "BSD-3-clause and Expat", "t/BSD.c": "BSD-2-clause", "a.c": "BSD"}),
    ({"LICENSE": "Artistic-2.0", "a.pl": "Artistic", "b.pl": "Artistic"}, ["b.pl"], {"LICENSE": "Artistic-2.0", "a.pl": "Artistic", "b.pl": "Artistic-2.0"}),
]
# lines of files, and their notices
NOTICES = [
    (" * Copyright (C) 2019-2024 A. Author <a@b.c>", ["2019-2024 A. Author <a@b.c>"]), ("/* (c) 2001, 2003 by Z. Zed. All rights reserved. */", ["2001, 2003 Z. Zed"]),
    ("# Copyright: 2012 Xa Y\n# Copyright: 2012 Xa Y", ["2012 Xa Y"]), ("\u00a9 1999 - 2001, Firma", ["1999-2001 Firma"]), ("// copyright law of 1976", []),
    ('  puts("Copyright (C) 2005 Erik Sornes.\\n");\n  print("(c) 2006, Hil Liao")', ["2005 Erik Sornes", "2006 Hil Liao"]),
    ("Copyright (c) 1997--2022 M", []), ("Copyright (c) 1997--2022 Mn", ["1997-2022 Mn"]),
    ("    SPDX-FileCopyrightText: 2001, 2011 A. Author <a@b.c>", ["2001, 2011 A. Author <a@b.c>"]), ("# SPDX-FileCopyrightText: A. Author", ["A. Author"]),
    ("/* SPDX-FileCopyrightText: Copyright (C) 2019-2024, A. Author */", ["2019-2024 A. Author"]), ("<!-- SPDX-SnippetCopyrightText: © 2020 B -->", []),
    ("<!-- SPDX-SnippetCopyrightText: © 2020 Bo -->", ["2020 Bo"]), ("SPDX-FileCopyrightText: 2020", []),
]
# notices of several files, and those of their holders
MERGED = [
    (["2001 A", "1999-2001 B", "2003-04 A", "2002 A", "1999, 2002 B"], ["2001-2004 A", "1999-2002 B"]), (["2001 A", "2004 A"], ["2001, 2004 A"]), (["A", "2004 A", "B"], ["2004 A", "B"]),
    (["20010203 A", "2001 A", "2001-2-3 A"], ["20010203 A", "2001 A", "2001-2-3 A"]), ([], []),
]
# the templates that are found in a file, and its answer
FILES = [
    (["MIT-mention", "GPL-2.0-or-later-notice"], ["GPL-2.0-or-later"]), (["GPL-mention", "GPL-2.0-mention"], ["GPL-2.0"]), (["BSD-mention"], ["BSD"]),
    (["no-grant-mention"], []), (["MIT", "ISC-identifier"], ["ISC", "MIT"]), (["unknown-identifier"], ["unknown"]),
]
# the templates that are found in a file, and its field of debian/copyright
PERMISSIONS = [
    (["GPL-2.0-or-later-notice", "Autoconf-exception-notice"], "GPL-2+ with Autoconf exception"), (["MIT", "Autoconf-exception-notice"], "Expat"),
    (["GPL-3.0-or-later-notice-b", "GCC-exception-3.1-notice", "GPL-mention"], "GPL-3+ with GCC exception"),
    (["GPL-2.0-or-later-notice", "Autoconf-exception-notice", "Libtool-exception-notice"], "GPL-2+"),
    (["FSFULLR-notice", "GPL-2.0-or-later-notice", "Libtool-exception-notice"], "FSFULLR and GPL-2+"),
]


def marked(id, values, before, after):
    """The licence of a tag that ends with a match, in a file of its own."""
    text = "// SPDX-License-Identifier: " + before
    starts = [text.index(it, len(text) - len(before)) for it in values]
    with tempfile.NamedTemporaryFile("w", encoding="utf-8") as file:
        file.write(text + after)
        file.flush()
        return lines.Match(file.name, id, 3, len(text), values, starts).licence


def main():
    tally = harness.Tally("cases of reports")
    cases = [(text, check.is_allowed(text, ALLOWED), answer) for text, answer in EXPRESSIONS]
    cases += [(id, lines.Match("f", id, 0, values=values).licence, licence) for id, values, licence in MATCHES]
    cases += [(f"{id} of {before + after}", marked(id, values, before, after), licence) for id, values, before, after, licence in MARKS]
    cases += [(id, lines.Match("no such file", id, 3).licence, licence) for id, licence in (("MIT-identifier-dot", None), ("LicenseRef-identifier-dot", None), ("MIT-identifier", "MIT"))]
    cases += [(id, whole.is_of(whole.OPEN, [f"f\t{id}\t0\t1\t0\t9\n"]), answer) for id, answer in PLACES]
    cases += [(names, debian.licence_of(names), field) for names, field, _ in FIELDS]
    cases += [(names, spdx.in_file(names), ids) for names, _, ids in FIELDS]
    cases += [(answers, debian.globs(answers), globs) for answers, globs in GLOBS]
    cases += [(answers, debian.with_versions(answers, alone), expected) for answers, alone, expected in VERSIONS]
    cases += [(text, notices.found(text), expected) for text, expected in NOTICES]
    cases += [(them, notices.merged(them), expected) for them, expected in MERGED]
    cases += [(ids, lines.answer([lines.Match("f", id, 0) for id in ids]), answer) for ids, answer in FILES]
    cases += [(ids, debian.licence_of(debian.licences_of([lines.Match("f", id, 0) for id in ids])), field) for ids, field in PERMISSIONS]
    for what, came, expected in cases:
        tally.add(what, [] if came == expected else [f"{came}, expected {expected}"])
    return tally.end()


if __name__ == "__main__":
    sys.exit(main())
