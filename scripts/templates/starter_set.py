#!/usr/bin/env python3
"""Tries each template of examples/templates, examples/mentions and examples/expressions.

- `check` says `yes` of it, with examples/words and without.
- Its original text is found as a comment in each of the styles below, among all templates.
- The templates of tags, fields and longer identifiers are those that tags.py, fields.py, longer.py and expressions.py make of the lists beside them,
  and there are no others; those of examples/expressions are those of whole_expressions.py.
- In fields of manifests, headers and copyright files each name is reported as itself, if at all, and one that goes on after it as cut.
- Tags that hold an expression are reported by one template each, with the value that is expected; random ones whole, or by a template that says that
  they are cut; by examples/expressions whole.
- Sentences that give a licence, and those that only name one, are reported by what is expected, without the mentions and with them.
- No template of examples/templates is looked for by a text of less than seven letters, which costs time at each byte of every file; no variable is
  unbounded, since one after the text by which a file is searched is tried as far as it reaches.
- The page of all templates is as listing.py makes it; each has an example there, or is a guard: without it a shorter one would be found.
"""
import os
import re
import subprocess
import sys
import tempfile

import fields
import harness
import listing
import longer
import random_tags
import starter
import whole_expressions

HERE = os.path.dirname(os.path.abspath(__file__))
WORDS = os.path.join(HERE, "..", "..", "examples", "words")
ENDING = starter.ENDING

# how a comment begins, what is before each line, and how it ends
STYLES = {
    "plain": ("", "", ""),
    "hash": ("", "# ", ""),
    "slashes": ("", "// ", ""),
    "stars": ("/*\n", " * ", " */\n"),
    "block": ("/* ", "   ", "*/\n"),
    "semicolons": ("", ";; ", ""),
    "dashes": ("", "-- ", ""),
    "percent": ("", "% ", ""),
    "dnl": ("", "dnl ", ""),
    "manual page": ("", ".\\\" ", ""),
    "markup": ("<!--\n", "  ", "-->\n"),
    "box": ("/" + "*" * 60 + "\n", " * ", " " + "*" * 60 + "/\n"),
}

RANDOM_TAGS = 2000
RANDOM_WHOLE_TAGS = 200
# a set of letters, and a repetition without a bound where each set is one letter
LETTER_SET = re.compile(r"\[\^?\]?[^]]*\]")
UNBOUNDED = re.compile(r"(?<!\\)[a-z.)][*+]|,\}")
# letters of the shortest text by which a template may be looked for
SHORTEST_TEXT = 7
SUFFIX = re.compile("-(identifier|field|notice)(-[b-z])?(-dot)?$|(?<=-mention)-[b-z]$")

# fields that tags.py does not make: in words, of CPAN, classifiers of Python packages, choices
BY_HAND = re.compile(r"^Licen[cs]e|perl|[a-z]_[0-9]|=>|OSI Approved| (OR|AND)\b|\w/|>>/|, ['\"]$", re.M)

# sentences, what the templates of grants report of them, and, if that is nothing, those of mentions
SENTENCES = [
    ("This file is licensed under the MIT License.", ["MIT"], []),
    ("Released under the terms of the GNU GPL v2 or later", ["GPL-2.0-or-later"], []),
    ("Distributed under the GPLv3", ["GPL-3.0"], []),
    ("Licensed under the terms of the GNU GPL License version 2", ["GPL-2.0"], []),
    ("you can redistribute it and/or modify it under the terms of the Simplified BSD License", ["BSD-2-Clause"], []),
    ("MIT Licensed", ["MIT"], []),
    ("\"license\" : [ \"perl_5\" ],", ["Artistic-1.0-Perl-OR-GPL-1.0-or-later"], []),
    ("\"LICENSE\" => \"perl\",", ["Artistic-1.0-Perl-OR-GPL-1.0-or-later"], []),
    ("License: GPLv2+", ["GPLv2+"], []),
    ("released under the LGPLv2", ["LGPL-2.0"], []),
    ("released under the LGPLv2+", ["LGPL-2.0-or-later"], []),
    ("Licensed under LGPL v2 or later", ["LGPL-2.0-or-later"], []),
    ("This file is released under the LGPLv2 or (at your option) any later version", ["LGPL-2.0-or-later"], []),
    ("Licensed under AGPLv3+", ["AGPL-3.0-or-later"], []),
    ("License: LGPLv2", ["LGPLv2"], []),
    ("License: LGPLv2+", ["LGPLv2+"], []),
    ("License: LGPLv2 or later", ["LGPL-2.0-or-later"], []),
    ("License: LGPLv2.1", ["LGPLv2.1"], []),
    ("License: LGPLv2.1 or later", ["LGPL-2.1-or-later"], []),
    ("License: GNU LGPL version 2 or newer", ["LGPL-2.0-or-later"], []),
    ("License: AGPLv3 or later", ["AGPL-3.0-or-later"], []),
    ("\"license\": \"AGPL-3.0\",", ["AGPL-3.0"], []),
    ("under the LGPLv2", [], ["LGPL-2.0-mention"]),
    ("License: GPLv2 or later", ["GPL-2.0-or-later"], []),
    ("License: GPL version 3 or newer", ["GPL-3.0-or-later"], []),
    ("License: GPL (>= 2)", ["GPL-2.0-or-later"], []),
    ("License: GPL-2 | GPL-3", ["GPL-2-OR-GPL-3"], []),
    ("under the terms of either:\n#\n#  a) the GNU General Public License as published by the Free\n#  Software Foundation; either version 1, or (at your option) any\n"
     "#  later version, or\n#\n#  b) the \"Artistic License\" which comes with this Kit.", ["Artistic-1.0-Perl-OR-GPL-1.0-or-later"], []),
    ("License: BSD_3_clause + file LICENSE", ["BSD_3_clause"], []),
    ("license: ISC and Zlib", ["AND"], []),
    ("as published by the Free Software Foundation; version 2 dated June, 1991, or (at your option) version 3", [], []),
    ("General Public License v.2.", [], []),
    ("subject to the terms and conditions of the GNU General Public License v.2.", ["GPL-2.0"], []),
    ("licensed under: The MIT License", ["MIT"], []),
    ("Licensed under MIT (https://example.org/LICENSE)", ["MIT"], []),
    ("Dual licensed under the MIT or GPL Version 2 licenses.", ["MIT-OR-GPL-2.0"], []),
    ("This source file is subject to version 3.01 of the PHP license", ["PHP-3.01"], []),
    ("Redistribution and use in source and binary forms, with or without modifica-\n# tion, are permitted", ["BSD"], []),
    ("This man page is in the public domain.", ["public-domain"], []),
    ("This script is public domain", ["public-domain"], []),
    ("are permitted only as authorized by the OpenLDAP Public License.", [], []),
    ("U_LOGPALETTE lgpl;", [], []),
    ("under the terms of the LGPL", [], ["LGPL-mention"]),
    ("License :: OSI Approved :: MIT License", ["MIT"], []),
    ("license = \"MIT OR Apache-2.0\"", ["MIT-OR-Apache-2.0"], []),
    ("license = \"MIT OR Unlicense\"", ["OR"], []),
    ("<project_license>GPL-3.0+</project_license>", ["GPL-3.0+"], []),
    ("## License\n[MIT](LICENSE)", ["MIT"], []),
    ("Copyright: GPL", ["GPL"], []),
    ("used under the terms of the GNU Lesser General Public License Version 2 or later", ["LGPL-2.0-or-later"], []),
    ("used under the terms of the GNU Lesser General Public License Version 2.1 or later", ["LGPL-2.1-or-later"], []),
    ("See the file \"license.terms\" for information on usage and redistribution", ["other-file"], []),
    ("doesn't mean that we may combine it with other software that is released under the GPL", ["no-grant-mention"], []),
    ("This file may be distributed under the terms of the GNU Public License.", ["GPL"], []),
    ("it under the terms of the GNU General Public License version 2 as published by the Free Software Foundation.", ["GPL-2.0-only"], []),
    ("it under the terms of the GNU GPL version 2 as published", [], ["GPL-2.0-mention", "GPL-mention"]),
    ("the empty string stands for the public domain; in this case", ["no-grant-mention"], []),
    ("provided to the public domain", ["public-domain"], []),
    ("GNU GENERAL PUBLIC LICENSE\nVersion 2, June 1991", ["GPL-2.0"], []),
    ("some MIT-licensed code", [], ["MIT-mention"]),
    ("available under the terms of the GNU Lesser General Public License, version 2.1", ["LGPL-2.1"], []),
    ("This code is in the public domain.", ["public-domain"], []),
    ("It is not in the public domain", ["no-grant-mention"], []),
    ("<one line to give the program's name and a brief idea of what it does.>\nCopyright (C) 2010 Jane Doe\nThis program is free software; you can "
     "redistribute it and/or modify it under the terms of the GNU General Public License as published by the Free Software Foundation; either version 2 "
     "of the License, or (at your option) any later version.", ["GPL-2.0-or-later"], []),
    ("It is not licensed under the MIT License", ["no-grant-mention"], []),
    ("a GPL-compatible licence", ["no-grant-mention"], []),
    ("Compare the MIT License", [], ["MIT-mention"]),
    ("License: Redistribution and use in source and binary forms, with or without modification, are permitted", ["BSD", "no-grant-mention"], []),
    ("Licensed under the Academic Free License version 3.0", ["AFL-3.0"], []),
    ("Licensed under the Academic Free License version 2.1", ["AFL-2.1"], []),
    ("available under the terms of the Academic Free License (AFL), Version 2.0", ["AFL-2.0"], []),
    ("released under the Academic Free License", ["AFL"], []),
    ("License :: OSI Approved :: Academic Free License (AFL)", ["AFL"], []),
    ("Compare the Academic Free License", [], ["AFL-mention"]),
    ("It is not licensed under the Academic Free License", ["no-grant-mention"], []),
    ("Licensed under the Apache License", ["Apache"], []),
    ("distributed under the Artistic License", ["Artistic"], []),
    ("distributed under the Artistic License, version 2.0", ["Artistic-2.0"], []),
    ("released under the CeCILL-C license", ["CECILL-C"], []),
    ("The contents of this file are subject to the terms of the Common Development and Distribution License (the \"License\").", ["CDDL"], []),
    ("subject to the terms of the\n# Common Development and Distribution License, Version 1.0 only", ["CDDL-1.0"], []),
    ("licensed under the terms of the Eclipse Public License (EPL).", ["EPL"], []),
    ("are made available under the terms of the Eclipse Public License v1.0", ["EPL-1.0"], []),
    ("are made available under the terms of the Eclipse Public License - v 2.0", ["EPL-2.0"], []),
    ("available under the GNU Free Documentation License", ["GFDL"], []),
    ("released under the GNU Free Documentation License version 1.3", ["GFDL-1.3"], []),
    ("released under the GNU Free Documentation License, version 1.3 or later", ["GFDL-1.3-or-later"], []),
    ("\"license\": \"MIT-0\",", ["MIT-0"], []),
    ("Distributed under the MIT-0 license", ["MIT-0"], []),
    ("Licensed under the Mozilla Public License", ["MPL"], []),
    ("Licensed under the Mozilla Public License, version 1.1", ["MPL-1.1"], []),
    ("released under the PHP License, version 3.01", ["PHP-3.01"], []),
    ("Licensed under the Python Software Foundation License", ["PSF-2.0"], []),
    ("// Licence:     wxWindows licence", ["wxWindows"], []),
    ("License-Expression: MIT\n# License-File: LICENSE", ["MIT"], []),
    ("License-Expression: MIT-CMU\n# License-File: LICENSE", [], []),
    ("License-Expression: MIT OR Own\n# Classifier: Typing :: Typed", ["OR"], []),
    ("\"license\": \"MIT-CMU\",", ["MIT-CMU"], []),
    ("\"license\": \"GPL-2.0-with-classpath-exception\",", ["GPL-2.0-with-classpath-exception"], []),
    ("license = \"BSD-3-Clause-Clear\"", ["BSD-3-Clause-Clear"], []),
    ("license = \"Python-2.0.1\"", ["Python-2.0.1"], []),
    ("<metadata_license>CC0-1.0</metadata_license>", ["CC0-1.0"], []),
    ("\"license\": \"MIT-Own\",", ["cut-MIT"], []),
    ("\"license\": \"GPL-2.0-with-own-exception\",", ["cut-GPL-2.0"], []),
    ("license = \"Apache-2.0 WITH LLVM-exception\"", ["cut-Apache-2.0"], []),
    ("license = \"MIT OR Apache-2.0 OR Zlib\"", ["cut-MIT-OR-Apache-2.0"], []),
    ("license = \"Apache-2.0/MIT-0\"", ["cut-Apache-2.0-OR-MIT"], []),
    ("License: GPL-2.1", ["cut-GPL-2"], []),
    ("License: GNU GPL-Own", ["cut-GPL"], []),
    ("License     :  BSD-style (see the file LICENSE)", ["BSD-style"], []),
    ("License: BSD-variant", ["cut-BSD"], []),
    ("License: BSD 3-Clause License", ["BSD-3-Clause"], []),
    ("License: BSD 2-Clause", ["BSD-2-Clause"], []),
    ("License: GPL-2+ with OpenSSL exception", ["cut-GPL-2+"], []),
    ("License: MIT + file LICENSE", ["MIT"], []),
    ("License: GPL-3 + file LICENSE", ["GPL-3"], []),
    ("License: MIT. Author: A. Author", ["MIT"], []),
    ("License :: OSI Approved :: MIT No Attribution License (MIT-0)", [], []),
    ("licensed under the BSD-3-Clause-Clear license", ["BSD-3-Clause-Clear"], []),
    ("Licensed under the terms of the BSD-2-Clause-Patent", ["BSD-2-Clause-Patent"], []),
    ("Licensed under BSD-3-Clause - see LICENSE", ["BSD-3-Clause"], []),
    ("you may modify it under MIT-0", ["MIT-0"], []),
    ("released under MIT-CMU", ["MIT-CMU"], []),
    ("released under the GPL-2.0-only", ["GPL-2.0-only"], []),
    ("Licensed under MPL-2.0-no-copyleft-exception", ["MPL-2.0-no-copyleft-exception"], []),
    ("License: [MIT](LICENSE)", ["MIT"], []),
    ("## License\n\n[ISC](LICENSE)", ["ISC"], []),
    ("## License\n\n[GPLv3-Own](LICENSE)", ["cut-GPLv3"], []),
    ("license = [\"MPL-2.0\"]", ["MPL-2.0"], []),
    ("license\": MPL-2.0", ["MPL-2.0"], []),
    ("s.licenses = ['MIT', 'Ruby']", ["MIT"], []),
    ("s.licenses = ['MIT-Own']", [], []),
    ("\"licenses\": [{ \"type\": \"BSD-3-Clause\", \"url\": \"https://example.org\" }]", ["BSD-3-Clause"], []),
    ("<cc:license rdf:resource=\"https://creativecommons.org/licenses/by-sa/4.0/\" />", ["CC-BY-SA-4.0"], []),
    ("<cc:license rdf:resource=\"https://creativecommons.org/licenses/by-sa/3.0/us/\" />", [], []),
    ("Use, modification and distribution is subject to the\n# Boost Software License, Version 1.0. (See accompanying", ["BSL-1.0"], []),
    ("license: ['ISC-Own']", ["cut-ISC"], []),
    ("\"license\": [\"lgpl_2_1\"],", ["LGPL-2.1"], []),
    ("license = [\"BSL-1.0\"]", ["BSL-1.0"], []),
    ("license = \"MPL-2.0.Own\"", ["cut-MPL-2.0"], []),
    ("redistribute it and/or modify it under the terms of the GNU LGPL version 2.1", ["LGPL-2.1"], []),
    ("modify it\n# under the terms and conditions of the GNU General Public License, version 2,\n# as published", ["GPL-2.0"], []),
    ("modify it under the terms of the GNU General Public License version 2 as published by the Free Software Foundation", ["GPL-2.0-only"], []),
    ("modify it under the terms of the GNU Library General Public License version 2.1, with the special exception", ["LGPL-2.1"], []),
    ("the new BSD limits", [], []),
    ("emit limit transmit", [], []),
    ("its GPL code", [], []),
]

# fields as manifests and headers have them, and what a name may go on with that no template knows
FIELDS = {
    "package.json": '"license": "{}",', "composer.json": '"license": ["{}"],', "Cargo.toml": 'license = "{}"', "pyproject.toml": 'license = {{ text = "{}" }}',
    "METADATA": "License: {}\nAuthor: A. Author", "METADATA 2.4": "License-Expression: {}\nLicense-File: LICENSE", "setup.py": "license='{}',",
    "module": '__license__ = "{}"', "gemspec": "s.license = '{}'", "gemspec, many": "s.licenses = ['{}']", "package.json, old": '"licenses": [{{"type": "{}"}}]', "pom.xml": "<license>\n  <name>{}</name>",
    "AppStream": "<project_license>{}</project_license>", "DESCRIPTION": "License: {}\nEncoding: UTF-8", "debian/copyright": "License: {}\n This is free.",
    "cabal": "license:             {}\nlicense-file:        LICENSE", "spec": "License:        {}\nURL:  https://example.org", "opam": 'license: "{}"',
    "meson.build": "license: '{}',", "docstring": ":license: {}\n:copyright: A. Author", "comment": "@license {}\n@author A. Author", "heading": "License\n=======\n\n{}\n",
}
ENDS = ["-Own", "_own", ".77", ".7b", " with an exception"]
ENDS_IN_QUOTES = [".Own", ".Own-1"]

# what is in a tag, the template that is to be reported, and the value of its first variable
TAGS = [
    ("(MIT OR Apache-2.0) AND BSD-3-Clause", "expression-AND-BSD-3-Clause", "(MIT OR Apache-2.0)"),
    ("MIT OR Apache-2.0 AND ISC", "expression-AND-ISC", "MIT OR Apache-2.0"),
    ("MIT AND (ISC OR Zlib)", "expression-OR-Zlib", "MIT AND (ISC"),
    ("MIT OR (ISC AND Zlib)", "expression-AND-Zlib", "MIT OR (ISC"),
    ("MIT AND (GPL-2.0+)", "expression-AND-GPL-2.0+-c", "MIT"),
    ("MIT/Apache-2.0", "expression-OR-Apache-2.0-b", "MIT"),
    ("Apache-2.0 WITH LLVM-exception", "expression-WITH-LLVM-exception", "Apache-2.0"),
    ("((GPL-2.0+ WITH Linux-syscall-note) OR MIT)", "expression-OR-MIT", "((GPL-2.0+ WITH Linux-syscall-note)"),
    ("MIT OR LGPL-2.1+", "expression-OR-LGPL-2.1+", "MIT"),
    ("MIT OR GPL-2.0-only", "expression-OR-GPL-2.0-only", "MIT"),
    ("LicenseRef-A OR GPL-2.0-only OR GPL-3.0-only", "expression-OR-GPL-3.0-only", "LicenseRef-A OR GPL-2.0-only"),
    ("MIT or x11", "expression-OR-X11", "MIT"),
    ("Own OR MIT", "expression-OR-MIT", "Own"),
    ("MIT OR LicenseRef-A", "cut-MIT", "OR"),
    ("MIT+", "cut-MIT", "+"),
    # three marks in a row are a separator
    ("(((MIT) OR Own) AND Own)", "cut-MIT-c", "OR"),
    ("Apache-2.0 OR MIT WITH A", "cut-OR-MIT", "Apache-2.0"),
    ("(ISC OR (MIT)) AND LicenseRef-A", "cut-OR-MIT", "(ISC"),
    ("MIT OR Zlib-A", "cut-OR-Zlib", "MIT"),
    ("MIT-Modern-Variant", "MIT-Modern-Variant-identifier", None),
    ("EUPL-1.2", "EUPL-1.2-identifier", None),
    ("LicenseRef-A", "LicenseRef-identifier", "A"),
    ("LicenseRef-A-B.2", "LicenseRef-identifier-c", "A-B.2"),
    ("LicenseRef-A_B OR MIT-A", "cut-LicenseRef", "A_B"),
    ("LicenseRef-1-2-3-4-5-6-7-8-9", "cut-LicenseRef-b", "1-2-3-4-5-6-7-8"),
    ("DocumentRef-A.1:LicenseRef-B-C", "DocumentRef-identifier-b", "A.1"),
    ("Own", "unknown-identifier", None),
    ("MIT-Foo", "cut-MIT", "-"),
    ("GPL-2.0-only-Foo", "cut-GPL-2.0-only", "-"),
    ("MIT OR ISC OR Zlib OR X11 OR NCSA AND LicenseRef-A", "cut-OR-NCSA", "MIT OR ISC OR Zlib OR X11"),
    ("A-1.0-or-later OR LicenseRef-B", "unknown-identifier", None),
    ("(GPL-2.0+)", "GPL-2.0+-identifier-b", None),
    ("(MIT) OR Own", "cut-MIT-b", "OR"),
    ("(MIT) OR ISC", "expression-OR-ISC", "(MIT)"),
    ("MIT.Foo", "MIT-identifier-dot", None),
    ("MIT.-Foo", "MIT-identifier-dot", None),
    ("MIT..Foo", "MIT-identifier-dot", None),
    ("MIT.", "MIT-identifier-dot", None),
    ("MIT\n.text", "MIT-identifier-dot", None),
    # a comment of reStructuredText
    ("MIT\n.. text", "MIT-identifier-dot", None),
    ("GPL-2.0.1", "GPL-2.0-identifier-dot", None),
    ("Python-2.0.1", "Python-2.0.1-identifier", None),
    ("Python-2.0.12", "Python-2.0-identifier-dot", None),
    ("MIT.Foo OR ISC", "expression-OR-ISC", "MIT.Foo"),
    ("ISC OR MIT.Foo", "expression-OR-MIT-dot", "ISC"),
    ("ISC AND (LicenseRef-A OR (MIT.Foo))", "expression-OR-MIT-c-dot", "ISC AND (LicenseRef-A"),
    ("ISC OR Apache-2.0 WITH LLVM-exception.Foo", "expression-WITH-LLVM-exception-dot", "ISC OR Apache-2.0"),
    ("LicenseRef-A.B", "LicenseRef-identifier-b", "A.B"),
    ("LicenseRef-A-B.", "LicenseRef-identifier-c", "A-B.\\nint"),
    ("LicenseRef-A-B.;", "LicenseRef-identifier-b-dot", "A-B"),
    ("LicenseRef-A-" + "B" * 200, "LicenseRef-identifier-b", "A-" + "B" * 200),
    ("MIT) ) ) ) ) ) ) ) ) ) ) ) ) ) OR Own", "cut-MIT-c", ") ) ) ) ) ) ) ) ) ) ) ) ) OR"),
    (" OR ".join(["MIT"] * 100) + " OR ISC", "expression-OR-ISC", " OR ".join(["MIT"] * 100)),
]


# the same by examples/expressions
WHOLE_TAGS = [
    ("MIT", "expression", "MIT"), ("(MIT OR Own-1.0) AND LicenseRef-A.B", "expression", "(MIT OR Own-1.0) AND LicenseRef-A.B"),
    ("MIT-Foo AND GPL-2.0+", "expression", "MIT-Foo AND GPL-2.0+"), ("DocumentRef-A.1:LicenseRef-B WITH Own-exception", "expression", "DocumentRef-A.1:LicenseRef-B WITH Own-exception"),
    ("GPL-2.0\n.text", "expression-b", "GPL-2.0"), ("MIT\n.. text", "expression-b", "MIT"), ("Own.;", "expression", "Own"), ("Own: a text", "expression-b", "Own"), ("MIT OR <other>", "expression", "MIT"), ("Own/*", "expression", "Own"),
]


def original_of(template):
    """The text of a template with all optional parts, and with each variable's original."""
    text = re.sub(r"<<(begin|end)Optional.*?>>", "", template, flags=re.S)
    return re.sub(r'<<var;.*?original="(.*?)".*?>>', r"\1", text, flags=re.S)


def commented(text, style):
    begin, prefix, end = STYLES[style]
    return begin + "".join(prefix + line + "\n" for line in text.splitlines()) + end


def read_templates(folder):
    found = {}
    for name in sorted(os.listdir(folder)):
        if name.endswith(ENDING):
            with open(os.path.join(folder, name), encoding="utf-8") as file:
                found[name.removesuffix(ENDING)] = file.read()
    return found


def not_described(program, folder, options):
    """The templates that do not describe their own original texts."""
    done = subprocess.run([program, "check", "--templates", folder, *options], stdout=subprocess.PIPE, check=False, text=True)
    answers = dict(line.split("\t")[::2] for line in done.stdout.splitlines())
    return [f"{id}: check {' '.join(options)} says {answers.get(id, 'nothing')}" for id in read_templates(folder) if answers.get(id) != "yes"]


def not_found(program, both, style):
    """The templates that are not found in their own original texts as comments."""
    with tempfile.TemporaryDirectory() as folder:
        templates = read_templates(both)
        for id, template in templates.items():
            with open(os.path.join(folder, id), "w", encoding="utf-8") as file:
                file.write(commented(original_of(template), style))
        done = subprocess.run([program, "scan", "--templates", both, "--", *templates], cwd=folder,
                              stdout=subprocess.PIPE, check=False, text=True)
    found = {tuple(line.split("\t")[:2]) for line in done.stdout.splitlines()}
    return [f"{id}: not found, style {style}" for id in templates if (id, id) not in found]


def not_made():
    """How the templates of tags, fields and longer identifiers differ from those that the scripts make."""
    with tempfile.TemporaryDirectory() as folder:
        for script in (["tags.py", "--list", f"{HERE}/tags.txt"], ["fields.py"], ["longer.py"], ["expressions.py"]):
            subprocess.run([sys.executable, f"{HERE}/{script[0]}", *script[1:], folder], check=True)
        made = read_templates(folder)
    kept = {id: text for id, text in read_templates(starter.GRANTS).items() if re.search("-(identifier|field)(-[b-z])?(-dot)?$|-notice-x$|^expression-|^cut-", id)}
    kept = {id: text for id, text in kept.items() if re.search("-identifier|-notice-x$|^expression-|^cut-", id) or not BY_HAND.search(text)}
    return [f"{id}: not as tags.py makes it" for id in sorted(made.keys() | kept.keys()) if made.get(id) != kept.get(id)]


def not_whole_made():
    """How the templates of whole expressions differ from those that whole_expressions.py makes."""
    made, kept = {name: text + "\n" for name, text in whole_expressions.templates()}, read_templates(starter.EXPRESSIONS)
    return [f"{id}: not as whole_expressions.py makes it" for id in sorted(made.keys() | kept.keys()) if made.get(id) != kept.get(id)]


def reported(program, folder, text):
    """The fields of the lines that are written of a text."""
    done = subprocess.run([program, "scan", "--templates", folder], input=text, stdout=subprocess.PIPE, check=False, text=True)
    return [line.split("\t") for line in done.stdout.splitlines()]


def wrongly_reported(program, folder, expected):
    """The tags of which something else is reported than what is expected, followed by code."""
    faults = []
    for tag, id, value in expected:
        fields = reported(program, folder, f"// SPDX-License-Identifier: {tag}\nint main(void) {{ return 0 + 2.0; }}\n")
        if [it[1] for it in fields if it[0]] != [id] or (value and fields[1][4] != value):
            faults.append(f"{tag}: reported as {fields}")
    return faults


def wrongly_called(program, both):
    """The sentences that are called otherwise than is expected."""
    faults = []
    for text, granted, mentioned in SENTENCES:
        for folder, expected in ((starter.GRANTS, granted), (both, granted or mentioned)):
            found = sorted({SUFFIX.sub("", it[1]) for it in reported(program, folder, f"# {text}\n") if it[0]})
            if found != sorted(expected):
                faults.append(f"{text}: {found}, not {expected}")
    return faults


def wrong_fields(program, folder):
    """The fields in which something else is reported than the name that is there, or than that it is cut where the name goes on."""
    expected = {}
    for kind, field in FIELDS.items():
        ends = ENDS + (ENDS_IN_QUOTES if re.search("['\"]{}['\"]", field) else [])
        for number, name in enumerate(fields.names()):
            expected[kind, name] = field.format(name), name
            # one of the ends for each name, each of them for many
            expected[kind, name + ends[number % len(ends)]] = field.format(name + ends[number % len(ends)]), f"cut-{name}"
    faults = []
    with tempfile.TemporaryDirectory() as at:
        paths = {f"{at}/{number}": it for number, it in enumerate(expected)}
        for path, it in paths.items():
            with open(path, "w", encoding="utf-8") as file:
                file.write(expected[it][0] + "\n")
        done = subprocess.run([program, "scan", "--templates", folder, "--", *paths], stdout=subprocess.PIPE, check=False, text=True)
    for path, id in sorted({tuple(line.split("\t")[:2]) for line in done.stdout.splitlines() if line[0] != "\t"}):
        if SUFFIX.sub("", id) != expected[paths[path]][1]:
            faults.append(f"{paths[path]}: reported as {id}")
    return faults


def not_guarding(program):
    """The templates that are there as guards alone whose text is not called by what they guard where none of them is there."""
    guards = {id: listing.guarded(id) or max((it for it in longer.SHORTER if longer.fields.begins(it, id)), key=len, default=None)
              for id in read_templates(starter.GRANTS) if listing.guarded(id) or id.endswith("-notice-x")}
    with starter.both() as both:
        texts = {id: original_of(text) for id, text in read_templates(both).items() if id in guards}
        for id in guards:
            os.remove(os.path.join(both, id + ENDING))
        found = {id: {SUFFIX.sub("", it[1]) for it in reported(program, both, f"# {text}\n") if it[0]} for id, text in texts.items()}
    return [f"{id}: without it {sorted(found[id])}, not {it}" for id, it in guards.items() if it not in found[id]]


def costly():
    """The templates of grants that are looked for by a short text, and those with a variable without a bound."""
    texts = {id: listing.texts(text) for id, text in read_templates(starter.GRANTS).items()}
    short = [f"{id}: no text of {SHORTEST_TEXT} letters" for id, it in texts.items() if max(map(len, it), default=0) < SHORTEST_TEXT]
    unbounded = [f"{id}: an unbounded variable" for folder in (starter.GRANTS, starter.MENTIONS)
                 for id, text in read_templates(folder).items() for match in re.findall('match="(.*?)">>', text) if UNBOUNDED.search(LETTER_SET.sub("x", match))]
    return short + unbounded


def main():
    program, tally = harness.arguments(__doc__).parse_args().program, harness.Tally("trials of the starter set")
    with starter.both() as both:
        tally.add("check", not_described(program, both, []))
        tally.add("check with spellings", not_described(program, both, ["--words", WORDS]))
        tally.add("tags and fields", not_made())
        tally.add("texts of their own", costly())
        tally.add("the page of all templates", listing.faults())
        tally.add("expressions of grants", wrongly_reported(program, starter.GRANTS, TAGS))
        tally.add("expressions", wrongly_reported(program, both, TAGS))
        tally.add("random expressions", random_tags.trial(program, starter.GRANTS, RANDOM_TAGS, 40, 1)[0])
        tally.add("whole expressions", not_whole_made() + not_described(program, starter.EXPRESSIONS, []))
        tally.add("expressions, whole", wrongly_reported(program, starter.EXPRESSIONS, WHOLE_TAGS))
        tally.add("random expressions, whole", random_tags.trial(program, starter.EXPRESSIONS, RANDOM_WHOLE_TAGS, 40, 1, whole=True)[0])
        tally.add("called by another", wrongly_called(program, both))
        tally.add("guards", not_guarding(program))
        tally.add("fields", wrong_fields(program, starter.GRANTS))
        for style in STYLES:
            tally.add(f"comments, {style}", not_found(program, both, style))
        print(f"{len(read_templates(both))} templates")
    return tally.end()


if __name__ == "__main__":
    sys.exit(main())
