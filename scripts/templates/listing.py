#!/usr/bin/env python3
"""Writes examples/TEMPLATES.md, the page that lists each template of the starter set with what it describes and a real example: listing.py

The examples are in seen.tsv: a template, a project, a file of it and the words there (`scripts/trial/forms.py --examples`).
"""
import collections
import functools
import os
import re
import textwrap

import fields
import longer
import starter
import tags

PAGE = os.path.join(starter.EXAMPLES, "TEMPLATES.md")
# a real example of each template of which one is known
SEEN = os.path.join(os.path.dirname(os.path.abspath(__file__)), "seen.tsv")
RULE = re.compile(r"<<(?:var;.*?|beginOptional|endOptional)>>", re.S)
KIND = re.compile(r"-(identifier|field|notice|mention)(-[b-z])?(-dot)?$")
# letters of a text that are shown
MOST_LETTERS = 160
# a family of templates is one frame with other names and versions of licences
NAME = re.compile(r"(GNU )?(Affero |Lesser |Library or Lesser |Library |Free Documentation |Mozilla |Eclipse |Common |Academic |Apache Software |Apache |Artistic |PHP |MIT |BSD |PostgreSQL |"
                  r"GNU General |General |Common Development and Distribution )+(Public |Free )?Licen[cs]e|GNU A?L?GPL|[AL]*GPL(v[\d.]+\+?)?|MIT-0|MIT|BSD|Apache|MPL|AFL|CDDL|EPL|GFDL|WTFPL|Ruby|Perl|Python|"
                  r"simplified|modified|new|Lesser|Affero|released|distributed|covered|published|placed|licensed", re.IGNORECASE)
HEAD = """\
# The templates of the starter set

Made by `python3 scripts/templates/listing.py`. After a name, or a form of names, is mostly a text
that the template describes: its beginning, with all optional parts and with the original text of
each variable. Then mostly a real example: a project in whose files it was found, a file, and the
first words there (`scripts/trial/forms.py --examples`); if none is known, mostly one of a template
of the same words with another name or version. What the endings of names mean is in [the
manual](../docs/MANUAL.md#where-templates-come-from).

But for guards, each form of a text, notice or field was found in two projects. A guard keeps a
shorter template from saying what is not so. A form is a wording: with the names and versions that
fill it (`licensed under the terms of NAME version 2`, each kind of field) it is one form, and so is
each name in its spelling (`scripts/trial/forms.py` counts). Tags are made of a list of identifiers
and of SPDX's grammar, found or not.
"""
SECTIONS = [
    ("text", "Texts", "Whole texts, or as much of them as tells them from others."),
    ("notice", "Notices", "Short notices, and sentences that give a licence. That of FreeType was found in files that other projects took over; libpng's own notice, in libpng alone, is not in the set."),
    ("no-grant", "Words that give no licence", "They keep a sentence from being called a grant."),
    ("mention", "Mentions", "Names in words, in `examples/mentions`."),
]
FIELDS = """Fields of manifests and headers: first those of a name of less than six letters. Forms that a longer name has, and that these were not found to
have in 88,128 files of 1,394 projects, are left out: `license = ["NAME`, `license": NAME`, `license": [NAME` and `license = [NAME`."""
# templates that no project is known to have, and what would be said without them
GUARDED = [(r"(.*)-or-later-notice-m", r"\1-only"), (r"(.*(?<!LGPL-2.0))-or-later-notice-i", r"\1-only"), (r"no-grant-mention-l", "public-domain")]
# the kinds of tags, and what each describes
TAGS = [
    (r"[A-Z].*(?<!Ref)-identifier", "NAME-identifier", "`SPDX-License-Identifier: NAME`"), (r"(?!Lic|Doc).*-identifier-b", "NAME-identifier-b", "the same in parentheses"),
    (r"(?!Lic|Doc).*-identifier-dot", "NAME-identifier-dot", "the same, and a dot"), (r"LicenseRef-identifier(-[b-z])?", "LicenseRef-identifier, -b ..", "an identifier of one's own, of one, two .. words"),
    (r"DocumentRef-identifier(-[b-z])?", "DocumentRef-identifier, -b ..", "one of another document, `DocumentRef-A:LicenseRef-B`"), (r"cut-(?!OR|AND|WITH|Lic|Doc).*(?<!-[bc])", "cut-NAME", "a tag that goes on after its first identifier, as `MIT OR Own`"),
    (r"cut-(?!OR|AND|WITH|Lic|Doc).*-[bc]", "cut-NAME-b, -c", "the same with a parenthesis after it, as `(MIT) OR Own`"), (r"cut-(Lic|Doc).*", "cut-LicenseRef, -b, cut-DocumentRef, -b", "an identifier of one's own that goes on"), ("unknown-identifier", "unknown-identifier", "a tag that begins otherwise"),
    (r"expression-OR-.*(?<!-c)(?<!-dot)", "expression-OR-NAME", "`SPDX-License-Identifier: ISC OR NAME`"), (r"expression-AND-.*(?<!-c)(?<!-dot)", "expression-AND-NAME", "`ISC AND NAME`"), (r"expression-WITH-.*(?<!-dot)", "expression-WITH-NAME", "`GPL-2.0-only WITH NAME`"),
    (r"expression-.*-c", "expression-OR-NAME-c", "the last identifier in parentheses, as `ISC OR (GPL-2.0)`"), (r"expression-.*-dot", "expression-OR-NAME-dot", "an expression, and a dot"),
    (r"cut-(OR|AND|WITH)-.*", "cut-OR-NAME", "an expression that goes on, as `ISC OR NAME-Own`"),
]


def texts(template):
    """The texts outside optional parts and variables, spelled as files are searched for them."""
    found, depth, at = [], 0, 0
    for rule in [*RULE.finditer(template), None]:
        part = template[at:rule.start() if rule else len(template)]
        if depth == 0:
            found.append(re.sub(r"(?<=\W) | (?=\W)", "", " ".join(part.lower().split())))
        if rule:
            depth += (rule[0] == "<<beginOptional>>") - (rule[0] == "<<endOptional>>")
            at = rule.end()
    return found


def original_of(template):
    """The text of a template with all optional parts, and with each variable's original."""
    text = re.sub(r'<<var;.*?original="(.*?)".*?>>', r"\1", template, flags=re.S)
    return " ".join(re.sub(r"<<(begin|end)Optional>>", "", text).split())


def kind_of(name):
    if name.startswith("no-grant"):
        return "no-grant"
    if re.match("cut-(?!.*-field)|expression-", name):
        return "expression"
    kind = KIND.search(name)
    return kind[1] if kind else "text"


def read():
    """The templates of both folders by their kinds."""
    found = collections.defaultdict(dict)
    for folder in (starter.GRANTS, starter.MENTIONS):
        for file in sorted(os.listdir(folder)):
            if file.endswith(starter.ENDING):
                name = file.removesuffix(starter.ENDING)
                with open(os.path.join(folder, file), encoding="utf-8") as template:
                    found[kind_of(name)][name] = template.read()
    return found


def wrapped(text, indent=""):
    return textwrap.fill(text, 100, subsequent_indent=indent, break_long_words=False, break_on_hyphens=False)


def examples():
    """The project, the file and the words of each template of which an example is known."""
    with open(SEEN, encoding="utf-8") as file:
        rows = [line.rstrip("\n").split("\t") for line in file]
    return {row[0]: row[1:] for row in rows}


def shown(text):
    """A text of Markdown that is not too long."""
    text = text if len(text) <= MOST_LETTERS else text[:MOST_LETTERS].rsplit(" ", 1)[0] + " .."
    return re.sub(r"([*_<>`|\\\[\]])", r"\\\1", text)


@functools.cache
def frame_of(template):
    """A template with names and versions of licences left out, and without what their variables describe and what is optional about them."""
    text = re.sub(r'<<var;name="(\w+)".*?>>', r"<\1>", " ".join(template.split()), flags=re.S)
    text = re.sub(r'<<beginOptional>>[^\w<]*(<<beginOptional>>"<<endOptional>>)?\w*(<<beginOptional>>"<<endOptional>>)?[^\w<]*<<endOptional>>', "", NAME.sub("NAME", text))
    return re.sub(r"(?i)\W*\bv?\d[\d.]*", "", re.sub(r"(?i)lesser |affero |,? ?<version>", "", text)).strip()


def place(row):
    """A project, and a file of it."""
    return f" In `{row[0]}` (`{row[1]}`)"


def guarded(name):
    """What would be reported of a text without a template that no project is known to have; none of others."""
    return next((re.sub(pattern, what, name) for pattern, what in GUARDED if re.fullmatch(pattern, name)), None)


def example_of(name, template, found, seen):
    """A real example of a template, or of one that is the same with another name."""
    family = [name] + [it for it in found if frame_of(found[it]) == frame_of(template)]
    real = next((it for it in family if len(seen.get(it, ())) == 3), None)
    if real is None:
        return f" A guard: else `{guarded(name)}`." if guarded(name) else ""
    return f"{place(seen[real])}{'' if real == name else f', `{real}`'}: {shown(seen[real][2])}"


def item(name, template, found, seen):
    return wrapped(f"- `{name}`: {shown(original_of(template))}.{example_of(name, template, found, seen)}", "  ")


def kinds(seen):
    """A line for each kind of tag."""
    for pattern, title, text in TAGS:
        real = next((it for it in sorted(seen) if re.fullmatch(pattern, it) and len(seen[it]) == 3 and "-field" not in it), None)
        yield wrapped(f"- `{title}`: {text}." + (f"{place(seen[real])}, `{real}`: {shown(seen[real][2])}" if real else " Found in none of 82,766 files with tags (Linux and U-Boot among them): SPDX's grammar has it."), "  ")


def frames_of_fields():
    """The ends of the names of the fields that fields.py makes, which names have them, and their texts."""
    kinds = {"": tags.SHORT_FIELDS, " of six letters": tags.SIX_FIELDS, " of seven letters": tags.MIDDLE_FIELDS, " of more letters": {"": tags.FIELD}}
    for letters, forms in kinds.items():
        yield from ((suffix, letters, text) for suffix, text in forms.items() if not letters or text != tags.SHORT_FIELDS.get(suffix))
    yield "-r", "", fields.WITH_FILE
    yield from ((suffix, "", text) for suffix, text in fields.LISTS.items())


def made_fields(made, seen):
    """A line for each frame of the fields that fields.py makes, and one of those that are cut; then the names of all of them. Of a frame that was found
    with another name alone, which has another template, the example is that of the frame."""
    names_of_made = fields.names()
    for suffix, letters, text in frames_of_fields():
        title, frames = f"NAME-field{suffix}", {text, tags.SHORT_FIELDS.get(suffix, text)}
        these = {frame.format(name) for frame in frames for name in names_of_made + fields.OF_R + fields.OF_LISTS}
        alike = [it for it in sorted(seen) if len(seen[it]) == 3 and made.get(it) in these]
        real = seen[alike[0]] if alike else seen[title]
        yield wrapped(f"- `{title}`{letters}: {shown(original_of(text.format('NAME')))}.{place(real)}{f', `{alike[0]}`' if alike else ''}: {shown(real[2])}", "  ")
    real = next((it for it in sorted(seen) if re.match("cut-.*-field", it)), None)
    yield wrapped("- `cut-NAME-field`, `-b` ..: each of these where the name goes on, as `MIT-Own`." + (f"{place(seen[real])}, `{real}`: {shown(seen[real][2])}" if real else ""), "  ")
    yield "\nNAME is one of these; those that SPDX publishes and that go on after another one are guards of that:\n"
    yield wrapped(", ".join(sorted(set(names_of_made))))


def longer_notices():
    """A line for the notices that longer.py makes."""
    yield wrapped(f"- `NAME-notice-x`: {shown(original_of(longer.FRAME.format('NAME')))}, with a longer identifier, a guard: else the shorter one. NAME is " + ", ".join(sorted(longer.names())) + ".", "  ")


def names(kind, found, pattern):
    """The names of a kind without an ending, in one paragraph."""
    return wrapped(", ".join(sorted({re.sub(pattern, "", it) for it in found[kind]})))


def page():
    found, seen = read(), examples()
    lines = [HEAD]
    for kind, title, sentence in SECTIONS:
        these = [item(*it, found[kind], seen) for it in sorted(found[kind].items()) if not it[0].endswith("-notice-x")]
        lines += [f"## {title}\n", wrapped(sentence) + "\n", "\n".join(these + (list(longer_notices()) if kind == "notice" else [])) + "\n"]
    made = dict(fields.templates())
    by_hand = {it: text for it, text in found["field"].items() if it not in made}
    lines += ["## Fields\n", wrapped(FIELDS) + "\n", "\n".join(made_fields(made, seen)) + "\n"]
    lines += ["Other fields:\n", "\n".join(item(*it, by_hand, seen) for it in sorted(by_hand.items())) + "\n"]
    lines += ["## Tags\n", "\n".join(kinds(seen)) + "\n", "NAME of an identifier is\n", names("identifier", found, KIND) + "\n"]
    ends = sorted({re.sub("^(expression|cut)-(OR|AND|WITH)-|(-[b-d])?(-dot)?$", "", it) for it in found["expression"] if re.match("expression-", it)})
    lines += ["NAME of the end of an expression is\n", wrapped(", ".join(ends)) + "\n"]
    return "\n".join(lines)


def faults():
    """Whether the page is as it is made, and each template has an example there or is a guard."""
    with open(PAGE, encoding="utf-8") as file:
        found = [] if file.read() == page() else ["examples/TEMPLATES.md: not as listing.py makes it"]
    without = [it for it in re.findall(r"^- .*(?:\n  .*)*", page(), re.M) if not re.search(r"\sIn\s+`|[Aa]\s+guard: else|SPDX's grammar has it", re.sub(r"\n  ", " ", it))]
    return found + [f"examples/TEMPLATES.md: no example: {it}" for it in without]


def main():
    with open(PAGE, "w", encoding="utf-8") as file:
        file.write(page())


if __name__ == "__main__":
    main()
