"""Writes the manual page in the macros of man(7)."""
import re

DESCRIPTION = """\
.B licscan
finds open-source licences in source code.
It takes a folder of licence templates and some files, and reports every range of a file that a template matches.
Case, white space, comment marks, kinds of quotes and dashes, and list items make no difference; anything else that differs is no match.
.PP
Templates are written in the markup of the SPDX specification 2.3, Annex B.
A text without markup is a template too."""

FILES = """\
Under the prefix of the installation:
.TP
.I share/licscan/templates
The starter set, for
.BR \\-\\-templates .
.TP
.I share/licscan/mentions
Names of licences in words, which give none by themselves. For both, put both into one folder.
.TP
.I share/licscan/expressions
Expressions of tags whole, whatever their identifiers are, for files of which the starter set says that a tag is cut.
.TP
.I share/licscan/rules
Line rules, for
.BR \\-\\-rules .
.TP
.I share/licscan/words
Spellings that count as the same, for
.BR \\-\\-words .
.TP
.I share/licscan/report
Scripts that read what
.B licscan scan
writes: a check by a list of licences, a summary, a draft of debian/copyright, and an SPDX document.
.TP
.I share/doc/licscan
The manual, recipes and a glossary."""

SEE_ALSO = """\
.BR licensecheck (1),
.BR xargs (1)"""

MANY = "git ls-files -z | xargs -0 licscan scan --templates /usr/local/share/licscan/templates --"


def plain(text):
    """Text for a line of its own: signs that the macros would take are escaped."""
    text = text.replace("\\", "\\e").replace("-", "\\-")
    return "\\&" + text if text[:1] in ("'", ".") else text


def written(entry):
    """`--words <FILE>` with its names in bold and its value in italics."""
    names = ", ".join(f"\\fB{plain(name)}\\fR" for name in entry.names)
    return " ".join(it for it in (names, f"\\fI{plain(entry.value)}\\fR" if entry.value else "") if it)


def synopsis(usage):
    """A line of usage: values in italics, brackets and dots as they are, other words in bold."""
    pieces = re.findall(r"<[^>]+>|\[[^\]]+\](?:\.\.\.)?|\S+", usage)
    shown = []
    for piece in pieces:
        if piece.startswith("<"):
            shown.append(f"\\fI{plain(piece[1:-1])}\\fR")
        elif piece.startswith("["):
            shown.append(re.sub(r"\w+", r"\\fI\g<0>\\fR", piece, count=1))
        else:
            shown.append(f"\\fB{plain(piece)}\\fR")
    return " ".join(shown)


def command_of(name, page):
    lines = [f".SS {name}", plain(page.about) + "."]
    for entry in page.arguments + page.options:
        lines += [".TP", written(entry), plain(entry.text) + "."]
    for note in page.notes:
        if not note.startswith(("Status:", "Example:")):
            lines += [".PP", plain(note)]
    return lines


def made(version, whole, pages):
    lines = [".\\\" Made by scripts/manpage/make.py from what the program says by --help.", f'.TH LICSCAN 1 "" "{version}" "User Commands"']
    lines += [".SH NAME", f"licscan \\- {plain(whole.about[0].lower() + whole.about[1:])}"]
    lines += [".SH SYNOPSIS", ".nf"] + [synopsis(page.usage) for page in pages.values()] + [".fi"]
    lines += [".SH DESCRIPTION", DESCRIPTION]
    lines += [".SH OPTIONS"] + [line for entry in whole.options for line in (".TP", written(entry), plain(entry.text) + ".")]
    lines += [".SH COMMANDS"] + [line for name, page in pages.items() for line in command_of(name, page)]
    lines += [".SH EXIT STATUS"] + [line for name, page in pages.items() for line in (".TP", f".B {name}", plain(page.note("Status:")))]
    lines += [".SH FILES", FILES]
    examples = [page.note("Example:") for page in pages.values()] + [MANY]
    lines += [".SH EXAMPLES", ".nf"] + [plain(example) for example in examples] + [".fi"]
    lines += [".SH SEE ALSO", SEE_ALSO]
    return "\n".join(lines) + "\n"
