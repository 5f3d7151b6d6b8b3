"""Reads the lines that `licscan scan` writes: matches with their variables, and the licences that they name."""
import itertools
import os
import re
import signal
import sys
from dataclasses import dataclass, field

# templates that name no licence of the file: words that give none, notices that point elsewhere, permissions beside a licence
NONE = re.compile(r"no-grant-|same-as-|other-file-|[A-Za-z]+-exception-([\d.]+-)?notice")
# tags of which not all is known
UNKNOWN = re.compile(r"unknown-identifier|cut-|(OR|AND)-field(-[b-z])?$")
CUT_FIELD = re.compile(r"cut-(.+)-field(-[b-z])?$")
EXPRESSION = re.compile(r"expression-(OR|AND|WITH)-(.*?)(-[b-d])?(-dot)?$")
WHOLE = re.compile(r"(own-)?expression(-b|-end-\d+|-\d-dot)?$")
SUFFIX = re.compile(r"(-(identifier|field|notice|mention))?(-[b-z])?(-dot)?$")
TAG = re.compile(r".*-(identifier|field)(-[b-z])?(-dot)?$|expression-")
# marks inside an identifier: they neither end a sentence nor begin a line
JOINED = re.compile(rb"[a-z0-9+][-.+]+[a-z0-9]", re.IGNORECASE)
# three of one mark are a separator, which no template sees
STREAK = re.compile(rb"[a-z0-9+](-{3,}|\.{3,}|\+{3,})[a-z0-9]", re.IGNORECASE)
LONGEST = 200
# names of Debian and older ones, of tags and fields
OLDER = re.compile(r"([AL]?GPL|GFDL)-?v?(\d)(\.\d)?(\+?)$", re.IGNORECASE)
SAME = {"Expat": "MIT", "Apache-2": "Apache-2.0", "Apache2": "Apache-2.0", "EPL-1": "EPL-1.0", "BSD3": "BSD-3-Clause",
        "BSD-2": "BSD-2-Clause", "BSD-3": "BSD-3-Clause", "BSD_2_clause": "BSD-2-Clause", "BSD_3_clause": "BSD-3-Clause"}
FAMILIES = ("AFL", "AGPL", "Apache", "Artistic", "BSD", "CDDL", "EPL", "GFDL", "GPL", "LGPL", "MPL")


@dataclass
class Match:
    file: str
    id: str
    start: int
    end: int = 0
    values: list = field(default_factory=list)
    starts: list = field(default_factory=list)

    @property
    def is_mention(self):
        return bool(re.search("-mention(-[b-z])?$", self.id))

    @property
    def licence(self):
        """The licence or the expression; '' where the template names none; None where not all of it is known."""
        if NONE.match(self.id):
            return ""
        if CUT_FIELD.match(self.id):
            return self.known
        if UNKNOWN.match(self.id) or self.is_joined:
            return None
        expression = EXPRESSION.match(self.id)
        if expression:
            return closed(f"{' '.join(self.values[0].split())} {expression[1]} {expression[2]}")
        if WHOLE.match(self.id):
            return closed(" ".join(self.expression.split()))
        name = SUFFIX.sub("", self.id)
        if re.search("-(identifier|field)(-[b-z])?(-dot)?$", self.id):
            name = identifier(name)
        if name == "LicenseRef":
            return f"LicenseRef-{first_word(self.values[0])}"
        if name == "DocumentRef":
            return f"DocumentRef-{self.values[0]}:LicenseRef-{first_word(self.values[1])}"
        return name.replace("-OR-", " OR ").replace("-WITH-", " WITH ")

    @property
    def known(self):
        """The licence of a field that goes on, with an exception that is not known, or where the file shows that the mark is apart; else None."""
        name = identifier(CUT_FIELD.match(self.id)[1])
        if "-OR-" in name:
            return None
        if self.values[0].lower() == "with":
            return f"{name} WITH unknown"
        return name if self.before(self.starts[0]).isspace() else None

    def before(self, place):
        """The byte of the file before a place; none where there is no file."""
        try:
            with open(self.file.encode("utf-8", "surrogateescape"), "rb") as file:
                return file.read(place)[-1:]
        except OSError:
            return b""

    @property
    def expression(self):
        """A whole expression. No dot of one has a blank beside it: such a one ends a sentence, or begins the next line."""
        return re.split(r"\s+\.|\.\s", self.values[0])[0]

    @property
    def last(self):
        """The byte after the last word of a tag."""
        if WHOLE.match(self.id):
            return self.starts[0] + length(self.expression)
        if re.match("(License|Document)Ref-identifier", self.id):
            return self.starts[-1] + length(first_word(self.values[-1]))
        return self.end - self.id.endswith("-dot")

    @property
    def is_joined(self):
        """Whether a dot after a tag or field, or three of one mark in it or after it, belong to it. Only the file shows it; without it a dot of a tag does."""
        if not (TAG.match(self.id) or WHOLE.match(self.id)) or ("-field" in self.id and self.values):
            return False
        try:
            with open(self.file.encode("utf-8", "surrogateescape"), "rb") as file:
                file.seek(self.start)
                size = self.last - self.start
                text = file.read(size + LONGEST)
            return bool(STREAK.search(text[:size]) or JOINED.match(text, size - 1))
        except OSError:
            return self.id.endswith("-dot") or (self.id == "expression-b" and self.values[1].startswith("."))


def closed(expression):
    """An expression with its last parentheses, which are not in the range of a tag, and with none around it as a whole."""
    expression += ")" * (expression.count("(") - expression.count(")"))
    depths = list(itertools.accumulate((it == "(") - (it == ")") for it in expression))
    return expression[1:-1] if expression.startswith("(") and 0 not in depths[:-1] else expression


def length(text):
    """The bytes of a text."""
    return len(text.encode("utf-8", "surrogateescape"))


def first_word(name):
    """A name of one's own, without a dot that ends a sentence or begins the next line."""
    return name.split()[0].rstrip(".")


def identifier(name):
    """The identifier of SPDX for a name of Debian or an older one: `GPL-2+` is GPL-2.0-or-later, `GPL-2.0` is GPL-2.0-only."""
    older = OLDER.match(name)
    if older:
        return f"{older[1]}-{older[2]}{older[3] or '.0'}-{'or-later' if older[4] else 'only'}"
    return SAME.get(name, name)


def open_streams():
    """Standard input and output with names of any bytes. A reader that leaves, such as `head`, ends a script without a word."""
    signal.signal(signal.SIGPIPE, signal.SIG_DFL)
    sys.stdin.reconfigure(encoding="utf-8", errors="surrogateescape", newline="\n")
    sys.stdout.reconfigure(encoding="utf-8", errors="surrogateescape")


def plain(text):
    """A field as it is without escapes."""
    return re.sub(r"\\(.)", lambda it: {"n": "\n", "r": "\r", "t": "\t"}.get(it[1], it[1]), text)


def matches(lines):
    """The matches, each with the values of its variables. Bytes that are no UTF-8 are kept as surrogates."""
    last = None
    for line in lines:
        fields = line.rstrip("\n").split("\t")
        if fields[0]:
            if last:
                yield last
            last = Match(plain(fields[0]), plain(fields[1]), int(fields[4]), int(fields[5]))
        elif last and len(fields) == 5:
            last.values.append(plain(fields[4]))
            last.starts.append(int(fields[2]))
    if last:
        yield last


def kept_texts(folder="LICENSES"):
    """The texts that a repository keeps by their identifiers, as REUSE has it."""
    texts = {}
    for file in sorted(os.listdir(folder)) if os.path.isdir(folder) else ():
        if file.endswith(".txt"):
            with open(os.path.join(folder, file), encoding="utf-8", errors="replace") as text:
                texts[file.removesuffix(".txt")] = text.read().strip("\n")
    return texts


def answer(found):
    """The licences of a file: grants, or mentions where there is none; a family is left out beside a version of it."""
    names = [[it.licence or "unknown" for it in found if it.is_mention == mention and it.licence != ""] for mention in (False, True)]
    chosen = sorted(set(names[0] or names[1]))
    return [name for name in chosen if not (name in FAMILIES and any(it.startswith(name + "-") for it in chosen))]
