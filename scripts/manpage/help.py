"""Reads what the program says of itself by --help: commands, their options and arguments, and the text below them."""
import re
import subprocess
from dataclasses import dataclass


@dataclass
class Entry:
    """An option, an argument or a command: how it is written, and its text."""
    names: list
    value: str
    text: str

    @property
    def takes(self):
        """What completes its value: 'folder', 'file', 'none' where nothing does, or '' where it has no value."""
        if not self.value:
            return ""
        return {"DIR": "folder", "FILE": "file", "FILES": "file"}.get(self.value, "none")


@dataclass
class Page:
    """The help of the program or of a command."""
    about: str
    usage: str
    commands: list
    arguments: list
    options: list
    notes: list

    def note(self, word):
        """The paragraph that begins with this word, without it."""
        return next((it.removeprefix(word).strip() for it in self.notes if it.startswith(word)), "")


def entry_of(line):
    """`-h, --help  Print help`, `--words <FILE>  ..`, `[FILES]...  ..` and `scan  ..` as an entry."""
    written, text = re.split(r" {2,}", line.strip(), maxsplit=1)
    value = re.search(r"[<\[]([^>\]]+)[>\]]", written)
    names = re.sub(r"[<\[].*", "", written).replace(",", " ").split()
    return Entry(names, value[1] if value else "", text)


def page_of(text):
    """Reads a page: paragraphs, of which some have a heading."""
    page = Page("", "", [], [], [], [])
    entries = {"Commands:": page.commands, "Arguments:": page.arguments, "Options:": page.options}
    page.about, *rest = text.strip().split("\n\n")
    for paragraph in rest:
        heading, *lines = paragraph.split("\n")
        if heading.startswith("Usage: "):
            page.usage = heading.removeprefix("Usage: ")
        elif heading in entries:
            entries[heading] += [entry_of(line) for line in lines]
        else:
            page.notes.append(" ".join(paragraph.split()))
    return page


def asked(program, *words):
    return subprocess.run([program, *words], stdout=subprocess.PIPE, check=True, text=True).stdout


def read(program):
    """The version of the program, its page, and the page of each command but `help` by its name."""
    whole = page_of(asked(program, "--help"))
    names = [it.names[0] for it in whole.commands if it.names[0] != "help"]
    return asked(program, "--version").strip(), whole, {name: page_of(asked(program, name, "--help")) for name in names}
