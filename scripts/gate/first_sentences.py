#!/usr/bin/env python3
"""Fails where a source file does not begin with a sentence that says what it holds: the first comment of a file of code, of definitions or of
lemmas, or the first words of a script.

Usage, at any place: python3 scripts/gate/first_sentences.py

Left out are the files that hold the proof of one function (`Answers.antt`, `Invariants.antt`, `Proof.antt`), those that name the files beside
them (`Lib.antt`), and data. Each file at fault is printed; the last line is 'N files, M bad', and the status is 1 if M is not 0.
"""
import ast
import os
import sys

TOP = os.path.dirname(os.path.dirname(os.path.dirname(os.path.realpath(__file__))))
# the folders of a crate, the ending of their files, and what begins a line of the comment
PARTS = (("src", ".rt", "//!"), ("specs", ".antt", "--"), ("proofs", ".antt", "--"))
LEFT_OUT = ("Answers.antt", "Invariants.antt", "Proof.antt", "Lib.antt")


def first_comment(path, mark):
    """The comment that a file begins with, as one line."""
    words = []
    with open(path, encoding="utf-8") as file:
        for line in file:
            if not line.startswith(mark) or not line[len(mark):].strip():
                break
            words.append(line[len(mark):].strip())
    return " ".join(words)


def first_words(path):
    """The first paragraph of a script's docstring, or of the comment that a file in C begins with, as one line."""
    with open(path, encoding="utf-8") as file:
        text = file.read()
    if path.endswith(".py"):
        text = ast.get_docstring(ast.parse(text)) or ""
    else:
        text = text.removeprefix("/*").partition("*/")[0] if text.startswith("/*") else ""
    return " ".join(text.split("\n\n")[0].split())


def is_sentence(words):
    """Whether words begin with a sentence: they have an end, a full stop or a colon."""
    return any(mark in f"{words} " for mark in (". ", ": "))


def files_of(folder, endings):
    """The files below a folder with one of these endings."""
    for at, folders, names in os.walk(folder):
        folders.sort()
        yield from (os.path.join(at, name) for name in sorted(names) if name.endswith(endings) and name not in LEFT_OUT)


def beginnings():
    """Each source file, with the words that it begins with."""
    for crate in sorted(os.listdir(f"{TOP}/crates")):
        for part, ending, mark in PARTS:
            for path in files_of(f"{TOP}/crates/{crate}/{part}", (ending,)):
                yield path, first_comment(path, mark)
    for folder in ("scripts", "bench"):
        for path in files_of(f"{TOP}/{folder}", (".py", ".c")):
            yield path, first_words(path)


def main():
    count, bad = 0, 0
    for path, words in beginnings():
        count += 1
        if not is_sentence(words):
            bad += 1
            print(f"{os.path.relpath(path, TOP)} does not say in its first sentence what it holds")
    print(f"{count} files, {bad} bad")
    return 1 if bad else 0


if __name__ == "__main__":
    sys.exit(main())
