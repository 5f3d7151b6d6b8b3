#!/usr/bin/env python3
"""Tries the manual page, the completions and the installation.

- The files below share are those that make.py makes of the program's --help.
- bash completes the commands and each command's options as --help lists them, and a value by what it is: a folder, a file or nothing.
- The manual page, laid out by groff, has each option with its value; zsh and fish read their files. Each where it is installed.
- install.sh puts everything under a prefix, and the program that is there scans by the templates that are there.
"""
import os
import re
import shutil
import sys

import harness
import help
import make
from make import SHARE

BASH = os.path.join(SHARE, "bash-completion/completions/licscan")
FISH = os.path.join(SHARE, "fish/vendor_completions.d/licscan.fish")
ZSH = os.path.join(SHARE, "zsh/site-functions/_licscan")
PAGE = os.path.join(SHARE, "man/man1/licscan.1")

# what the shell is asked for as a value's completion: no file names, and for a folder those of folders
WANTED = {"folder": "+o default -o dirnames", "file": "", "none": "+o default"}


def said(*words):
    """What a command writes, its errors last, and its status."""
    ran = harness.run(words, env=dict(os.environ))
    return (ran.out + ran.err).decode("utf-8", "replace"), ran.status


def not_as_made(program):
    faults = []
    for name, text in make.made(program).items():
        path = os.path.join(SHARE, name)
        if not os.path.exists(path) or open(path, encoding="utf-8").read() != text:
            faults.append(f"share/{name}: not as make.py makes it")
    return faults


def completed(*words):
    """What bash offers for the last of these words, and what it is asked for of file names."""
    script = 'compopt() { echo "asked $*"; }; source "$1"; shift; COMP_WORDS=("$@"); COMP_CWORD=$(($# - 1)); _licscan; printf "%s\\n" "${COMPREPLY[@]}"'
    lines = said("bash", "-c", script, "bash", BASH, "licscan", *words)[0].split("\n")
    asked = " ".join(line.removeprefix("asked ") for line in lines if line.startswith("asked "))
    return sorted(line for line in lines if line and not line.startswith("asked ")), asked


def not_completed(whole, pages):
    listed = [name for entry in whole.commands + whole.options for name in entry.names]
    faults = [] if completed("")[0] == sorted(listed) else ["bash: other commands than those of --help"]
    for command, page in pages.items():
        if completed(command, "-")[0] != sorted(name for entry in page.options for name in entry.names):
            faults.append(f"bash: {command}: other options than those of --help")
        for entry in page.options:
            for words in ([entry.names[-1], ""], [entry.names[-1], "=", "x"]) if entry.takes else ():
                if completed(command, *words) != ([], WANTED[entry.takes]):
                    faults.append(f"bash: {command} {' '.join(words)}: not completed as {entry.value}")
        if completed(command, "--", "-") != ([], ""):
            faults.append(f"bash: {command}: options after --")
    return faults


def not_on_the_page(pages):
    if not shutil.which("groff"):
        return []
    warnings, _ = said("groff", "-man", "-Tascii", "-ww", "-z", PAGE)
    faults = [f"groff: {warnings}"] if warnings else []
    text = re.sub(r"\x1b\[[0-9;]*m|.\x08", "", said("groff", "-man", "-Tascii", "-P-c", PAGE)[0])
    for command, page in pages.items():
        section = re.split(r"\n   (?=\w)|\n(?=[A-Z])", text.split(f"\n   {command}\n", 1)[-1])[0]
        shown = re.findall(r"^ {7}(-[^\n]*?)(?: {2,}\S[^\n]*)?$", section, re.M)
        wanted = [", ".join(entry.names) + (f" {entry.value}" if entry.value else "") for entry in page.options]
        if [line.split("  ")[0].strip() for line in shown] != wanted:
            faults.append(f"licscan.1: {command}: {shown}, not {wanted}")
    return faults


def not_read_by_shells():
    shells = [(shell, path) for shell, path in (("bash", BASH), ("zsh", ZSH), ("fish", FISH)) if shutil.which(shell)]
    return [f"{shell}: {errors}" for shell, path in shells if (errors := said(shell, "-n", path)[0])]


def not_installed(program):
    with harness.folder_of({}) as prefix:
        done, status = said(os.path.join(harness.TOP, "install.sh"), prefix, program)
        found, _ = said(f"{prefix}/bin/licscan", "scan", "--templates", f"{prefix}/share/licscan/templates",
                        "--rules", f"{prefix}/share/licscan/rules/more-comments.rules", "--words", f"{prefix}/share/licscan/words",
                        os.path.join(harness.TOP, "LICENSE"))
        missing = [name for name in make.made(program) if not os.path.exists(f"{prefix}/share/{name}")]
    faults = [f"install.sh: no share/{name}" for name in missing]
    if status or "\tMIT\t" not in found:
        faults.append(f"install.sh: {done}{found}")
    return faults


def main():
    program, tally = harness.arguments(__doc__).parse_args().program, harness.Tally("parts of what is installed")
    _, whole, pages = help.read(program)
    tally.add("files below share", not_as_made(program))
    tally.add("completion", not_completed(whole, pages))
    tally.add("manual page", not_on_the_page(pages))
    tally.add("shells", not_read_by_shells())
    tally.add("installation", not_installed(program))
    return tally.end()


if __name__ == "__main__":
    sys.exit(main())
