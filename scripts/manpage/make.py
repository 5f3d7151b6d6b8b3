#!/usr/bin/env python3
"""Makes the manual page and the completions from what the program says by --help: make.py PROGRAM [OUT]

They go below OUT, which is the folder share at the top if it is not given, to the places that they have below share of a prefix.
"""
import os
import sys

import completions
import help
import manual_page

SHARE = os.path.join(os.path.dirname(os.path.dirname(os.path.dirname(os.path.abspath(__file__)))), "share")


def made(program):
    """Each file by its path."""
    version, whole, pages = help.read(program)
    return {
        "man/man1/licscan.1": manual_page.made(version, whole, pages),
        "bash-completion/completions/licscan": completions.bash(whole, pages),
        "zsh/site-functions/_licscan": completions.zsh(whole, pages),
        "fish/vendor_completions.d/licscan.fish": completions.fish(whole, pages),
    }


def main():
    if len(sys.argv) not in (2, 3):
        sys.exit("usage: make.py PROGRAM [OUT]")
    out = sys.argv[2] if len(sys.argv) == 3 else SHARE
    for name, text in made(os.path.abspath(sys.argv[1])).items():
        path = os.path.join(out, name)
        os.makedirs(os.path.dirname(path), exist_ok=True)
        with open(path, "w", encoding="utf-8") as file:
            file.write(text)


if __name__ == "__main__":
    main()
