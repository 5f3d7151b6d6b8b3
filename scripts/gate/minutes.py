#!/usr/bin/env python3
"""Passes the gate's lines on, and at their end writes to standard error how many minutes in each crate was proved, its tests were, and its
must-fail edits began. With `--whole SECONDS` it writes how long the whole gate took. Both are kept in ~/.cache/licscan/gate_minutes.txt, for
docs/PROOFS.md. Usage: rt ci | minutes.py, and then minutes.py --whole SECONDS"""
import os
import re
import sys
import time

KEPT = os.path.expanduser("~/.cache/licscan/gate_minutes.txt")

LINES = (
    (0, re.compile(r"rt: (\w+) proved$")),
    (1, re.compile(r"rt: (\w+): its tests are proved$")),
    (2, re.compile(r"rt: (\w+): trying its must-fail edits")),
)


def keep(lines, mode):
    """Writes lines to standard error, and to the file of the last gate: where it cannot be written, nothing is lost but that."""
    text = "".join(f"{line}\n" for line in lines)
    sys.stderr.write(text)
    try:
        os.makedirs(os.path.dirname(KEPT), exist_ok=True)
        with open(KEPT, mode, encoding="utf-8") as file:
            file.write(text)
    except OSError:
        pass


def main():
    if sys.argv[1:2] == ["--whole"]:
        keep([f"the whole gate: {int(sys.argv[2]) / 60:.1f}"], "a")
        return
    start = time.monotonic()
    reached = {}
    # as bytes, so that no line can stop it
    for line in sys.stdin.buffer:
        sys.stdout.buffer.write(line)
        sys.stdout.buffer.flush()
        for column, pattern in LINES:
            found = pattern.match(line.decode("utf-8", "replace").rstrip("\n"))
            if found:
                minutes = f"{(time.monotonic() - start) / 60:.1f}"
                reached.setdefault(found[1], ["-", "-", "-"])[column] = minutes
    rows = [" ".join([name, *minutes]) for name, minutes in reached.items()]
    done = f"all: {(time.monotonic() - start) / 60:.1f}"
    keep([time.strftime("%Y-%m-%d %H:%M, minutes from the start: crate, proved, tests proved, edits begun"), *rows, done], "w")


if __name__ == "__main__":
    main()
