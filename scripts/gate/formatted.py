#!/usr/bin/env python3
"""Fails where `rt fmt` would change a file: the gate refuses such a crate when its turn comes, which may be an hour later.

Usage, at any place: python3 scripts/gate/formatted.py
"""
import filecmp
import os
import shutil
import subprocess
import sys
import tempfile

TOP = os.path.dirname(os.path.dirname(os.path.dirname(os.path.abspath(__file__))))
CRATES = os.path.join(TOP, "crates")
READ = (".rt", ".antt")


def files_of(folder):
    """The paths, from the folder on, of the sources in it."""
    for place, folders, names in os.walk(folder):
        folders[:] = [name for name in folders if name != "out"]
        for name in names:
            if name.endswith(READ):
                yield os.path.relpath(os.path.join(place, name), folder)


def unformatted(crate, top):
    """The files of a crate that `rt fmt` would change. It is run on a copy."""
    copy = os.path.join(top, "crates", crate)
    shutil.copytree(os.path.join(CRATES, crate), copy, ignore=shutil.ignore_patterns("out"))
    ran = subprocess.run(["rt", "fmt"], cwd=copy, capture_output=True, text=True)
    if ran.returncode:
        sys.exit(f"crates/{crate}: rt fmt failed: {ran.stdout}{ran.stderr}")
    for file in sorted(files_of(copy)):
        if not filecmp.cmp(os.path.join(copy, file), os.path.join(CRATES, crate, file), shallow=False):
            yield f"crates/{crate}/{file}"


def main():
    with tempfile.TemporaryDirectory() as top:
        shutil.copy(os.path.join(TOP, "crates.txt"), top)
        found = [file for crate in sorted(os.listdir(CRATES)) for file in unformatted(crate, top)]
    for file in found:
        print(f"{file}: not formatted; run rt fmt in its crate", file=sys.stderr)
    sys.exit(bool(found))


main()
