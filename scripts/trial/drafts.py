#!/usr/bin/env python3
"""Writes what drafts of debian/copyright say of each file, and the seconds of the processor:
drafts.py FOLDER OUT [--licscan PROGRAM] [--decopy] [--limit N]

FOLDER is that of packages.py. A draft is made of a copy of each package without its debian/copyright: by scripts/report/debian.py of what licscan
says of its text files, or by decopy. A package of which decopy takes more than N seconds of the processor is named, and has no draft.
OUT/licscan.txt and OUT/decopy.txt have a line for each file, its name and a licence, for `score.py --lines`."""
import argparse
import functools
import os
import resource
import shutil
import subprocess
import sys
import tempfile

import copyright_file
import score

REPORT = os.path.join(os.path.dirname(os.path.abspath(__file__)), "..", "report")


def names_below(place):
    """The names of the text files of a package that are not too large."""
    found = []
    for at, folders, names in os.walk(place):
        folders[:] = sorted(it for it in folders if it not in (".git", ".pc"))
        found += [os.path.relpath(os.path.join(at, name), place) for name in sorted(names) if is_text(os.path.join(at, name))]
    return found


def is_text(path):
    if os.path.islink(path) or not os.path.isfile(path) or os.path.getsize(path) > score.MAX_BYTES or not path.isprintable() or "\\" in path:
        return False
    with open(path, "rb") as file:
        return b"\0" not in file.read()


def by_licscan(program, place):
    """The draft of scripts/report/debian.py."""
    lines = "".join("\t".join(fields) + "\n" for fields in score.lines_of_licscan(program, None, place, names_below(place)))
    words = [sys.executable, os.path.join(REPORT, "debian.py")]
    return subprocess.run(words, cwd=place, input=lines, stdout=subprocess.PIPE, stderr=subprocess.DEVNULL, check=False, text=True, errors="replace").stdout


def by_decopy(limit, place):
    """The draft of decopy, of all files below the folder; none where that takes more seconds of the processor than the limit."""
    words = ["prlimit", f"--cpu={limit}", "decopy", "--quiet", "--no-progress", "--mode", "full", "--jobs", "1"]
    done = subprocess.run(words, cwd=place, stdin=subprocess.DEVNULL, stdout=subprocess.PIPE, stderr=subprocess.DEVNULL, check=False, text=True, errors="replace")
    if done.returncode != 0:
        print(f"decopy: {os.path.basename(place)}: status {done.returncode}", flush=True)
    return done.stdout if done.returncode == 0 else ""


def write_lines(folder, out, draft):
    """A line for each file of each package of which a draft states a licence, and the seconds that the drafts took."""
    before = resource.getrusage(resource.RUSAGE_CHILDREN)
    with open(out, "w", encoding="utf-8") as file:
        for package in sorted(it for it in os.listdir(folder) if it[0] != "."):
            for place in sorted(it.name for it in os.scandir(os.path.join(folder, package)) if it.is_dir()):
                with tempfile.TemporaryDirectory() as at:
                    copy = os.path.join(at, place)
                    shutil.copytree(os.path.join(folder, package, place), copy, symlinks=True)
                    os.remove(os.path.join(copy, "debian", "copyright"))
                    stated = copyright_file.stated(draft(copy))
                    for name in names_below(copy):
                        licence = copyright_file.licence_of(stated, name)
                        if licence and licence != "FIXME":
                            file.write(f"{package}/{place}/{name}\t{licence}\n")
    after = resource.getrusage(resource.RUSAGE_CHILDREN)
    return after.ru_utime + after.ru_stime - before.ru_utime - before.ru_stime


def main():
    parser = argparse.ArgumentParser(description=__doc__, formatter_class=argparse.RawDescriptionHelpFormatter)
    parser.add_argument("folder")
    parser.add_argument("out")
    parser.add_argument("--licscan", metavar="PROGRAM")
    parser.add_argument("--decopy", action="store_true", help="decopy, which is on the path")
    parser.add_argument("--limit", type=int, metavar="N", default=3600)
    asked = parser.parse_args()
    os.makedirs(asked.out, exist_ok=True)
    program = os.path.abspath(asked.licscan) if asked.licscan else None
    drafts = {"licscan": lambda place: by_licscan(program, place)} if program else {}
    for name, draft in (drafts | ({"decopy": functools.partial(by_decopy, asked.limit)} if asked.decopy else {})).items():
        print(f"{name}: {write_lines(asked.folder, os.path.join(asked.out, name + '.txt'), draft):.1f} seconds of the processor")


if __name__ == "__main__":
    sys.exit(main())
