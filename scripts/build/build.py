#!/usr/bin/env python3
"""Proves and builds the program crates/licscan, with each crate that it depends on. Says on standard error how far it is.
Usage: build.py TOP, where TOP is the repository's top."""
import fcntl
import os
import shutil
import sys

from proving import Proving, keeps_proofs, minutes, say

PROGRAM = "licscan"


def newest_source(crates):
    """When a source of a crate was last changed, added or removed."""
    newest = 0
    for name in os.listdir(crates):
        for part in "src", "specs", "proofs":
            for at, _, files in os.walk(f"{crates}/{name}/{part}"):
                paths = [at, *(f"{at}/{it}" for it in files if it.endswith((".rt", ".antt")))]
                newest = max(newest, *map(os.path.getmtime, paths))
    return newest


def is_current(top):
    """Whether the program is there, and no source of a crate is newer, or gone since."""
    program = f"{top}/crates/{PROGRAM}/out/{PROGRAM}"
    return os.access(program, os.X_OK) and os.path.getmtime(program) >= newest_source(f"{top}/crates")


def take_program(folder, to):
    """Takes the program over from the folder of a run that built it. It is renamed at the end, so that no other run meets half of it."""
    program = f"{folder}/crates/{PROGRAM}/out/{PROGRAM}"
    if os.access(program, os.X_OK):
        shutil.copyfile(program, f"{to}/{PROGRAM}.new")
        os.chmod(f"{to}/{PROGRAM}.new", 0o755)
        os.replace(f"{to}/{PROGRAM}.new", f"{to}/{PROGRAM}")


def build(top):
    """Proves all, builds the program, and returns the exit status."""
    to = f"{top}/crates/{PROGRAM}/out"
    proving = Proving(top, [PROGRAM], f"{to}/build.log", when_run=lambda folder: take_program(folder, to))
    say(f"proving {len(proving.all)} crates and building the program: half an hour on four slow cores, less on quick ones")
    say("README.md says how to have an unproved answer in two minutes")
    is_apart = keeps_proofs()
    if not is_apart:
        say("this kit keeps no proofs: if it is stopped, it begins anew")
    if not proving.run(is_apart) or not is_current(top):
        for names in proving.failed:
            say(f"not proved: {names}")
        say(f"the program could not be proved and built: what rt said is in crates/{PROGRAM}/out/build.log")
        return 2
    say(f"proved and built in {minutes(proving.start)}")
    return 0


def main(top):
    if not shutil.which("rt"):
        say("rt is not on the path: the program is proved and built by the Rattle toolchain (see README.md)")
        return 2
    os.makedirs(f"{top}/crates/{PROGRAM}/out", exist_ok=True)
    with open(f"{top}/crates/{PROGRAM}/out/build.lock", "w", encoding="utf-8") as lock:
        fcntl.flock(lock, fcntl.LOCK_EX)
        # another build may have ended meanwhile
        return 0 if is_current(top) else build(top)


if __name__ == "__main__":
    sys.exit(main(os.path.realpath(sys.argv[1])))
