"""Proves crates of this repository by the gate's command, `rt ci`, on copies of them without must-fail edits.

The longest chain of crates that depend on each other decides how long all take. So of the crates whose libraries are proved the one is begun next on
which the longest chain depends, and two to four are proved side by side: those with the longest chains by several jobs, the others by one each where
cores lack. That is for a kit whose `rt ci` keeps what it proved for each later run over the same files, so that it is proved once, whether by the
first command or by the gate. With another kit all crates are proved in one run."""
import os
import re
import resource
import shutil
import subprocess
import sys
import tempfile
import threading
import time

from listed import from_the_ground, read_crates

# what a proof reads of a crate, and what rt runs a program on
PARTS = ("src", "specs", "proofs", "stdin", "stdout", "args", "status", "data")
FUNCTIONS = re.compile(rb"logic=proved functions=(\d+)")
PROVED = re.compile(rb"rt: (\w+) (?:proved$|is kept: )")
# `rt ci` keeps what it proved if the same proof once more takes less than this part of its processor time: without that, proving apart is dear
KEPT = 0.5
# a crate that is proved in seconds
ONE = "//! One, at {}.\n#![tactic(auto)]\n\n/// One.\npub fn one() -> u8 {{\n    1\n}}\n"
# a run whose chain is shorter than the longest one by a quarter or more is so nice to it
NICEST = 10
# the proof of a crate takes up to this
MEMORY_OF_A_CRATE = 3_000_000_000


def say(text):
    print(f"licscan: {text}", file=sys.stderr, flush=True)


def minutes(start):
    return f"{(time.monotonic() - start) / 60:.0f} minutes"


def copy_crates(top, names, to):
    """Copies what is proved of these crates, as a repository of its own."""
    os.makedirs(f"{to}/.git")
    shutil.copyfile(f"{top}/HANDLES", f"{to}/HANDLES")
    with open(f"{top}/crates.txt", encoding="utf-8") as file, open(f"{to}/crates.txt", "w", encoding="utf-8") as chosen:
        chosen.writelines(line for line in file if re.split(r"[ :]", line)[0] in names)
    for name in names:
        for part in PARTS:
            path, copy = f"{top}/crates/{name}/{part}", f"{to}/crates/{name}/{part}"
            if os.path.isdir(path):
                shutil.copytree(path, copy)
            elif os.path.isfile(path):
                shutil.copyfile(path, copy)


def run_gate(folder, nice=0, jobs=0, hear=lambda line: None):
    """Runs the gate's command there, and returns its status and what it says. `hear` is called with each line of that. A proof has one job where
    `jobs` is 1, and else as many as rt gives it."""
    environment = {name: value for name, value in os.environ.items() if name != "RT_JOBS"} | ({"RT_JOBS": "1"} if jobs == 1 else {})
    command, said = ["nice", "-n", str(nice), "rt", "ci"], []
    with subprocess.Popen(command, cwd=folder, env=environment, stdin=subprocess.DEVNULL, stdout=subprocess.PIPE, stderr=subprocess.STDOUT) as gate:
        for line in gate.stdout:
            said.append(line)
            hear(line)
    return gate.returncode, b"".join(said)


def seconds_to_prove(source):
    """The processor seconds that the proof of a crate takes which has this source and no library."""
    with tempfile.TemporaryDirectory(prefix="licscan-proof-") as folder:
        os.makedirs(f"{folder}/.git")
        os.makedirs(f"{folder}/crates/one/src")
        for path, text in ("HANDLES", "Handles allowed: none.\n"), ("crates.txt", "one:\n"), ("crates/one/src/lib.rt", source):
            with open(f"{folder}/{path}", "w", encoding="utf-8") as file:
                file.write(text)
        before = resource.getrusage(resource.RUSAGE_CHILDREN)
        run_gate(folder)
        after = resource.getrusage(resource.RUSAGE_CHILDREN)
    return after.ru_utime + after.ru_stime - before.ru_utime - before.ru_stime


def keeps_proofs():
    """Whether `rt ci` keeps what it proved for its next run: a crate of one function, with a comment that no crate ever had, is proved twice, and
    the second time costs much less."""
    source = ONE.format(time.time_ns())
    first, second = [seconds_to_prove(source) for _ in range(2)]
    return second < KEPT * first


def lines_of(top, name):
    """How many lines are read to prove a crate."""
    count = 0
    for part in ("src", "specs", "proofs"):
        for at, _, files in os.walk(f"{top}/crates/{name}/{part}"):
            for file in files:
                with open(f"{at}/{file}", "rb") as it:
                    count += it.read().count(b"\n")
    return count


def chains_above(top, crates, names):
    """How many lines the longest chain has that begins with each of these crates and goes up from library to user."""
    lines = {}
    for name in reversed(from_the_ground(crates, names)):
        above = max((lines[it] for it in lines if name in crates[it]), default=0)
        lines[name] = above + lines_of(top, name)
    return lines


def jobs_of_a_proof():
    """How many jobs rt gives a proof that has the machine for itself."""
    return max(1, min(4, (os.cpu_count() or 1) // 2))


def workers():
    """How many crates are proved at a time."""
    memory = os.sysconf("SC_PAGE_SIZE") * os.sysconf("SC_PHYS_PAGES")
    return max(2, min(4, os.cpu_count() or 1, memory // MEMORY_OF_A_CRATE))


class Proving:
    """Proves the crates of these names and those below them. `when_run` is called with the folder of each run that passed. `failed` has the crates
    of each run that failed."""

    def __init__(self, top, names, log, when_run=lambda folder: None):
        self.top, self.log, self.when_run, self.start = top, log, when_run, time.monotonic()
        self.crates = read_crates(top)
        self.all = from_the_ground(self.crates, names)
        self.chains = chains_above(top, self.crates, names)
        self.left, self.begun, self.proved = set(self.all), set(), set()
        self.functions, self.jobs, self.failed, self.change = 0, 0, [], threading.Condition()

    def ready(self, names):
        """The crates that are not begun whose libraries are proved or have these names."""
        return [it for it in self.left.difference(names) if self.proved.union(names).issuperset(self.crates[it])]

    def one_after_another(self, name):
        """A crate, and above it those that only wait for the one before. A run reads all that is proved below, so one for all takes less time."""
        names = [name]
        while len(above := self.ready(names)) == 1:
            names += above
        return names

    def nice(self, name):
        """How nice a run is to the others: the shorter its chain is beside the longest one that is begun, the nicer."""
        longest = max(self.chains[it] for it in self.begun - self.proved)
        return min(NICEST, 4 * NICEST * (longest - self.chains[name]) // longest)

    def take(self):
        """The crates to prove in the next run, how nice it is to the others, and how many jobs it has, or None where none is left."""
        with self.change:
            while self.left and not self.failed:
                if ready := self.ready([]):
                    running = self.begun - self.proved
                    name = max(ready, key=self.chains.get)
                    names = [name] if running or len(ready) > 1 else self.one_after_another(name)
                    self.left -= set(names)
                    self.begun |= set(names)
                    nice = self.nice(name)
                    # two jobs take a third more processor time than one
                    jobs = jobs_of_a_proof() if nice < NICEST or self.jobs + jobs_of_a_proof() <= (os.cpu_count() or 1) else 1
                    self.jobs += jobs
                    return names, nice, jobs
                self.change.wait()
            return None

    def add(self, name, functions):
        """Says that a crate is proved, so that those begin that wait for it."""
        with self.change:
            if name in self.proved:
                return
            self.proved.add(name)
            self.functions += functions
            say(f"{len(self.proved)} of {len(self.all)} crates proved ({name}; {self.functions} functions so far; {minutes(self.start)})")
            self.change.notify_all()

    def prove_apart(self, names, nice, jobs):
        """Proves crates and those below them in a folder of their own, and returns the status and what is said."""
        functions = 0

        def hear(line):
            nonlocal functions
            if found := FUNCTIONS.search(line):
                functions = int(found[1])
            if found := PROVED.match(line):
                self.add(found[1].decode(), functions)
                functions = 0

        with tempfile.TemporaryDirectory(prefix="licscan-proof-") as folder:
            copy_crates(self.top, from_the_ground(self.crates, names), folder)
            status, said = run_gate(folder, nice, jobs, hear)
            if not status:
                self.when_run(folder)
            return status, said

    def prove(self, names, nice=0, jobs=0):
        status, said = self.prove_apart(names, nice, jobs)
        if status:
            # once more: the system may have killed it for memory, and the gate's own run judges what passes now
            status, said = self.prove_apart(names, nice, jobs)
        with self.change:
            with open(self.log, "ab") as file:
                file.write(said)
            self.jobs -= jobs
            if status:
                self.failed.append(" ".join(names))
                self.change.notify_all()
        # those that the run did not name
        for name in [] if status else names:
            self.add(name, 0)

    def work(self):
        while taken := self.take():
            self.prove(*taken)

    def run(self, is_apart=True):
        """Proves all, in runs of one crate or a few or in one run, and says whether all are proved."""
        open(self.log, "wb").close()
        if not is_apart:
            self.left.clear()
            self.prove(self.all)
        beside = [threading.Thread(target=self.work) for _ in range(workers() - 1)]
        for thread in beside:
            thread.start()
        self.work()
        for thread in beside:
            thread.join()
        return not self.failed
