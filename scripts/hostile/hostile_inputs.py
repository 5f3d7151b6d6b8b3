#!/usr/bin/env python3
"""Hostile cases on a built licscan, each under limits of address space and processor time.

Each case is laid out in a new folder and run there; its status, standard error and, where it matters, its output must be those that the case
names. No case may end by a signal, take more than its seconds or more than 2 GiB, or, in a series whose sizes double, more than 2.6 times the
seconds of half its size (4.6 times where the answer is a square). What goes wrong is printed; then comes a table of what was tried, how often, and
with what outcome; the last line is 'N runs, M bad', and the status is 1 if M is not 0. As root, the cases without rights are run as nobody. Some
cases need a C compiler.
"""
import collections, os, shutil, sys, tempfile

import changing, costly, files, growing, limits, streams
import harness
from running import faults, growth_faults, outcome, run

MODULES = (costly, growing, limits, files, streams, changing)


def all_cases(tools, heavy):
    """The cases, one after another, since all of them at once would be large."""
    for module in MODULES:
        yield from module.cases(tools, heavy)


def copy_of(program, folder):
    """A copy of the program that nobody may run too."""
    os.chmod(folder, 0o755)
    copy = os.path.join(folder, 'licscan')
    shutil.copyfile(program, copy)
    os.chmod(copy, 0o755)
    return copy


class Table:
    """How many runs of each group there were, how they ended, and what the costliest took."""

    def __init__(self):
        self.rows = collections.defaultdict(collections.Counter)

    def add(self, case, ran, ended):
        row = self.rows[case.group]
        row['runs'] += 1
        row[ended] += 1
        row['seconds'] = max(row['seconds'], ran.seconds)
        row['memory'] = max(row['memory'], ran.memory)

    def lines(self):
        yield f'{"tried":44} {"runs":>5} {"answered":>9} {"refused":>8} {"memory":>7} {"bad":>4} {"seconds":>8} {"MiB":>6}'
        for group, counts in self.rows.items():
            yield (f'{group:44} {counts["runs"]:5} {counts["answered"]:9} {counts["refused by name"]:8} {counts["out of memory"]:7} '
                   f'{counts["bad"]:4} {counts["seconds"]:8.1f} {counts["memory"] >> 20:6}')


def tried(program, cases):
    """Each case, what came of its run, and what is wrong with it."""
    halves = {}
    for case in cases:
        ran = run(program, case)
        wrong = faults(case, ran)
        if case.series:
            if not wrong and case.series in halves:
                wrong = growth_faults(program, *halves[case.series], case, ran)
            halves[case.series] = case, ran
        yield case, ran, wrong


def main():
    reader = harness.arguments(__doc__)
    reader.add_argument('--heavy', action='store_true', help='the cases with inputs of 64 MiB, too')
    reader.add_argument('--only', metavar='WORD', type=str.lower, default='', help='the cases whose group or name has this word')
    reader.add_argument('--show', action='store_true', help='a line for each case')
    asked = reader.parse_args()
    table, tally = Table(), harness.Tally('runs')
    with tempfile.TemporaryDirectory(prefix='licscan-hostile-') as tools:
        cases = (it for it in all_cases(tools, asked.heavy) if asked.only in f'{it.group} {it.name}'.lower())
        for case, ran, wrong in tried(copy_of(asked.program, tools), cases):
            ended, took = outcome(case, ran), f'{ran.seconds:.2f} s, {ran.memory >> 20} MiB'
            table.add(case, ran, 'bad' if wrong else ended)
            tally.add(f'{case.group}: {case.name} ({took})', wrong)
            if asked.show and not wrong:
                print(f'{case.group}: {case.name}: {ended} ({took})', flush=True)
    print(*table.lines(), sep='\n')
    return tally.end()


if __name__ == '__main__':
    sys.exit(main())
