#!/usr/bin/env python3
"""Refuses each request for memory of each test of a built crate of tests in turn; each test must pass all the same.

The program is what `rt test` and `rt ci` build of crates/lic_memory_tests, whose tests make a call again where memory
ran out, and fail where a call says anything else, changes what it was lent, or answers otherwise the second time. Needs a C compiler.
Calls that take no memory are made between two signs (fail_nth.c), where each request is refused: one request there, forgotten or not, is
bad, but for the one test that makes one. There must be signs, and that one request, or nothing is shown.
Prints a line for each test, with the first requests after which it failed; the last line is 'N runs, M bad', and the status is 1 if M is not 0.
"""
import dataclasses, os, sys

import harness
from sweep import SECONDS, SOURCE

PROGRAM = os.path.join(harness.TOP, 'crates', 'lic_memory_tests', 'out', 'lic_memory_tests_tests')
# how many failures of a test are shown
SHOWN = 8


# the test that makes one request between signs, and how many tests give signs at the least
COUNTED, SIGNING = 'between::a_request_between_signs_is_counted', 4


@dataclasses.dataclass
class Ran:
    """Whether a test passed, how many requests it made (0 if it was stopped), how many of them between signs, and how many signs it gave."""
    passed: bool = False
    requests: int = 0
    between: int = 0
    signs: int = 0


def run(program, name, library, count, n):
    """Runs a test while its Nth request is refused."""
    open(count, 'w').close()
    ran = harness.run([program, name], env={**harness.ENVIRONMENT, 'LD_PRELOAD': library, 'FAIL_NTH': str(n), 'COUNT_IN': count}, seconds=SECONDS)
    with open(count) as it:
        requests, _, between, signs = [int(number) for number in it.read().split()] or [0] * 4
    return Ran(ran.status == 0 and (ran.out + ran.err).strip() == b'test result: ok', requests, between, signs)


def sweep(program, name, library, count):
    """Refuses the requests of a test one by one, until a run ends in which none was refused.

    Gives the run in which none is refused but between signs, how many were refused then, and the numbers of the runs that failed."""
    whole = run(program, name, library, count, 0)
    is_bad = not whole.passed or not whole.requests or whole.signs % 2 or whole.between != (name == COUNTED)
    failed, n, requests = [0] if is_bad else [], 0, whole.requests
    while n <= requests:
        n += 1
        ran = run(program, name, library, count, n)
        if ran.passed:
            requests = ran.requests
        else:
            failed.append(n)
    return whole, n - 1, failed


def main():
    program, tally = harness.arguments(__doc__, PROGRAM, 'rt test in its crate').parse_args().program, harness.Tally('runs')
    listed, signing = harness.run([program, '--list']).out.decode().splitlines(), 0
    with harness.folder_of({}) as folder:
        library, count = harness.preloaded(SOURCE, folder), os.path.join(folder, 'count')
        for name in (line.removesuffix(': test') for line in listed if line.endswith(': test')):
            whole, refused, failed = sweep(program, name, library, count)
            signing += whole.signs > 0
            between = [f'{whole.between} between {whole.signs} signs'] if whole.signs else []
            print(f'{name}: {refused} requests refused', *between, sep=', ')
            tally.add(name, [*(f'failed at {n}' for n in failed[:SHOWN]), *['..'] * (len(failed) > SHOWN)], refused + 2)
    if signing < SIGNING:
        tally.add('signs', [f'in {signing} tests, not in {SIGNING}'])
    return tally.end()


if __name__ == '__main__':
    sys.exit(main())
