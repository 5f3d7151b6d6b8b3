#!/usr/bin/env python3
"""Cases of the whole program, on a built licscan: what it writes for arguments, files and an input, and its status.

The cases are lists in the modules beside this one. Each is laid out in a new folder and run there; its status, standard output and standard
error must be those that the case names, byte for byte. `--only` takes the cases whose module or name has the word. A case that goes wrong is
printed, with what differs; the last line is 'N cases, M bad', and the status is 1 if M is not 0.
"""
import sys

import arguments, checks, help, line_rules, markup, matches, progress, refusals, tokens, variables, word_lists
import faults, letters, lines, lists, patterns, pieces, rewriting, rule_files, searches, values, weights, worked
import harness

MODULES = (arguments, help, tokens, matches, markup, variables, checks, line_rules, word_lists, refusals, progress,
           letters, lines, rewriting, rule_files, lists, weights, pieces, patterns, faults, searches, values, worked)


def main():
    reader = harness.arguments(__doc__)
    reader.add_argument('--only', metavar='WORD', type=str.lower, default='')
    asked, tally = reader.parse_args(), harness.Tally('cases')
    for name, case in ((f'{module.__name__}: {case.name}', case) for module in MODULES for case in module.CASES):
        if asked.only not in name.lower():
            continue
        tally.add(name, harness.faults_of(case, harness.run_case(asked.program, case)))
    return tally.end()


if __name__ == '__main__':
    sys.exit(main())
