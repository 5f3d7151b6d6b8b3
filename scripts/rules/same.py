#!/usr/bin/env python3
"""Looks whether the copies of the profile's line rules are the same: examples/rules/profile.rules, the proved example, by which its rules are those of
the profile, and the file that worked cases are run with."""
import json, os, re, sys

TOP = os.path.dirname(os.path.dirname(os.path.dirname(os.path.abspath(__file__))))
# switches that are on without a line
ON = ('items on', 'separators on')


def text_of(*path):
    return open(os.path.join(TOP, *path), encoding='utf-8').read()


def proved_example():
    """The file of the proved example, as it is read."""
    proof = text_of('crates', 'lic_kind', 'proofs', 'examples', 'RuleExamples.antt')
    lines = re.findall(r'codes "((?:[^"\\]|\\.)*)"', proof[proof.index('profile_file =\n'):proof.index('profile_as_file')])
    return ''.join(lines).replace('\\n', '\n').replace('\\"', '"').replace('\\\\', '\\')


def rules_in(text):
    """The lines of a file of rules that say something."""
    return [line for line in text.splitlines() if line and not line.startswith('#') and line not in ON]


def main():
    file = text_of('examples', 'rules', 'profile.rules')
    worked = json.loads(text_of('crates', 'lic_command_cases', 'data', 'cases.json'))['profile']
    bad = []
    if proved_example() != file:
        bad.append('profile.rules is not what the proved example has')
    if rules_in(worked) != rules_in(file):
        bad.append('profile.rules has other rules than "profile" in cases.json of lic_command_cases')
    print('\n'.join(bad) or 'the same')
    sys.exit(bool(bad))


main()
