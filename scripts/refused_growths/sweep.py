#!/usr/bin/env python3
"""Refuses each request for memory of a built licscan in turn, and reads what it says.

A run in which a request was refused must either say and write what the whole run does, or end with status 2, report that memory ran out by a
text of the manual, and write and report nothing else that the whole run does not; each text with a code must come. And two thousand matches must
take no more requests than one match, but for the growth of the report: giving a match takes no memory. And a text that is a thousand times as
long must hold hardly more blocks at once: what a template takes is given back when it is done. Needs a C compiler. Prints each run that breaks
this; the last line is 'N runs, M bad', and the status is 1 if M is not 0.
"""
import os, re, sys

import harness

SOURCE = os.path.join(os.path.dirname(os.path.abspath(__file__)), 'fail_nth.c')
SCAN = ['scan', '--all', '--templates', 'T']
FOUND = b'Foo   bar foo bar'
CASES = [
    (SCAN, FOUND),
    (SCAN + ['--after', '0:1:A', '--limit', '1', '-'], FOUND),
    (SCAN + ['good.txt', 'bad.txt', 'none', '-'], FOUND),
    (SCAN + ['--after', '0:1:Z'], FOUND),
    (SCAN + ['--after', '0-1:A'], FOUND),
    (SCAN + ['--after', '0:1:A', 'good.txt', '-'], FOUND),
    (SCAN + ['--limit', '0'], FOUND),
    (['scan', '--templates', 'T'], FOUND),
    (['scan', '--templates', 'V', '--words', 'list'], b'x of colour of z; q'),
    (['scan', '--templates', 'T', '--limit', '1'], FOUND),
    (['check', '--templates', 'V', '--words', 'list', '--rules', 'rules'], b''),
    (['check', '--templates', 'T'], b''),
    (['check', '--templates', 'none'], b''),
    (['tokens', '--words', 'list', '--rules', 'rules', 'good.txt', '-'], b'The Colour'),
    (['scan', '--all', '--templates', 'N'], b'a b c d'),
    (['scan', '--templates', 'W'], b'foo bar'),
    (['scan', '--all', '--templates', 'W', '--after', '0:1:A'], b'foo bar'),
    (['scan', '--templates', 'V'], b'x of y of z'),
    (['tokens', '--words', 'spellings'], b'sub-license sublicense Sub License'),
    (['check', '--templates', 'C'], b''),
    (['scan', '--all', '--templates', 'none'], FOUND),
    (['scan', '--all'], b''),
    (['scan', '--help'], b''),
    (['scan', '--unknown'], b''),
    (['--help'], b''),
    ([], b''),
]
FILES = {
    'T/D.template.txt': None,
    b'T/\xff.template.txt': b'',
    'T/A.template.txt': b'foo bar',
    'T/E.template.txt': b' ',
    'T/U.template.txt': b'\xff',
    'V/V.template.txt': b'<<var;name="a";original="p";match=".+">> of <<var;name="b";original="q";match=".+">>',
    'V/O.template.txt': b'q<<beginOptional>> <<var;name="o";original="p";match="[a-z]{2}">><<endOptional>>',
    'N/N.template.txt': b'a<<beginOptional>> b<<beginOptional>> c<<endOptional>><<endOptional>> d',
    'W/A.template.txt': b'foo bar',
    'W/B.template.txt': b'foo <<var;name="w";original="bar";match="[a-z]+">>',
    'C/A.template.txt': b'foo bar',
    'C/C.template.txt': b'<<var;name="v";original="";match=".{0,5}">> end',
    'C/Z.template.txt': b'<<var;name="z";original="12";match="[a-z]+">> end',
    'list': b'color, colour\n',
    'spellings': b'sub-license,sublicense\nsub license,sublicense\n',
    'rules': b'lead //\ntail-repeat */\nitems off\n',
    'good.txt': b'foo bar',
    'bad.txt': b'foo bar \xff',
}
# a text with more than two thousand matches, and the most requests by which the report of them all grows
MANY = b'x of y of z ' * 60
GROWTH = 20
# a text without a match, at each token of which one might end; and the most blocks more that a text a thousand times as long holds at once
NONE = b'z ' * 50
LONGER = 60
# how long a run may take
SECONDS = 20
# what follows from a template for which memory runs out
FOLLOWS = b'licscan: --after: no template A'
# how lack of memory is reported, and the codes of these texts
TEXT = re.compile(rb'licscan: (rules: L4: |words: Q4: |templates: B3: |template [^ ]+: (M12 at 0: )?|[^ ]+: (X3: )?)?out of memory')
CODES = {b'L4', b'Q4', b'B3', b'M12 at 0', b'X3'}


def run(program, folder, library, words, given, n):
    """A run whose Nth request is refused."""
    return harness.run([program, *words], folder, given, {**harness.ENVIRONMENT, 'LD_PRELOAD': library, 'FAIL_NTH': str(n)}, SECONDS)


def requests(program, folder, library, limit, text):
    """How many matches of a text a run with this limit writes, how many requests for memory it makes, and how many blocks it holds at once."""
    count = os.path.join(folder, 'count')
    words = ['scan', '--all', '--templates', 'V', '--limit', str(limit)]
    ran = harness.run([program, *words], folder, text, {**harness.ENVIRONMENT, 'LD_PRELOAD': library, 'COUNT_IN': count})
    with open(count) as it:
        return len(ran.out.splitlines()), *map(int, it.read().split()[:2])


def is_same(ran, whole):
    return (ran.status, ran.out, ran.err) == (whole.status, whole.out, whole.err)


def is_right(ran, whole):
    if is_same(ran, whole):
        return whole.status >= 0
    shown, known = ran.err.splitlines(), whole.err.splitlines()
    others = [it for it in shown if not TEXT.fullmatch(it)]
    lines = set(whole.out.splitlines())
    return (ran.status == 2 and len(others) < len(shown)
            and all(it in known or it == FOLLOWS for it in others)
            and all(it in lines for it in ran.out.splitlines()))


def refuse_each(program, folder, library, words, given, tally):
    """Refuses the requests of a run one by one, until none changes anything. Gives the codes of the texts that were reported."""
    whole, codes = run(program, folder, library, words, given, 0), set()
    n, same = 0, 0
    # (a refused request that a library can do without changes nothing: 40 such in a row are the end)
    while same < 40:
        n += 1
        ran = run(program, folder, library, words, given, n)
        same = same + 1 if is_same(ran, whole) else 0
        codes.update(re.findall(rb'(\w+(?: at \d+)?): out of memory\n', ran.err))
        tally.add(f'{words}, request {n}', [] if is_right(ran, whole) else [str(ran)])
    return codes


def count_requests(program, folder, library, tally):
    """Counts the requests for one match and for two thousand, and the blocks that a short text and a long one hold at once."""
    (one, few, _), (all_of_them, many, _) = [requests(program, folder, library, limit, MANY) for limit in (1, 2000)]
    is_bad = (one, all_of_them) != (1, 2000) or many - few > GROWTH
    tally.add('requests', [f'{few} for {one} match, {many} for {all_of_them}'] * is_bad, 2)
    (none, _, short), (still_none, _, long) = [requests(program, folder, library, 1, text) for text in (NONE, NONE * 1000)]
    is_bad = (none, still_none) != (0, 0) or long - short > LONGER
    tally.add('blocks at once', [f'{short} for a text without a match, {long} for a long one'] * is_bad, 2)


def main():
    program, tally = harness.arguments(__doc__).parse_args().program, harness.Tally('runs')
    with harness.folder_of(FILES) as folder:
        library = harness.preloaded(SOURCE, folder)
        codes = set().union(*(refuse_each(program, folder, library, words, given, tally) for words, given in CASES))
        count_requests(program, folder, library, tally)
    tally.add('codes', [] if codes >= CODES else [f'no run reported {CODES - codes}'], 0)
    return tally.end()


if __name__ == '__main__':
    sys.exit(main())
