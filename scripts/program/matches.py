"""Cases of what is written for matches."""
from harness import Case, templates

ALL = ['scan', '--all', '--templates', 'T']
ONE = templates(A=b'foo bar')
TWO = templates(A=b'foo bar', B=b'foo  BAR')
INPUT = b'Foo   bar foo bar'

SECOND = b'-\tB\t0\t1\t0\t9\n'
LATER = b'-\tA\t2\t3\t10\t17\n-\tB\t2\t3\t10\t17\n'
# a triple, a limit, the status, and the lines of what comes after the triple
AFTER = [
    ('0:1:A', '9', 0, SECOND + LATER),
    ('0:1:A', '1', 0, SECOND),
    ('0:3:A', '9', 0, LATER),
    ('0:1:B', '9', 0, LATER),
    ('9:0:A', '9', 1, b''),
]

FILES = {'T/A\\1.template.txt': b'foo bar', 'a\tb.txt': b'a foo bar', 'good.txt': b'foo bar', '-x': b'foo bar foo bar'}
AS_GIVEN = (b'good.txt\tA\\\\1\t0\t1\t0\t7\n'
            b'-\tA\\\\1\t0\t1\t0\t7\n'
            b'a\\tb.txt\tA\\\\1\t1\t2\t2\t9\n'
            b'-x\tA\\\\1\t0\t1\t0\t7\n')

CASES = [
    Case('an empty input has no line', ALL, ONE, status=1),
    Case('each match has a line', ALL, ONE, given=INPUT, out=b'-\tA\t0\t1\t0\t9\n-\tA\t2\t3\t10\t17\n'),
    Case('no more lines than the limit', [*ALL, '--limit', '1'], ONE, given=INPUT, out=b'-\tA\t0\t1\t0\t9\n'),
    *(Case(f'a scan is resumed after a triple: {after}, {limit}', [*ALL, '--after', after, '--limit', limit], TWO, given=INPUT, status=status, out=out)
      for after, limit, status, out in AFTER),
    Case('files are scanned as given', [*ALL, '--limit', '1', '--', 'good.txt', '-', 'a\tb.txt', '-', '-x'], FILES, given=b'foo bar', out=AS_GIVEN),
]
