"""Cases of what is written for tokens."""
from harness import Case

# an input, and its tokens
LINES = [
    (b'(c) 2012 X\n(c) the licensee\n', b'-\t0\t3\tcopyright\n-\t4\t8\t2012\n-\t9\t10\tx\n-\t15\t18\tthe\n-\t19\t27\tlicensee\n'),
    ('\uFB01le STRASSE stra\u00DFe'.encode(), b'-\t0\t5\tfile\n-\t6\t13\tstrasse\n-\t14\t21\tstrasse\n'),
    ('so\u00ADft'.encode(), b'-\t0\t6\tsoft\n'),
    ('\u201CA\u201D\u2014b'.encode(), b"-\t0\t3\t'\n-\t3\t4\ta\n-\t4\t7\t'\n-\t7\t10\t-\n-\t10\t11\tb\n"),
    ('Copyright (C) \u00A9 2001'.encode(), b'-\t0\t16\tcopyright\n-\t17\t21\t2001\n'),
    (b'HTTPS://x.org', b'-\t0\t5\thttp\n-\t5\t6\t:\n-\t6\t7\t/\n-\t7\t8\t/\n-\t8\t9\tx\n-\t9\t10\t.\n-\t10\t13\torg\n'),
    (b'| foo bar |\n', b'-\t2\t5\tfoo\n-\t6\t9\tbar\n'),
    (b'| foo bar |\r\n', b'-\t2\t5\tfoo\n-\t6\t9\tbar\n'),
    (b"``AS IS''", b"-\t0\t2\t'\n-\t2\t4\tas\n-\t5\t7\tis\n-\t7\t9\t'\n"),
    (b'a\\b', b'-\t0\t1\ta\n-\t1\t2\t\\\\\n-\t2\t3\tb\n'),
]
NO_LINES = [b'', b' \n', '\u00AD'.encode()]

AS_GIVEN = ('a\\tb\t0\t3\tfoo\n'
            'bytes\t0\t3\tfoo\nbytes\t4\t6\t\uFFFD\uFFFD\n'
            '-\t0\t1\tx\n'
            'good\t0\t3\tbar\n').encode()

CASES = [
    *(Case(f'each token has a line: {given}', ['tokens'], given=given, out=out) for given, out in LINES),
    *(Case(f'no token gives no line: {given}', ['tokens', '-'], given=given, status=1) for given in NO_LINES),
    Case('files are read as given', ['tokens', 'a\tb', 'bytes', 'none', '-', 'folder', 'good'],
         {'a\tb': b'Foo', 'bytes': b'foo \xFF\xE2', 'good': b'bar', 'folder': None}, given=b'x', status=2, out=AS_GIVEN,
         err=b'licscan: none: cannot be read\nlicscan: folder: cannot be read\n'),
]
