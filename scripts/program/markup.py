"""Cases of the ranges that templates in markup describe."""
from harness import Case, templates


# templates, and inputs with the lines of all their matches
ROWS = [
    (templates(N=b'name of <<var;name="n";original="x";match=".+">> nor'), [
        (b'name of nor', b''),
        (b'name of ACME nor', b'-\tN\t0\t3\t0\t16\n'),
    ]),
    (templates(O=b'a<<beginOptional>> b<<beginOptional>> c<<endOptional>><<endOptional>> d'), [
        (b'a d', b'-\tO\t0\t1\t0\t3\n'),
        (b'a b d', b'-\tO\t0\t2\t0\t5\n'),
        (b'a b c d', b'-\tO\t0\t3\t0\t7\n'),
        (b'a c d', b''),
    ]),
    (templates(H=b'holder<<beginOptional>>s<<endOptional>>'), [
        (b'holder', b'-\tH\t0\t0\t0\t6\n'),
        (b'holders', b'-\tH\t0\t0\t0\t7\n'),
        (b'holder s', b'-\tH\t0\t0\t0\t6\n'),
    ]),
    (templates(A=b'foo bar'), [(b'/* Foo\n * bar\n */\n', b'-\tA\t0\t1\t3\t13\n')]),
    (templates(Q=b'"AS IS"'), [(b"``AS IS''", b'-\tQ\t0\t3\t0\t9\n')]),
    (templates(A=b'foo bar', B=b'foo <<var;name="w";original="bar";match="[a-z]+">>'), [
        (b'foo bar', b'-\tA\t0\t1\t0\t7\n-\tB\t0\t1\t0\t7\n'),
    ]),
    (templates(L=b'<<var;name="c";original="";match=".{0,5000}">> foo bar'), [
        (b'x y foo bar', b'-\tL\t0\t3\t0\t11\n-\tL\t1\t3\t2\t11\n-\tL\t2\t3\t4\t11\n'),
    ]),
    # a semicolon in a value without quotes
    (templates(S=b'x <<var;name="n";original="o";match=a\\;b>>'), [(b'x a;b', b'-\tS\t0\t3\t0\t5\n')]),
    # a list item of a template is left out as one of a text is; a variable may match one
    (templates(T=b'<<beginOptional>>1. <<endOptional>>foo'), [
        (b'1. foo\n', b'-\tT\t0\t0\t3\t6\n'),
        (b'foo', b'-\tT\t0\t0\t0\t3\n'),
    ]),
    (templates(U=b'<<var;name="bullet";original="1.";match=".{0,20}">> foo bar'), [(b'1. foo bar', b'-\tU\t0\t1\t3\t10\n')]),
    # a gap beside a mark may be written with a blank or without
    (templates(**{f'G{k}': b'x <<var;name="v";original="a-b";match=".{%d}">> y' % k for k in (2, 3, 5, 6)}), [
        (b'x a-b y', b'-\tG3\t0\t4\t0\t7\n-\tG5\t0\t4\t0\t7\n'),
        (b'x a - b y', b'-\tG3\t0\t4\t0\t9\n-\tG5\t0\t4\t0\t9\n'),
    ]),
]

CASES = [
    Case(f'each described range has a line: {given}', ['scan', '--all', '--templates', 'T'], files, given=given, status=0 if out else 1, out=out)
    for files, inputs in ROWS for given, out in inputs
]
