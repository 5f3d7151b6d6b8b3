"""Cases of outer matches and their variables."""
from harness import Case, templates

SCAN = ['scan', '--templates', 'T']
ALL = ['scan', '--all', '--templates', 'T']
NAME_OF = templates(N=b'name of <<var;name="n";original="x";match=".+">> nor')

# templates, an input, and the lines of its outer matches
OUTER = [
    (NAME_OF, b'name of ACME nor', b'-\tN\t0\t3\t0\t16\n\tn\t8\t12\tACME\n'),
    (templates(A=b'foo bar', B=b'foo <<var;name="w";original="bar";match="[a-z]+">>'), b'foo bar',
     b'-\tA\t0\t1\t0\t7\n-\tB\t0\t1\t0\t7\n\tw\t4\t7\tbar\n'),
    (templates(L=b'<<var;name="c";original="";match=".{0,5000}">> foo bar'), b'x y foo bar', b'-\tL\t2\t3\t4\t11\n\tc\t-\n'),
    (templates(V=b'<<var;name="a";original="p";match=".+">> of <<var;name="b";original="q";match=".+">>'), b'x of y of z',
     b'-\tV\t0\t2\t0\t6\n\ta\t0\t1\tx\n\tb\t5\t6\ty\n-\tV\t2\t4\t5\t11\n\ta\t5\t6\ty\n\tb\t10\t11\tz\n'),
    # the bytes of the source, and not the text of the tokens; names and values are escaped
    (templates(E=b'by <<var;name="t\\w";original="x";match=".+">> end'), b'by Foo\tBAR\n/ End',
     b'-\tE\t0\t4\t0\t16\n\tt\\\\w\t3\t12\tFoo\\tBAR\\n/\n'),
]

NESTED = templates(A=b'foo bar', B=b'x foo bar')

# an input, and the lines of all its matches
EVERY = [
    (b'abcde end', b'-\tC\t0\t1\t0\t9\n-\tC\t1\t1\t6\t9\n'),
    (b'abcdef end', b'-\tC\t1\t1\t7\t10\n'),
    (b'ab cd end', b'-\tC\t0\t2\t0\t9\n-\tC\t1\t2\t3\t9\n-\tC\t2\t2\t6\t9\n'),
]

CASES = [
    *(Case(f'each outer match is reported with its variables: {given}', SCAN, files, given=given, out=out) for files, given, out in OUTER),
    Case('a value has its bytes unchanged', SCAN, NAME_OF, given=b'name of X\xFF nor', out=b'-\tN\t0\t3\t0\t14\n\tn\t8\t10\tX\xFF\n'),
    Case('a match of another template may hold one', SCAN, NESTED, given=b'x foo bar foo bar', out=b'-\tB\t0\t2\t0\t9\n-\tA\t3\t4\t10\t17\n'),
    Case('with --all both are reported', ALL, NESTED, given=b'x foo bar foo bar',
         out=b'-\tB\t0\t2\t0\t9\n-\tA\t1\t2\t2\t9\n-\tA\t3\t4\t10\t17\n'),
    Case('no outer match gives no line', SCAN, NESTED, given=b'foo', status=1),
    *(Case(f'all matches have no variables: {given}', ALL, templates(C=b'<<var;name="v";original="";match=".{0,5}">> end'), given=given, out=out)
      for given, out in EVERY),
]
