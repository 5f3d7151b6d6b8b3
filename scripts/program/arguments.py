"""Cases of arguments that are refused."""
from harness import Case, templates

SCAN = ['scan', '--templates', 'T']
E_REFUSED = b'licscan: template E: M10 at 0: no letter in it\n'

# the arguments after the folder of the templates, and the first fault
FAULTS = [
    (['--limit=1', '--after=x', 'a', 'b'], b'licscan: --after needs --all\n'),
    (['--limit', '1', 'a', 'b'], b'licscan: --limit needs --all\n'),
    (['--all', '--after=x', 'a', 'b'], b'licscan: --after takes one file\n'),
    (['--all', '--after', '0-1:A', 'a'], b'licscan: --after: bad triple\n'),
    (['--all', '--after', '+0:1:A', 'a'], b'licscan: --after: bad triple\n'),
    (['--all', '--after', ':1:A', 'a'], b'licscan: --after: bad triple\n'),
    (['--all', '--after', '0:18446744073709551616:A', 'a'], b'licscan: --after: bad triple\n'),
    (['--all', '--after', '0:1:Z\n', 'a'], E_REFUSED + b'licscan: --after: no template Z\\n\n'),
    (['--all', '--after', '0:1:E', 'a'], E_REFUSED + b'licscan: --after: no template E\n'),
    (['--all', '--after', '0:1:', 'a'], E_REFUSED + b'licscan: --after: no template \n'),
]

CASES = [Case(f'the first fault is reported: {args}', SCAN + args, templates(A=b'foo bar', E=b' '), given=b'foo bar', status=2, err=err)
         for args, err in FAULTS]
CASES += [Case('the first argument that is not UTF-8 is named by its number', SCAN + ['a' * 5000, b'\xff', b'\xc3'], status=2,
               err=b'licscan: argument 5 is not UTF-8\n')]
