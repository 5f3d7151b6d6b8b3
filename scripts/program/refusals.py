"""Cases of what is refused, and of what cannot be read or written."""
from harness import Case, templates

SCAN = ['scan', '--templates', 'T']
ALL = ['scan', '--all', '--templates', 'T']
UNLISTED = b'licscan: templates: cannot be listed\n'

LEFT_OUT = {**templates(A=b'foo bar', E=b' ', L=b'\xFF' * 1_048_577, U=b'foo \xFF'),
            'T/.template.txt': b' ', 'T/notes.txt': b' ', 'T/D\n.template.txt': None}
REPORTED = (b'licscan: template D\\n: cannot be read\n'
            b'licscan: template E: M10 at 0: no letter in it\n'
            b'licscan: template L: M11 at 0: more than 1048576 bytes\n'
            b'licscan: template U: not UTF-8 at byte 4\n')

INPUTS = {**templates(A=b'foo bar'), 'bytes.txt': b'foo bar \xFF', 'good.txt': b'foo bar'}

MARKUP = templates(A=b'foo bar', P1=b'x <<beginOptional>> y', P2=b'x <<var;name="n";original="o";match="[[:alpha:]]">>',
                   P3=b'x <<var;name="n";original="o";match="a**">>', P4=b'x <<var;name>>')
FAULTS = (b'licscan: template P1: M3 at 2: optional not ended\n'
          b'licscan: template P2: M7 at 37: E5 at 1: bracket extension\n'
          b'licscan: template P3: M7 at 37: E2 at 2: two repetition signs\n'
          b'licscan: template P4: M6 at 8: field without =\n')

CASES = [
    Case('a refused template is reported and left out', ALL, LEFT_OUT, given=b'foo bar', status=2, out=b'-\tA\t0\t1\t0\t7\n', err=REPORTED),
    Case('a folder may be empty', ALL, {'T': None}, given=b'foo bar', status=1),
    Case('a missing folder is reported', ALL, given=b'foo bar', status=2, err=UNLISTED),
    Case('a file that cannot be read is reported and the rest go on', [*ALL, 'bytes.txt', 'none\t.txt', 'T', 'good.txt'], INPUTS, status=2,
         out=b'bytes.txt\tA\t0\t1\t0\t7\ngood.txt\tA\t0\t1\t0\t7\n',
         err=b'licscan: none\\t.txt: cannot be read\nlicscan: T: cannot be read\n'),
    Case('more templates than a set may have end the run', ALL, templates(**{f'{k}': b'foo' for k in range(4_097)}), given=b'foo', status=2,
         err=b'licscan: templates: B2: more than 4096 templates\n'),
    Case('a fault of markup is reported with its offset', SCAN, MARKUP, given=b'foo bar', status=2, out=b'-\tA\t0\t1\t0\t7\n', err=FAULTS),
    Case('a failed read is reported', SCAN, templates(A=b'foo'), stdin='/', status=2, err=b'licscan: -: cannot be read\n'),
    Case('a failed write is reported', SCAN, templates(A=b'foo'), given=b'foo', stdout='/dev/full', status=2,
         err=b'licscan: standard output: cannot be written\n'),
]
