"""Cases of what is written for templates."""
from harness import Case, templates

CHECK = ['check', '--templates', 'T']

A_AND_C = templates(A=b'foo bar', C=b'<<var;name="v";original="";match=".{0,5}">> end')
WITH_U = {**A_AND_C, 'T/U\\.template.txt': b'<<var;name="bullet";original="1.";match=".{0,20}">> foo bar'}
WITH_Z = {**WITH_U, **templates(Z=b'<<var;name="z";original="12";match="[a-z]+">> end')}
WITH_P1 = {**WITH_Z, **templates(P1=b' ')}
YES = b'A\t7\tyes\nC\t9\tyes\nU\\\\\t28\tyes\n'
NO = YES + b'Z\t5\tno\n'

LISTED = {**templates(K=b'the <<var;name="c";original="colour";match="color">>'), 'list': b'color,colour'}

CASES = [
    Case('each template has a line: all are described', CHECK, WITH_U, out=YES),
    Case('each template has a line: one is not described', CHECK, WITH_Z, status=1, out=NO),
    Case('each template has a line: one is refused', CHECK, WITH_P1, status=2, out=NO, err=b'licscan: template P1: M10 at 0: no letter in it\n'),
    Case('an empty folder has no line', CHECK, {'T': None}),
    Case('the word list serves templates and their original texts', [*CHECK, '--words', 'list'], LISTED, out=b'K\t9\tyes\n'),
    Case('without the word list', CHECK, LISTED, status=1, out=b'K\t9\tno\n'),
    Case('a missing folder is reported', CHECK, status=2, err=b'licscan: templates: cannot be listed\n'),
]
