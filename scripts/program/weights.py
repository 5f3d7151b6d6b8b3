"""What templates weigh, and whether they describe their original texts, with all optional parts and each variable's original in them."""
from short import of_weight

HEAVY = '<<var;name="v";original="";match=".{65535}">>'

# a template, its weight, and whether it describes its original text
ROWS = [
    ('x <<var;name=organizationClause3;original=the copyright holder;match=.+>>', 3, True),
    ('x <<var;name=n;original=the copyright holder;match=the copyright holder>>', 22, True),
    ('x <<var;name=n;original=the copyright holder;match=the copyright>>', 15, False),
    ('x <<var;name="n";original="o";match=a\\;b>>', 5, False),
    ('x <<var;name="n";original="o";match=o>>', 3, True),
    ('x <<var;original="a\\;b" ; c";match="a{2,3}";;name= "n";>>', 5, False),
    ('x <<var;original="a\\;b" ; c";match="a;b\';c";;name= "n";>>', 8, True),
    ('x<<BeginOptional>>', 18, True),
    ('x<<variable>>', 13, True),
    ('a<<beginOptional>> b<<beginOptional;c=d>> c<<endOptional>><<endOptional >> d', 7, True),
    (f'{HEAVY}x{HEAVY}y', 131_072, False),
    ('a << b', 4, True),
    ('<<beginOptional>>1. <<endOptional>>foo', 4, True),
    ('<<var;name="bullet";original="1.";match=".{0,20}">> foo bar', 28, True),
    # what is repeated is weighed at once
    ('x<<var;name=n;original=o;match=(((){65535}){65535}){65535}>>', 1, False),
    ('x<<var;name=n;original=o;match=((a{65535}){65535}){0}>>', 1, False),
]

CASES = [of_weight('a template', *row) for row in ROWS]
