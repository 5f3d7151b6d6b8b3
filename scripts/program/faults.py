"""Templates that are refused, by the fault that decides and its offset; and what is just taken."""
from short import of_fault, of_weight

MARKUP = [
    ('x <<beginOptional>> y', 'M3 at 2: optional not ended'),
    ('a<<endOptional>>', 'M2 at 1: end without begin'),
    ('a <<var;name="n";original="o">>', 'M4 at 2: field missing'),
    ('a <<var;name="n";name="m";original="o";match="b">>', 'M5 at 17: field twice'),
    ('a <<var;name="n";name="m"', 'M5 at 17: field twice'),
    ('a <<var;name="n";name"', 'M1 at 2: rule not closed'),
    ('x <<var;name>>', 'M6 at 8: field without ='),
    ('x <<var x>>', 'M1 at 2: rule not closed'),
    ('x <<var;name="n";original="o";match="[[:alpha:]]">>', 'M7 at 37: E5 at 1: bracket extension'),
    ('x <<var;name="n";original="o";match="a**">>', 'M7 at 37: E2 at 2: two repetition signs'),
    ('x <<var;name=n;original=o;match=a\\>>', 'M7 at 32: E9 at 1: ends in a backslash'),
    ('<<beginOptional>><<beginOptional>>x', 'M3 at 17: optional not ended'),
    ('<<beginOptional>> <<var;name>>', 'M6 at 24: field without ='),
    # the first rule at fault decides, and in it what is met first from left to right
    ('<<endOptional>> <<var;name>>', 'M2 at 0: end without begin'),
    ('<<endOptional;a>>', 'M6 at 14: field without ='),
    ('<<endOptional', 'M1 at 0: rule not closed'),
    ('x <<var;name;match=[>>', 'M6 at 8: field without ='),
    ('x <<var;name="n";match="[">>', 'M4 at 2: field missing'),
    ('x <<var;name="n";name>>', 'M6 at 17: field without ='),
    ('x <<var;name="x" ;original="o";match="b">>', 'M4 at 2: field missing'),
    # after the last rule: an open part, then no letter, then the weight
    ('<<beginOptional>> ', 'M3 at 0: optional not ended'),
    ('<<var;name=n;original=o;match=.{65535}>> <<var;name=n;original=o;match=.{65535}{2}>>', 'M7 at 71: E2 at 8: two repetition signs'),
    ('<<var;name=n;original=o;match=(.{65535}){3}>>', 'M10 at 0: no letter in it'),
    ('<<var;name="v";original="";match=".{65535}">>x<<var;name="v";original="";match=".{65535}">>yz', 'M9 at 0: weight over 131072'),
    ('x<<var;name=n;original=o;match=((a{65535}){65535}){65535}>>', 'M9 at 0: weight over 131072'),
    ('', 'M10 at 0: no letter in it'),
    (' <<beginOptional>> <<endOptional>>', 'M10 at 0: no letter in it'),
]

PATTERNS = [
    ('+a', 'E1 at 0: nothing to repeat'),
    ('a+?', 'E2 at 2: two repetition signs'),
    ('a{2,1}', 'E3 at 1: bad bound'),
    ('a{,3}', 'E3 at 1: bad bound'),
    ('[ab', 'E4 at 0: bracket not closed'),
    ('[z-a]', 'E6 at 1: range out of order'),
    ('(a', 'E7 at 0: group not closed'),
    ('\\d', 'E8 at 0: unknown escape'),
    ('(a\\', 'E9 at 2: ends in a backslash'),
    ('a^b', 'E10 at 1: anchor inside'),
    ('(?i)a', 'E1 at 1: nothing to repeat'),
    ('(a[b', 'E4 at 2: bracket not closed'),
    ('a{65536}', 'E3 at 1: bad bound'),
    ('[[:alpha:]]', 'E5 at 1: bracket extension'),
    ('[[=a=]]', 'E5 at 1: bracket extension'),
    ('[[.a.]]', 'E5 at 1: bracket extension'),
    ('[a[=b]', 'E5 at 2: bracket extension'),
    ('[a[.b]', 'E5 at 2: bracket extension'),
    ('[A-[=x]', 'E5 at 3: bracket extension'),
    ('[A-[.x]', 'E5 at 3: bracket extension'),
    ('a**', 'E2 at 2: two repetition signs'),
    ('($', 'E7 at 0: group not closed'),
    ('$a', 'E10 at 0: anchor inside'),
    ('^*', 'E1 at 1: nothing to repeat'),
    ('a|*', 'E1 at 2: nothing to repeat'),
    ('a*{x', 'E2 at 2: two repetition signs'),
    ('{x', 'E1 at 0: nothing to repeat'),
    ('a{99999999999999999999999}', 'E3 at 1: bad bound'),
    ('a{1', 'E3 at 1: bad bound'),
    ('[z-[:x]', 'E6 at 1: range out of order'),
    ('[a-[:x]', 'E6 at 1: range out of order'),
    ('[A-[:x]', 'E5 at 3: bracket extension'),
    ('\u65E5^', 'E10 at 3: anchor inside'),
    ('a{2,1}[', 'E3 at 1: bad bound'),
    ('(a[b\\', 'E4 at 2: bracket not closed'),
    # as long as a pattern may be
    ('a|[b-z]' * 149_000 + '(', 'E7 at 1043000: group not closed'),
    ('(' * 65 + 'a' + ')' * 65, 'E11 at 64: deeper than 64'),
]
BEFORE = 'x <<var;name="n";original="o";match="'

# a template whose beginnings are templates, but for those that end inside the rule; and what they weigh
WHOLE = 'name of <<var;name="n";original="x";match=".+">> nor'
WEIGHTS = [1, 2, 3, 4, 5, 6, 7, 8, 8, 9, 10, 11] + [None] * 35 + [9, 10, 11, 12, 13]

BEGIN, END = '<<beginOptional>>', '<<endOptional>>'


def of_beginnings():
    yield of_fault('the beginning of a template', '', 'M10 at 0: no letter in it')
    for end, weight in enumerate(WEIGHTS, 1):
        if weight is None:
            yield of_fault(f'a beginning of {end} bytes', WHOLE[:end], 'M1 at 8: rule not closed')
        else:
            yield of_weight(f'a beginning of {end} bytes', WHOLE[:end], weight)


CASES = [
    *(of_fault('markup', *row) for row in MARKUP),
    *(of_fault('a pattern', f'{BEFORE}{pattern}">>', f'M7 at 37: {fault}') for pattern, fault in PATTERNS),
    *of_beginnings(),
    of_weight('64 groups', f'{BEFORE}{"(" * 64}a{")" * 64}">>', 3, is_described=False),
    of_weight('64 optional parts', BEGIN * 64 + 'a' + END * 64, 1),
    of_fault('65 optional parts', BEGIN * 65 + 'a' + END * 65, 'M8 at 1088: deeper than 64'),
    of_fault('64 optional parts without an end', BEGIN * 64 + 'a', 'M3 at 1071: optional not ended'),
    of_fault('1,048,575 bytes of rules', '<<var' * 209_715, 'M1 at 0: rule not closed'),
    of_fault('1,048,577 bytes of rules', '<<var' * 209_715 + '<<', 'M11 at 0: more than 1048576 bytes'),
]
