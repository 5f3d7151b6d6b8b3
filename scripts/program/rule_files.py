"""Files of line rules that are read: those that are shipped, sign by sign, and small ones."""
import os

from short import joined, of_tokens

RULES = os.path.join(os.path.dirname(os.path.abspath(__file__)), '..', '..', 'examples', 'rules')

LEADS = ['//', '///', '/*', '*/', '*', '#', '%', ';', '!', '|', '>', '--', '::', '<!--', '{-', '-}', '(*', '*)', '.\\"', '\'\\"']
WORDS = ['dnl', 'REM']
TAILS = ['*/', '**/', '-->', '*)', '-}', ' *', ' #', ' |']

# more comment signs, and words that begin a comment
MORE_LEADS = ['C*', 'c*']
MORE_WORDS = ['rem', 'Rem', '@REM', '@rem', '@c', '@comment']
MORE_TAILS = [' --']

# a sign needs no white space after it; and what is none of the profile
BESIDE = [
    ('//foo', 'foo 2-5, '),
    ('rem x', 'rem 0-3, x 4-5, '),
    ('@c x', '@ 0-1, c 1-2, x 3-4, '),
    ('dnlx', 'dnlx 0-4, '),
    ('x*', 'x 0-1, * 1-2, '),
    ('x --', 'x 0-1, - 2-4, '),
]


def shipped(name):
    with open(os.path.join(RULES, f'{name}.rules'), 'rb') as file:
        return file.read()


def signs(leads, words, tails):
    """Lines with one of these signs, and what is left of each."""
    for sign in leads + words:
        start = len(sign) + 1
        yield f'{sign} foo', f'foo {start}-{start + 3}, '
    for sign in tails:
        yield f'foo{sign}', 'foo 0-3, '


ITEM, NO_ITEM = ('1. foo', 'foo 3-6, '), ('1. foo', '1 0-1, . 1-2, foo 3-6, ')
SEPARATOR, NO_SEPARATOR = ('ab===cd', 'ab 0-2, cd 5-7, '), ('ab===cd', 'ab 0-2, = 2-3, = 3-4, = 4-5, cd 5-7, ')
PROFILE = [*signs(LEADS, WORDS, TAILS), SEPARATOR]
STOP = ('. x', '. 0-1, x 2-3, ')
DEBIAN = [('. foo', 'foo 2-5, '), (' .', '')]
# a quote stays, since sentences begin with one
MORE = [*signs(MORE_LEADS, MORE_WORDS, MORE_TAILS), ('"x', "' 0-1, x 1-2, ")]

# rules, and inputs with their tokens
SMALL = [
    ('', [('// x', '/ 0-1, / 1-2, x 3-4, '), ITEM, SEPARATOR]),
    # white space round a line and after its word, line ends of two bytes, and a comment
    (' \t\r\n # lead x\nlead\u00A0 a\u00E9 \r\nlead a\u00E9',
     [('a\u00E9 foo', 'foo 4-7, '), ('x foo', 'x 0-1, foo 2-5, '), ITEM, SEPARATOR]),
    # the last line counts
    ('items off\nseparators off\nitems on\nitems off', [NO_ITEM, NO_SEPARATOR]),
    ('tail-space #\ntail-repeat */\nlead 0123456789abcdef',
     [('0123456789abcdef foo **/ #', 'foo 17-20, '), ('foo#', 'foo 0-3, # 3-4, '), ITEM, SEPARATOR]),
    # as many texts as may be
    ('lead w\n' * 256 + 'items off', [('w foo', 'foo 2-5, '), NO_ITEM, SEPARATOR]),
]


def by_file(name, rows):
    return of_tokens(f'by {name}.rules', *joined(rows), ['--rules', 'rules'], {'rules': shipped(name)})


CASES = [
    of_tokens('by no file', *joined([*PROFILE, ITEM, STOP, *BESIDE])),
    by_file('profile', [*PROFILE, ITEM, STOP, *BESIDE]),
    by_file('debian-copyright', [*PROFILE, *DEBIAN, NO_ITEM, *BESIDE]),
    by_file('more-comments', [*PROFILE, *MORE, ITEM, STOP]),
    *(of_tokens(f'by {rules[:30]!r}', *joined(rows), ['--rules', 'rules'], {'rules': rules.encode()}) for rules, rows in SMALL),
]
