"""The letters of a template's pieces of text: what a template with such a piece weighs, and texts that it describes or does not.

A piece is read as its lines are, and by what is before and after it in its line: a rule, another piece or a line's end.
"""
import dataclasses

from short import of_matches, of_weight

A = '<<var;name=n;original=a;match=a>>'
X = '<<beginOptional>>x<<endOptional>>'
# a rule after text, so that a piece is not at its line's start
IN = 'q<<beginOptional>><<endOptional>>'
# it does not describe its original text, in which `(c)` is an item before a letter, or a token apart from the word before it
NO = False

# a template, its weight (a letter each), and texts in which blanks part the tokens, with all their matches
ROWS = [
    ('a << b', 4, [('a < < b', '0-3-0 ')]),
    ('x <<var;name=organizationClause3;original=the copyright holder;match=.+>>', 3, [('x y z', '0-1-0 0-2-0 ')]),
    ('x <<var;name="n";original="a;b";match=a\\;b>>', 5, [('x a ; b', '0-3-0 ')]),
    ('a<<beginOptional>> b<<beginOptional>> c<<endOptional>><<endOptional>> d', 7, [('a d', '0-1-0 '), ('a b d', '0-2-0 '), ('a b c d', '0-3-0 '), ('a c d', '')]),
    (f'<<beginOptional>>1. <<endOptional>>foo {A}', 6, [('foo a', '0-1-0 ')]),
    # a form of an item directly before a rule is none, with a blank after it it is one
    (f'1.{X}', 3, [('1 . x', '0-1-0 0-2-0 '), ('x', '')]),
    (f'1. {X}', 2, [('x', '0-0-0 ')]),
    # a variable counts as a digit, another rule as a letter
    (f'(c) {X}', 2, [('x', '0-0-0 '), ('copyright x', '1-1-0 ')]),
    (f'(c) {A} x', 13, [('copyright a x', '0-2-0 '), ('a x', '')], NO),
    (f'c) {A} x', 4, [('a x', '0-1-0 ')]),
    # optional rules and white space do not part a piece from the start of its line; what else is there does
    ('<<beginOptional>><<beginOptional>> 1. <<endOptional>> <<endOptional>>2. foo', 7, [('x 2 . foo', '1-3-0 ')]),
    ('<<beginOptional>> <<endOptional>>2. foo', 5, [('foo', '0-0-0 ')]),
    ('a<<beginOptional>>1. b<<endOptional>>', 4, [('a b', '0-0-0 '), ('a1 . b', '0-2-0 ')]),
    ('a<<beginOptional;b=\n>>1. b<<endOptional>>', 4, [('a b', '0-0-0 '), ('a1 . b', '0-2-0 ')]),
    ('a<<beginOptional>>\n1. b<<endOptional>>', 3, [('a b', '0-0-0 0-1-0 '), ('a1 . b', '')]),
    # a tail is lost where nothing but optional rules follows in the line
    ('foo */<<beginOptional>><<endOptional>>', 4, [('foo', '0-0-0 ')]),
    ('foo */<<beginOptional>>x<<endOptional>>', 6, [('foo * / x', '0-2-0 0-3-0 '), ('foo', '')]),
    # nothing, and white space alone
    (IN, 1, [('q', '0-0-0 ')]),
    (f'{IN} \n {A}', 3, [('q a', '0-1-0 '), ('qa', '')]),
    (f'{IN}The Foo, Bar{A}', 13, [('qthe foo , bara', '0-3-0 ')]),
    # an item is there before a variable, and not at the line's end
    (f'1. {A}x', 3, [('ax', '0-0-0 ')]),
    ('1. ', 3, [('1 . x', '0-1-0 ')]),
    ('1. \nfoo', 5, [('1 . foo', '0-2-0 '), ('foo', '')]),
    (f'1.{A}x', 4, [('1 . ax', '0-2-0 '), ('ax', '')]),
    (f'{IN}1. {A}', 5, [('q1 . a', '0-2-0 ')]),
    # a tail is taken at the line's end alone
    (f'{IN} */', 2, [('q', '0-0-0 ')]),
    (f'{IN} */{A}', 5, [('q * / a', '0-3-0 '), ('q a', '')]),
    (f'{IN}a */\nb */{X}', 7, [('qa b * /', '0-3-0 '), ('qa b * / x', '0-3-0 0-4-0 ')]),
    # a copyright sign before a year stays, and is an item before other text
    (f'(c) {A}x', 12, [('copyright ax', '0-1-0 ')], NO),
    (f'{IN}(c) {X}', 12, [('qcopyright', '0-0-0 '), ('qcopyright x', '0-0-0 0-1-0 ')], NO),
    # a lead is taken at a line's start alone
    ('# Foo', 4, [('foo', '0-0-0 ')]),
    (f'{IN}# Foo', 5, [('q # foo', '0-2-0 ')]),
    (f'{IN}Foo\n# Bar', 8, [('qfoo bar', '0-1-0 ')]),
    (f'{A}# x #', 4, [('a # x', '0-2-0 ')]),
    ('// -- x\n', 3, [('x', '0-0-0 ')]),
    # what is dropped of a text is no letter
    ('\uFEFFa\u00AD\u00E9', 2, [('a\u00E9', '0-0-0 ')]),
]

# equivalent words, with a rule after them and without
LIST = {'list': b'sub-license,sub license,sublicense\ncolor,colour\n'}
BY_WORDS = [
    ('Sub-License', 11, [('sublicense', '0-0-0 ')]),
    (f'{IN} a Sub License {A}', 17, [('q a sublicense a', '0-3-0 ')]),
    ('the colour<<beginOptional>> Colour<<endOptional>>', 15, [('the color', '0-1-0 '), ('the colour color', '0-1-0 0-2-0 ')]),
]

OTHER = {'rules': b'lead @@\nitems off\nseparators off'}
BY_RULES = [
    ('@@ 1. Foo', 6, [('1 . foo', '0-2-0 ')]),
    ('@@ 1. Foo\n// ab---cd */', 15, [('1 . foo / / ab - cd * /', '0-9-0 ')]),
]


def by(options, files, rows):
    for text, weight, inputs, *described in rows:
        for case in (of_weight('a piece', text, weight, *described), *(of_matches('a piece', [text], *row) for row in inputs)):
            yield dataclasses.replace(case, args=case.args + options, files={**case.files, **files})


CASES = [
    *by([], {}, ROWS),
    *by(['--words', 'list'], LIST, BY_WORDS),
    *by(['--rules', 'rules'], OTHER, BY_RULES),
]
