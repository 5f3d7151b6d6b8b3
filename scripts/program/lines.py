"""Tokens of lines and of texts, by the profile; of bytes that are no UTF-8; and by other rules."""
from short import of_tokens
from harness import Case

LINES = [
    ('// 1. Foo', 'foo 6-9, '),
    ('/****', ''),
    ('foo ***/', 'foo 0-3, '),
    ('1.2. Foo', 'foo 5-8, '),
    ('1.2 Foo', '1 0-1, . 1-2, 2 2-3, foo 4-7, '),
    ('1996. Foo', '1996 0-4, . 4-5, foo 6-9, '),
    ('(iv) Foo', 'foo 5-8, '),
    ('a.', 'a 0-1, . 1-2, '),
    ('(c)2012', 'copyright 0-3, 2012 3-7, '),
    ('-- foo -->', 'foo 3-6, '),
    ('foo*', 'foo 0-3, * 3-4, '),
    (' * bar\n', 'bar 3-6, '),
    ('(c) 2012 X\n', 'copyright 0-3, 2012 4-8, x 9-10, '),
    ('(c) the licensee\n', 'the 4-7, licensee 8-16, '),
    ('x (\u00ADc) ( c)', 'x 0-1, copyright 2-7, ( 8-9, c 10-11, ) 11-12, '),
    ('a-\u2014-b "\'"', "a 0-1, - 1-6, b 6-7, ' 8-11, "),
    ('REM x -}', 'x 4-5, '),
]

TEXTS = [
    ('', ''),
    (' \n\u3000', ''),
    ('/* Foo\n * bar\n */\n', 'foo 3-6, bar 10-13, '),
    ('(c) 2012 X\n(c) the licensee\n', 'copyright 0-3, 2012 4-8, x 9-10, the 15-18, licensee 19-27, '),
    ("``AS IS''", "' 0-2, as 2-4, is 5-7, ' 7-9, "),
    ('\uFB01le STRASSE stra\u00DFe', 'file 0-5, strasse 6-13, strasse 14-21, '),
    ('ab==cd', 'ab 0-2, = 2-3, = 3-4, cd 4-6, '),
    ('ab===cd', 'ab 0-2, cd 5-7, '),
    ('ab====cd', 'ab 0-2, cd 6-8, '),
    ('Copyright (C) \u00A9 2001', 'copyright 0-16, 2001 17-21, '),
    ('HTTPS://x.org', 'http 0-5, : 5-6, / 6-7, / 7-8, x 8-9, . 9-10, org 10-13, '),
    ('| foo bar |\n', 'foo 2-5, bar 6-9, '),
    ('| foo bar |\r\n', 'foo 2-5, bar 6-9, '),
    # a dropped character parts nothing, and a token's span goes over it
    ('so\u00ADft (\u200Bc)', 'soft 0-6, copyright 7-13, '),
    # signs are one across a separator and a line end, and a blank parts the signs of one in parentheses
    ('x (c) === (c)\n( c)', 'x 0-1, copyright 2-13, ( 14-15, c 16-17, ) 17-18, '),
    # runs come first: a separator of quotes is a blank, and mixed dashes are one
    ('a"""b -\u2014- c"\'"', "a 0-1, b 4-5, - 6-11, c 12-13, ' 13-16, "),
]

BYTES = [
    (b'a\xFFb', 'a\uFFFDb 0-3, '),
    # each byte of a character that is cut, or that no character can begin with, is by itself
    (b'\xE2\x80', '\uFFFD\uFFFD 0-2, '),
    (b'\xF0\x9F\x98A', '\uFFFD\uFFFD\uFFFDa 0-4, '),
    (b'\xED\xA0\x80', '\uFFFD\uFFFD\uFFFD 0-3, '),
    (b'\xC0\x80.', '\uFFFD\uFFFD 0-2, . 2-3, '),
    # U+FFFD itself is one character
    (b'\xEF\xBF\xBD', '\uFFFD 0-3, '),
    # a line end is none of a cut character's bytes
    (b'\xE2\n\x82\xAC', '\uFFFD 0-1, \uFFFD\uFFFD 2-4, '),
    (b'\xC3\xA9\xC3 \xC3', '\u00E9\uFFFD 0-3, \uFFFD 4-5, '),
    (b'# \x80#\n', '\uFFFD 2-3, # 3-4, '),
]

OTHER = b'lead @@\nitems off\nseparators off'
BY_OTHER = [
    ('@@ foo // b', 'foo 3-6, / 7-8, / 8-9, b 10-11, '),
    ('1. ab---c', '1 0-1, . 1-2, ab 3-5, - 5-8, c 8-9, '),
    ('@@ 1. Foo\n// ab---cd */', '1 3-4, . 4-5, foo 6-9, / 10-11, / 11-12, ab 13-15, - 15-18, cd 18-20, * 21-22, / 22-23, '),
]

# up to 24 bytes a text is held in place, and a longer one is not
SHORT_AND_LONG = ['copyright', 'abcdefghijklmnopqrstuvwx', 'abcdefghijklmnopqrstuvwxy', '\u4E2D\u6587' * 4 + '\u4E2D']

CASES = [
    *(of_tokens('a line', given, shown) for given, shown in LINES),
    *(of_tokens('a text', given, shown) for given, shown in TEXTS),
    *(of_tokens('any byte is read', given, shown) for given, shown in BYTES),
    *(of_tokens('by other rules', given, shown, ['--rules', 'rules'], {'rules': OTHER}) for given, shown in BY_OTHER),
    Case('an input of one byte more than may be', ['tokens'], given=b'a' * 67_108_865, status=2, err=b'licscan: -: X2: more than 67108864 bytes\n'),
    *(of_tokens('a token of some length', text, f'{text} 0-{len(text.encode())}, ') for text in SHORT_AND_LONG),
]
