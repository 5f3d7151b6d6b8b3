"""Kinds of characters and their letters, each seen between two words; and the families of marks."""
from short import of_tokens

# marks, and their letters
MARKS = [
    ('-', '-'), ('\u2010', '-'), ('\u2015', '-'), ('\u2212', '-'), ('\uFE58', '-'), ('\uFE63', '-'), ('\uFF0D', '-'),
    ('"', "'"), ("'", "'"), ('`', "'"), ('\u00B4', "'"), ('\u00AB', "'"), ('\u00BB', "'"), ('\u2018', "'"), ('\u201F', "'"),
    ('\u2039', "'"), ('\u203A', "'"),
    ('\u00B7', '\u00B7'), ('\u2022', '\u2022'), ('\u25E6', '\u25E6'), ('\u2500', '\u2500'), ('\u257F', '\u257F'),
    ('!', '!'), ('/', '/'), ('@', '@'), ('_', '_'), ('~', '~'), ('\u00A7', '\u00A7'), ('\u2026', '\u2026'),
    # a mark, which is the sign of copyright
    ('\u00A9', 'copyright'),
]
BLANKS = ['\t', '\n', '\r', ' ', '\u0085', '\u00A0', '\u2028', '\u3000']
DROPPED = ['\u00AD', '\u200B', '\uFEFF']
# word characters, and their letters
WORDS = [
    ('A', 'a'), ('z', 'z'), ('7', '7'), ('\u00DF', 'ss'), ('\u1E9E', 'ss'), ('\uFB01', 'fi'), ('\u0130', 'i\u0307'),
    ('\u0390', '\u03B9\u0308\u0301'), ('\u03C2', '\u03C3'),
    *((char, char) for char in '\u0307\u00D7\0\x1C\x7F\u180E\u200C\u2016\u2027\u2580\uFFFD'),
]
# no dash, quote, bullet or dropped character; a bullet that is no dash and no quote; two dashes, and two quotes
FAMILIES = [
    ('a**b', 'a 0-1, * 1-2, * 2-3, b 3-4, '),
    ('a\u2022\u2022b', 'a 0-1, \u2022 1-4, \u2022 4-7, b 7-8, '),
    ('a\u2014\u2014b', 'a 0-1, - 1-7, b 7-8, '),
    ('a\u201C\u201Cb', "a 0-1, ' 1-7, b 7-8, "),
]
# at the start of a line, without any lead: a sign that is no bullet, and three that are items
ITEMS = [('* foo', '* 0-1, foo 2-5, '), ('\u2022 foo', 'foo 4-7, '), ('\u2014 foo', 'foo 4-7, '), ('+ foo', 'foo 2-5, ')]


def between(char):
    """A character between two words, and where it ends."""
    return f'a{char}b', 1 + len(char.encode())


def cases():
    for char, letter in MARKS:
        given, end = between(char)
        yield of_tokens('a mark', given, f'a 0-1, {letter} 1-{end}, b {end}-{end + 1}, ')
    for char in BLANKS:
        given, end = between(char)
        yield of_tokens('white space', given, f'a 0-1, b {end}-{end + 1}, ')
    for char in DROPPED:
        given, end = between(char)
        yield of_tokens('a character that is dropped', given, f'ab 0-{end + 1}, ')
    for char, letters in WORDS:
        given, end = between(char)
        yield of_tokens('a word character', given, f'a{letters}b 0-{end + 1}, ')
    for given, shown in FAMILIES:
        yield of_tokens('a family of marks', given, shown)
    for given, shown in ITEMS:
        yield of_tokens('an item without leads', given, shown, ['--rules', 'none'], {'none': b''})


CASES = list(cases())
