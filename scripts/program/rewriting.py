"""Tokens as they are rewritten: signs, addresses, and equivalent words."""
from short import of_tokens

# each line a class, whose first phrase is its text
LISTED = 'sub-license,sublicense,sub license\nalphabet,a b c,a,a b c d e f g h\ncopyright x\n'
BY_LIST = [
    ('', ''),
    ('copyright copyright copyright 2001', 'copyright 0-29, 2001 30-34, '),
    ('https : / / x', 'http 0-5, : 6-7, / 8-9, / 10-11, x 12-13, '),
    ('https : / x', 'https 0-5, : 6-7, / 8-9, x 10-11, '),
    ('https https : / / x', 'https 0-5, http 6-11, : 12-13, / 14-15, / 16-17, x 18-19, '),
    ('https : copyright copyright a b c', 'https 0-5, : 6-7, copyright 8-27, alphabet 28-33, '),
    ('sub - license sublicense sub license sub', 'sub-license 0-13, sub-license 14-24, sub-license 25-36, sub 37-40, '),
    ('a b c d', 'alphabet 0-5, d 6-7, '),
    ('a b a b c', 'alphabet 0-1, b 2-3, alphabet 4-9, '),
    ('a b c d e f g h i', 'alphabet 0-15, i 16-17, '),
    ('a b c d e f g i', 'alphabet 0-5, d 6-7, e 8-9, f 10-11, g 12-13, i 14-15, '),
    ('copyright copyright x', 'copyright x 0-21, '),
    ('x a b c d y sub license', 'x 0-1, alphabet 2-7, d 8-9, y 10-11, sub-license 12-23, '),
]

WITHOUT = [('copyright copyright https : / / a', 'copyright 0-19, http 20-25, : 26-27, / 28-29, / 30-31, a 32-33, ')]

# a list, an input, and its tokens
BY_WORDS = [
    ('', 'colour', 'colour 0-6, '),
    ('color,colour', 'colour color', 'color 0-6, color 7-12, '),
    ('a,b\nc,d\nb,c', 'd c b a', 'a 0-1, a 2-3, a 4-5, a 6-7, '),
    ('sub-license,sublicense\nsub license,sublicense\n', 'sublicense x sub license', 'sub-license 0-10, x 11-12, sub-license 13-24, '),
    ('sub-license,sublicense\nsub license,sublicense\n', 'sub-license sublicense Sub License', 'sub-license 0-11, sub-license 12-22, sub-license 23-34, '),
    ('per cent,percent', 'PerCent', 'per cent 0-7, '),
    ('PER  CENT , percent\nper cent', 'percent', 'per cent 0-7, '),
    ('b,e\nc,d\nx,e,d', 'x d c e b', 'b 0-1, b 2-3, b 4-5, b 6-7, b 8-9, '),
    # lines that are skipped, one of them after characters that are dropped
    ('# a,b\n \u00AD\u200B# c\n\uFEFF \nd,d', 'b d', 'b 0-1, d 2-3, '),
    ('(c) \u00A9, https://x', 'http://x', 'copyright 0-8, '),
    ('1. a\u00ADb\r\n\u201Cx\u201D -\u2014- y===z', "'x' - y z", "'x'-y z 0-9, "),
    # as many phrases as may be
    ('w\n' * 4_096, 'W', 'w 0-1, '),
]

CASES = [
    *(of_tokens('by a list', given, shown, ['--words', 'list'], {'list': LISTED.encode()}) for given, shown in BY_LIST),
    *(of_tokens('without a list', given, shown) for given, shown in WITHOUT),
    *(of_tokens(f'by the words {listed[:40]!r}', given, shown, ['--words', 'list'], {'list': listed.encode()}) for listed, given, shown in BY_WORDS),
]
