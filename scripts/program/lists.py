"""Lists of equivalent words and files of line rules that are refused: the first fault of each."""
from harness import Case

LISTS = [
    ('an empty phrase', 'color,,colour\n', 'Q1 at line 1: empty phrase'),
    ('nothing after a comma', 'a\n\nb,', 'Q1 at line 3: empty phrase'),
    ('a separator alone', 'a\n # ,\n===', 'Q1 at line 3: empty phrase'),
    ('4,097 phrases', 'w\n' * 4_097, 'Q2 at line 4097: more than 4096 phrases'),
    ('4,096 phrases and an empty one', 'w\n' * 4_096 + ',', 'Q2 at line 4097: more than 4096 phrases'),
    ('nine tokens', 'a b c d e f g h i', 'Q3 at line 1: phrase too long'),
    ('eight tokens, and nine', 'a b c d e f g h\na b c d e f g h i,', 'Q3 at line 2: phrase too long'),
    # (what counts are the bytes of the spelling: 510 here)
    ('255 letters of two letters each', '\u00DF\u00AD' * 255, 'Q3 at line 1: phrase too long'),
]

RULES = [
    ('no text', 'lead', 'L2 at line 1: bad text'),
    ('neither on nor off', 'items maybe', 'L1 at line 1: unknown rule'),
    ('nothing after items', 'items', 'L1 at line 1: unknown rule'),
    ('on twice', 'separators on on', 'L1 at line 1: unknown rule'),
    ('a text of two words', 'lead a\n\n# x\nlead a b\nfoo', 'L2 at line 4: bad text'),
    ('an unknown rule before a bad text', 'lead a\nfoo\nlead', 'L1 at line 2: unknown rule'),
    ('a capital', 'Lead a', 'L1 at line 1: unknown rule'),
    ('17 characters', 'lead 0123456789abcdefg', 'L2 at line 1: bad text'),
    ('a dropped character in a text', 'lead a\u00ADb', 'L2 at line 1: bad text'),
    ('a byte order mark', '\uFEFF# x', 'L1 at line 1: unknown rule'),
    ('a dropped character alone', 'items on\n\u200B', 'L1 at line 2: unknown rule'),
    ('257 texts', 'lead w\n' * 256 + 'lead w', 'L3 at line 257: more than 256 texts'),
    ('256 texts and none', 'lead w\n' * 256 + 'tail-repeat', 'L3 at line 257: more than 256 texts'),
    ('256 texts and a bad one', 'lead w\n' * 256 + 'lead a b', 'L3 at line 257: more than 256 texts'),
    ('256 texts and an unknown rule', 'lead w\n' * 256 + 'leads w', 'L1 at line 257: unknown rule'),
]


def refused(option, what, text, fault):
    return Case(f'{option}: {what}', ['tokens', f'--{option}', 'file'], {'file': text.encode()}, given=b'a', status=2,
                err=f'licscan: {option}: {fault}\n'.encode())


CASES = [
    *(refused('words', *row) for row in LISTS),
    *(refused('rules', *row) for row in RULES),
]
