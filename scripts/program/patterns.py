"""What patterns weigh, and which texts they describe: each is the pattern of a variable, whose original is one text after another."""
from short import CHECK
from harness import Case, templates

# a pattern, its weight, texts that it describes, and others that it does not
ROWS = [
    ('', 0, [''], ['a']),
    ('a{0,2}', 2, ['', 'a', 'aa'], ['aaa']),
    ('[]x]', 1, [']', 'x'], ['a', ']x']),
    ('[^A-C]', 1, ['x', 'z', '-', ']', "'", '[', ':', '/'], ['a', 'b', 'c', 'C']),
    ('x[^A-C]z', 3, ['x z', 'xxz'], ['xaz', 'xz']),
    ('[a-]', 1, ['a', '-'], ['b', 'x']),
    ('a)', 2, ['a)'], ['a']),
    ('^a|b$', 2, ['a', 'b'], ['ab']),
    ('\\;', 1, [';'], ['a']),
    ('STRASSE', 7, ['strasse', 'Stra\u00DFe'], ['strase']),
    ('a{65535}', 65_535, ['a' * 65_535], ['a']),
    ('[=a]', 1, ['a'], ['b']),
    ('[.a]', 1, ['a'], ['b']),
    ('\u00DF', 2, ['ss', '\u00DF'], ['s']),
    ('a\u00DF', 3, ['ass'], ['as']),
    ('\u00AD*', 0, [''], ['a']),
    ('a|$', 1, ['a', ''], ['b']),
    ('\\$', 1, ['$'], ['a']),
    ('a{00000000000000000000003,}', 3, ['aaa', 'aaaa'], ['aa']),
    ('a{3,00000000000000000000003}', 3, ['aaa'], ['aa', 'aaaa']),
    ('[]-a]', 1, [']', 'a', "'"], ['b', 'x', '[']),
    ('[a-]]', 2, ['a]', '-]'], ['a', ']']),
    ('[--/]', 1, ['-', '/'], ['a', ':']),
    ('[:a]', 1, [':', 'a'], ['b']),
    ('[^]a]', 1, ['b', 'c', 'x', 'z', '-', "'", '[', ':', '/'], ['a', ']']),
    ('(ab)*c', 3, ['c', 'abc', 'ababc'], ['ab', 'bc']),
    ('(a*)?', 1, ['', 'a', 'aa'], ['b']),
    ('()|(a|)', 1, ['', 'a'], ['aa']),
    ('.+]}', 3, ['x]}', 'xy]}'], [']}', 'x]']),
    # a gap beside a mark may be written with a blank or without
    ('a\t\u2014', 3, ['a -', 'a-'], ['a', '-']),
    ('[\u2014\u201D\u3000]', 1, ['-', "'"], ['a']),
    ('x[\u2014\u201D\u3000]z', 3, ['x z'], ['xaz']),
    ('\\"', 1, ["'", '"'], ['a']),
    # no letter: a character that is folded to another, outside of ASCII
    ('[\u00C4]', 1, [], ['\u00E4', '\u00C4', 'a', 'z']),
    ('(((){65535}){65535}){65535}', 0, [''], ['a']),
    ('((a{65535}){65535}){0}', 0, [''], ['a']),
    ('(' * 64 + 'a' + ')' * 64, 1, ['a'], ['aa']),
    # as they are compiled
    ('((((a{65535}){65535}){65535}){65535}){0}b', 1, ['b'], ['a', 'ab']),
    ('a(()()()(){3}()*){65535}b', 2, ['ab'], ['a', 'b']),
    ('((()|()*){9}|a){2,3}b', 4, ['b', 'ab', 'aab', 'aaab'], ['aaaab', 'a']),
    ('(a|b)*c', 3, ['c', 'abbac'], ['ab', 'ca']),
    ('(ab)+', 2, ['ab', 'abab'], ['a', 'aba']),
    ('(ab){2,}', 4, ['abab', 'ababab'], ['ab', 'aba']),
    ('(ab){1,2}', 4, ['ab', 'abab'], ['aba', 'ababab']),
    ('(a|b){3}', 6, ['aaa', 'aba', 'bab', 'bbb'], ['aa', 'ab', 'aaaa', 'abab', 'abc']),
    ('(a|b){0,3}c', 7, ['c', 'ac', 'abc', 'babc'], ['aaaac', 'ab', 'abcb']),
    ('(ab){2,4}', 8, ['abab', 'ababab', 'abababab'], ['ab', 'aba', 'ababababab']),
    ('(ab){3,}c', 7, ['abababc', 'ababababc'], ['ababc', 'abababac']),
    ('(a|bc){2,3}', 9, ['aa', 'bca', 'abc', 'aaa', 'bcbcbc'], ['a', 'bc', 'ab', 'aaaa']),
    ('(a|){5}', 5, ['a', 'aa', 'aaaaa'], ['aaaaaa', 'b']),
    ('((a|b){2}c){3}', 15, ['abcbacaac'], ['abcbac', 'abcbacaacabc', 'abcacaac']),
    ('((a|bc){1,2}d){2,}', 14, ['adad', 'bcadabcd', 'adadbcbcd'], ['ad', 'aaad', 'adaaad']),
    ('[a-c]{2}.?', 3, ['ab', 'abc', 'abx'], ['a', 'ad', 'abxx']),
    ('(a{2}|b?){1,2}', 6, ['aa', 'b', 'aab', 'aaaa', 'bb'], ['a', 'aaa', 'bbb']),
    ('.{0,5000}', 5_000, ['a', 'abc', 'a' * 5_000], ['a' * 5_001]),
    ('[^a]{3,}', 3, ['b' * 3, 'bcd', 'bcde'], ['a', 'bcda', 'bb']),
    ('(a|b){60000}', 120_000, [], ['ab']),
    ('a||||||', 1, ['a', ''], ['aa']),
]


def variable(pattern, original):
    """A template of a word and a variable."""
    return f'q <<var;name="v";original="{original}";match="{pattern}">>'.encode()


def of_pattern(pattern, weight, described, others):
    texts = {f'{k:02}': text for k, text in enumerate(described + others)}
    lines = [f'{id}\t{weight + 2}\t{"yes" if text in described else "no"}\n' for id, text in texts.items()]
    return Case(f'a pattern: {pattern[:60]}', CHECK, templates(**{id: variable(pattern, text) for id, text in texts.items()}),
                status=1 if others else 0, out=''.join(lines).encode())


CASES = [of_pattern(*row) for row in ROWS]
