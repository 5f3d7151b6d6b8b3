"""All matches of some templates in a text, and those after a triple."""
from short import of_matches

OF = '<<var;name="a";original="p";match=".+">> of <<var;name="b";original="q";match=".+">>'

# templates, a text, and its matches
ROWS = [
    (['foo bar'], 'Foo   bar foo bar', '0-1-0 2-3-0 '),
    (['x y', 'x', 'x y z', 'y'], 'X y z x', '0-0-1 0-1-0 0-2-2 1-1-3 3-3-1 '),
    (['a', 'A'], 'a A', '0-0-0 0-0-1 1-1-0 1-1-1 '),
    (['a a'], 'a a a', '0-1-0 1-2-0 '),
    (['a b', 'ab', 'a'], 'ab a', '0-0-1 1-1-2 '),
    (['foo bar'], 'foo', ''),
    (['foo'], ' \n', ''),
    ([], 'foo', ''),
    # two ways to match the longest range give it once
    ([OF], 'x of y of z', '0-2-0 0-3-0 0-4-0 1-4-0 2-4-0 '),
    (['y', OF], 'x of y', '0-2-1 2-2-0 '),
    # more templates than are kept with a token
    (['a', 'a b', 'A b c', 'a <<var;name="v";original="x";match=".{0,9}">>', 'a b c d', 'b', 'a'], 'a b c d',
     '0-0-0 0-0-3 0-0-6 0-1-1 0-1-3 0-2-2 0-2-3 0-3-3 0-3-4 1-1-5 '),
    # a word and then more; a mark; one word that is the whole template; a variable; an optional word first
    *((['foo bar', '[x] foo', 'foo', '<<var;name="w";original="bar";match="[a-z]{3}">>!', '<<beginOptional>>The <<endOptional>>foo.bar'], given, shown)
      for given, shown in [
          ('foo bar', '0-0-2 0-1-0 '),
          ('[ x ] foo', '0-3-1 3-3-2 '),
          ('foo', '0-0-2 '),
          ('foo !', '0-0-2 0-1-3 '),
          ('qux !', '0-1-3 '),
          ('foo . bar', '0-0-2 0-2-4 '),
          ('the foo . bar', '0-3-4 1-1-2 1-3-4 '),
          ('the', ''),
          ('[ [', ''),
          ('foob ar', ''),
      ]),
    # a template of a text and one of a text and a variable; words that go on where the text ends, or end where it goes on
    *((['foo bar', 'foo <<var;name="w";original="bar";match="[a-z]+">>'], given, shown) for given, shown in [
        ('foo bar', '0-1-0 0-1-1 '),
        ('foo bar x', '0-1-0 0-1-1 '),
        ('foo qux', '0-1-1 '),
        ('x foo foo bar x', '1-2-1 2-3-0 2-3-1 '),
        ('foo bar food bar car', '0-1-0 0-1-1 '),
    ]),
    # what a template asks for by its longest text
    *((['Permission is hereby granted, free of charge', 'Redistribution and use in source and binary forms'], given, shown) for given, shown in [
        ('permission is hereby granted , free of charge', '0-7-0 '),
        ('so redistribution and use in source and binary forms go', '1-8-1 '),
        ('permission is not hereby granted free', ''),
        ('a', ''),
    ]),
    *((['abcdefgh ijklmnop'], given, shown) for given, shown in [
        ('x abcdefgh ijklmnop', '1-2-0 '),
        ('abcdefgh ijklmno', ''),
        ('x ' * 4_080 + 'abcdefgh ijklmnop y', '4080-4081-0 '),
    ]),
    (['abcdefgh ijklmno', 'Permission is hereby granted, free of charge', '<<beginOptional>>Redistribution and use in source and binary forms<<endOptional>> x',
      'x <<var;name="a";original="b";match=".+">>'], 'x y', '0-0-2 0-1-3 '),
]

# a triple, and the matches after it
MOST = 2 ** 64 - 1
AFTER = [
    ('0:0:0', '0-0-1 0-1-0 0-2-2 1-1-3 3-3-1 '),
    ('0:0:1', '0-1-0 0-2-2 1-1-3 3-3-1 '),
    ('0:1:0', '0-2-2 1-1-3 3-3-1 '),
    ('0:1:3', '0-2-2 1-1-3 3-3-1 '),
    (f'0:{MOST}:0', '1-1-3 3-3-1 '),
    ('1:0:2', '1-1-3 3-3-1 '),
    ('2:2:0', '3-3-1 '),
    ('3:3:1', ''),
    ('4:0:0', ''),
    (f'{MOST}:{MOST}:3', ''),
]

CASES = [
    *(of_matches('all matches', *row) for row in ROWS),
    *(of_matches(f'after {after}', ['x y', 'x', 'x y z', 'y'], 'X y z x', shown, ['--after', after]) for after, shown in AFTER),
]
