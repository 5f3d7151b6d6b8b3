"""Cases of lists of equivalent words."""
from harness import Case, templates

# a list, an input, and its tokens
READ = [
    (b'sub-license,sublicense\nsub license,sublicense\n', b'sub-license sublicense Sub License',
     b'-\t0\t11\tsub-license\n-\t12\t22\tsub-license\n-\t23\t34\tsub-license\n'),
    (b'a,b\nc,d\nb,c\n', b'd', b'-\t0\t1\ta\n'),
    (b'per cent,percent', b'PER  CENT', b'-\t0\t9\tper cent\n'),
    (b'', b'percent', b'-\t0\t7\tpercent\n'),
]

# a list, and its first fault
REFUSED = [
    ('an empty phrase', b'color,,colour\n', b'licscan: words: Q1 at line 1: empty phrase\n'),
    ('4,097 phrases', b'w\n' * 4_097, b'licscan: words: Q2 at line 4097: more than 4096 phrases\n'),
    ('4,096 phrases and an empty one', b'w\n' * 4_096 + b',\n', b'licscan: words: Q2 at line 4097: more than 4096 phrases\n'),
    ('a phrase of nine tokens', b'x\na b c d e f g h i', b'licscan: words: Q3 at line 2: phrase too long\n'),
    ('no UTF-8', b'color,\xFF', b'licscan: words: not UTF-8 at byte 6\n'),
]
COMMANDS = [
    ['tokens', '--words', 'list'],
    ['scan', '--all', '--templates', 'T', '--words', 'list'],
]

UNREAD = b'licscan: words: cannot be read\n'
# arguments, and the first of what they name that cannot be had
ABSENT = [
    (['tokens', '--words', 'none', 'none'], UNREAD),
    (['tokens', '--words', 'folder', 'none'], UNREAD),
    # `-` is a file of that name, and none is there
    (['tokens', '--words', '-', 'none'], UNREAD),
    # the arguments are looked at before the list, and the list before the templates
    (['scan', '--after=0:0:A', '--templates', 'none', '--words', 'none'], b'licscan: --after needs --all\n'),
    (['scan', '--all', '--templates', 'none', '--words', 'none'], UNREAD),
    (['check', '--templates', 'none', '--words', 'none'], UNREAD),
]

SAME = {**templates(K1=b'the colour'), 'list': b'color,colour'}
ALL = ['scan', '--all', '--templates', 'T']

CASES = [
    *(Case(f'words of a class have one text: {listed}', ['tokens', '--words', 'list'], {'list': listed}, given=given, out=out)
      for listed, given, out in READ),
    Case('templates and texts have the same list', [*ALL, '--words', 'list'], SAME, given=b'The Color', out=b'-\tK1\t0\t1\t0\t9\n'),
    Case('without the list', ALL, SAME, given=b'The Color', status=1),
    *(Case(f'a refused list ends the run: {name}, {args[0]}', args, {'list': listed, **templates(E=b' ')}, given=b'foo bar', status=2, err=err)
      for name, listed, err in REFUSED for args in COMMANDS),
    *(Case(f'a list that cannot be read ends the run: {args}', args, {'folder': None}, given=b'a,b', status=2, err=err) for args, err in ABSENT),
    Case('a list that is too long ends the run', ['tokens', '--words', 'list', 'none'], {'list': b'\n' * 67_108_865}, given=b'a,b', status=2, err=UNREAD),
]
