"""Cases of files of line rules."""
from harness import Case, templates

# rules, an input, and its tokens
READ = [
    (b'lead @@', b'@@ foo // bar\n', b'-\t3\t6\tfoo\n-\t7\t8\t/\n-\t8\t9\t/\n-\t10\t13\tbar\n'),
    (b'items off', b'(c) 2012 X\n(c) the licensee\n',
     b'-\t0\t3\tcopyright\n-\t4\t8\t2012\n-\t9\t10\tx\n-\t11\t14\tcopyright\n-\t15\t18\tthe\n-\t19\t27\tlicensee\n'),
    (b'separators off', b'ab===cd', b'-\t0\t2\tab\n-\t2\t3\t=\n-\t3\t4\t=\n-\t4\t5\t=\n-\t5\t7\tcd\n'),
    (b'separators off', b'ab---cd', b'-\t0\t2\tab\n-\t2\t5\t-\n-\t5\t7\tcd\n'),
]

# rules, and their first fault
REFUSED = [
    ('an unknown rule', b'# none\nleads x\n', b'licscan: rules: L1 at line 2: unknown rule\n'),
    ('neither on nor off', b'items maybe', b'licscan: rules: L1 at line 1: unknown rule\n'),
    ('no text', b'lead', b'licscan: rules: L2 at line 1: bad text\n'),
    ('257 texts', b'lead x\n' * 257, b'licscan: rules: L3 at line 257: more than 256 texts\n'),
    ('no UTF-8', b'lead x\xFF', b'licscan: rules: not UTF-8 at byte 6\n'),
]
COMMANDS = [
    ['tokens', '--rules', 'file'],
    ['scan', '--templates', 'T', '--rules', 'file'],
    ['check', '--templates', 'T', '--rules', 'file'],
]

UNREAD = b'licscan: rules: cannot be read\n'
# arguments, and the first of what they name that cannot be had
ABSENT = [
    (['tokens', '--rules', 'none', 'none'], UNREAD),
    (['tokens', '--rules', 'folder'], UNREAD),
    # `-` is a file of that name, and none is there
    (['tokens', '--rules', '-'], UNREAD),
    # the arguments are looked at before the rules, and the rules before the word list and the templates
    (['scan', '--after=0:0:A', '--templates', 'none', '--rules', 'none'], b'licscan: --after needs --all\n'),
    (['scan', '--templates', 'none', '--words', 'none', '--rules', 'none'], UNREAD),
    (['check', '--templates', 'none', '--words', 'none', '--rules', 'none'], UNREAD),
    (['tokens', '--words', 'none', '--rules', 'none'], UNREAD),
    (['scan', '--templates', 'none', '--words', 'none'], b'licscan: words: cannot be read\n'),
]

SAME = {**templates(A=b'@@ foo\n@@ bar'), 'rules': b'lead @@\n'}
SCAN = ['scan', '--templates', 'T']
CHECK = ['check', '--templates', 'T']
WITH_RULES = ['--rules', 'rules']
TEXT = b'@@ @@ Foo\n@@ bar\n'

CASES = [
    *(Case(f'a file says what lines lose: {rules}, {given}', ['tokens', '--rules', 'file'], {'file': rules}, given=given, out=out)
      for rules, given, out in READ),
    Case('templates and texts have the same rules', SCAN + WITH_RULES, SAME, given=TEXT, out=b'-\tA\t0\t1\t6\t16\n'),
    Case('a scan by the rules of the profile', SCAN, SAME, given=TEXT, out=b'-\tA\t2\t7\t3\t16\n'),
    Case('templates and their original texts have the same rules', CHECK + WITH_RULES, SAME, out=b'A\t8\tyes\n'),
    Case('a check by the rules of the profile', CHECK, SAME, out=b'A\t10\tyes\n'),
    *(Case(f'a refused file ends the run: {name}, {args[0]}', args, {'file': rules, **templates(E=b' ')}, given=b'foo bar', status=2, err=err)
      for name, rules, err in REFUSED for args in COMMANDS),
    *(Case(f'a file that cannot be read ends the run: {args}', args, {'folder': None}, given=b'a,b', status=2, err=err) for args, err in ABSENT),
]
