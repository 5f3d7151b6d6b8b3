"""Each limit from both sides: what is as long, deep or heavy as it may be is taken, and one more is refused by its name and place."""
import re, resource

from costly import ALL, SCAN, variable
from running import Case, templates

CHECK = ['check', '--templates', 'T']
YES = re.compile(rb'[^\t]+\t\d+\tyes\n')
MOST = 67_108_864


def refused(id, what):
    return f'licscan: template {id}: {what}\n'.encode()


def of_template(group, name, text, fault=None, wanted=YES):
    """A template that is taken, or refused with this fault."""
    if fault is None:
        return Case(group, name, CHECK, templates(L=text), out=wanted)
    return Case(group, name, CHECK, templates(L=text), status=2, out=b'', err=refused('L', fault))


def of_depths():
    group = 'depth of groups and optional parts'
    for depth, fault in ((64, None), (65, 'M7 at 37: E11 at 64: deeper than 64'), (100_000, 'M7 at 37: E11 at 64: deeper than 64')):
        text = f'x <<var;name="n";original="a";match="{"(" * depth}a{")" * depth}">>'
        yield of_template(group, f'groups at depth {depth}', text, fault)
    begin, end = '<<beginOptional>>', '<<endOptional>>'
    for begins, ends, fault in ((64, 64, None), (65, 65, 'M8 at 1088: deeper than 64'), (64, 0, 'M3 at 1071: optional not ended'),
                                (30_000, 30_000, 'M8 at 1088: deeper than 64')):
        yield of_template(group, f'{begins} optional parts that begin and {ends} that end', begin * begins + 'a' + end * ends, fault, b'L\t1\tyes\n')
    deep = begin * 63 + f'a{variable("(" * 64 + "b*" + ")*" * 64)}' + end * 63 + 'c'
    yield Case(group, 'a pattern at depth 64 in optional parts at depth 63', SCAN, templates(L=deep), given=b'abbc', out=b'-\tL\t0\t0\t0\t4\n\tv\t0\t4\tabbc\n')
    yield Case(group, 'the same with a stack of 256 KiB', SCAN, templates(L=deep), given=b'abbc', out=b'-\tL\t0\t0\t0\t4\n\tv\t0\t4\tabbc\n', limits={resource.RLIMIT_STACK: 256 << 10})


def of_prefixes():
    """Each prefix of a template's text is taken, or refused where its rule begins."""
    text = 'name of <<var;name="n";original="x";match=".+">> nor'
    for end in range(len(text) + 1):
        fault = 'M10 at 0: no letter in it' if end == 0 else 'M1 at 8: rule not closed' if 13 <= end <= 47 else None
        yield of_template('prefixes of a template', f'{end} bytes', text[:end], fault, re.compile(rb'L\t\d+\t(yes|no)\n'))


def of_numbers():
    """Bounds, weights, and numbers in arguments."""
    group = 'bounds, weights and numbers of arguments'
    yield of_template(group, 'a{65535}', f'x{variable("a{0,65535}")}')
    yield of_template(group, 'a{65536}', f'x{variable("a{65536}")}', 'M7 at 35: E3 at 1: bad bound')
    yield of_template(group, 'a bound of 100,000 digits', f'x{variable("a{" + "9" * 100_000 + "}")}', 'M7 at 35: E3 at 1: bad bound')
    yield of_template(group, 'a bound of 100,000 zeros and a 3', f'x{variable("a{" + "0" * 100_000 + "3}", original="aaa")}')
    heavy = variable('.{0,65535}')
    yield of_template(group, 'weight 131,072', f'{heavy}x{heavy}y')
    yield of_template(group, 'weight 131,073', f'{heavy}x{heavy}yz', 'M9 at 0: weight over 131072')
    yield of_template(group, 'weight 65535 to the fifth', f'x{variable("(" * 4 + "a{65535}" + "){65535}" * 4)}', 'M9 at 0: weight over 131072')
    a = templates(A='foo bar')
    for limit, status in (('1', 0), ('4294967295', 0), ('0', 2), ('4294967296', 2), ('-1', 2), ('1e3', 2), ('9' * 10_000, 2)):
        err = b'' if status == 0 else re.compile(rb'error: .*', re.S)
        yield Case(group, f'--limit {limit[:12]}', ALL + [f'--limit={limit}'], a, given=b'foo bar', status=status, out=b'-\tA\t0\t1\t0\t7\n' if status == 0 else b'', err=err)
    for after, bad in (('18446744073709551615:18446744073709551615:A', False), ('18446744073709551616:0:A', True), ('0:18446744073709551616:A', True),
                       ('0-1:A', True), ('+1:0:A', True), ('0: 1:A', True), (':0:A', True), ('9' * 10_000 + ':0:A', True), ('0:0', True)):
        yield Case(group, f'--after {after[:24]}', ALL + ['--after', after], a, given=b'foo bar', status=2 if bad else 1, out=b'',
                   err=b'licscan: --after: bad triple\n' if bad else b'')


def of_lengths():
    """Lengths and counts of templates, lists and rules."""
    group = 'lengths and counts of what is loaded'
    long = 'a ' * 1_000 + '\n' * (1_048_576 - 2_000)
    yield of_template(group, 'a template of 1,048,576 bytes', long)
    yield of_template(group, 'one more', long + '\n', 'M11 at 0: more than 1048576 bytes')
    yield of_template(group, '1,048,577 bytes of a rule not closed', '<<var' * 209_715 + '<<', 'M11 at 0: more than 1048576 bytes')
    yield of_template(group, '1,048,577 bytes that are no UTF-8', b'\xff' * 1_048_577, 'M11 at 0: more than 1048576 bytes')
    yield of_template(group, '1,048,576 bytes that are no UTF-8', b'\xff' * 1_048_576, 'not UTF-8 at byte 0')
    yield of_template(group, '1,048,576 letters', 'a' * 1_048_576, 'M9 at 0: weight over 131072')
    yield of_template(group, 'a byte after 1,048,575 letters that begins a character', b'a' * 1_048_575 + b'\xc3', 'not UTF-8 at byte 1048575')
    for count, fault in ((4_096, b''), (4_097, b'licscan: templates: B2: more than 4096 templates\n')):
        yield Case(group, f'{count} templates', SCAN, templates(**{f'{k}': 'foo' for k in range(count)}), given=b'bar', status=2 if fault else 1, out=b'', err=fault)
    listed = ['tokens', '--words', 'list']
    for count, fault in ((4_096, b''), (4_097, b'licscan: words: Q2 at line 4097: more than 4096 phrases\n')):
        yield Case(group, f'{count} phrases', listed, {'list': b'w\n' * count}, given=b'w', status=2 if fault else 0, out=b'' if fault else b'-\t0\t1\tw\n', err=fault)
    for phrase, taken in ((b'a b c d e f g h', True), (b'a b c d e f g h i', False), (b'a' * 256, True), (b'a' * 257, False),
                          (b'a' * 127 + b' ' + b'b' * 128, True), (b'a' * 128 + b' ' + b'b' * 128, False)):
        fault = b'' if taken else b'licscan: words: Q3 at line 1: phrase too long\n'
        name = f'a phrase of {len(phrase.split())} words and {len(phrase)} bytes'
        yield Case(group, name, listed, {'list': phrase}, given=phrase, status=0 if taken else 2, out=re.compile(rb'-\t0\t%d\t.*\n' % len(phrase)) if taken else b'', err=fault)
    ruled = ['tokens', '--rules', 'rules']
    for text, fault in ((b'lead @\n' * 256, b''), (b'lead @\n' * 257, b'licscan: rules: L3 at line 257: more than 256 texts\n'),
                        (b'lead ' + b'@' * 16, b''), (b'lead ' + b'@' * 17, b'licscan: rules: L2 at line 1: bad text\n')):
        yield Case(group, f'rules of {len(text)} bytes', ruled, {'rules': text}, given=b'@ x', status=2 if fault else 0, out=b'' if fault else None, err=fault)


def of_long_files():
    """Lists and rules of 64 MiB."""
    group = 'lists and rules of 64 MiB'
    for option, fault in (('words', b'licscan: words: cannot be read\n'), ('rules', b'licscan: rules: cannot be read\n')):
        for more in (0, 1):
            yield Case(group, f'--{option} of {MOST + more} line ends', ['tokens', f'--{option}', 'long'], {'long': b'\n' * (MOST + more)}, given=b'x',
                       status=2 if more else 0, out=b'' if more else b'-\t0\t1\tx\n', err=fault if more else b'', or_memory=True)


def of_inputs():
    """Inputs of 67,108,864 bytes and one more, whatever the bytes are."""
    group = 'inputs of 67,108,864 bytes and more'
    whole, x2 = b'a' * MOST, b'licscan: -: X2: more than 67108864 bytes\n'
    for name, given, taken in (
            ('as many', whole, True), ('one more', whole + b'a', False), ('one more, of a byte FF', whole + b'\xff', False),
            ('one more, with FF at place 5', b'a' * 5 + b'\xff' + b'a' * (MOST - 5), False),
            ('as many, the last one C3', b'a' * (MOST - 1) + b'\xc3', True), ('as many, of NUL', bytes(MOST), True)):
        yield Case(group, name, SCAN, templates(A='foo'), given=given, status=1 if taken else 2, out=b'', err=b'' if taken else x2, or_memory=True, seconds=60)


def cases(tools, heavy):
    for group in (of_depths, of_prefixes, of_numbers, of_lengths):
        yield from group()
    if heavy:
        yield from of_long_files()
        yield from of_inputs()
