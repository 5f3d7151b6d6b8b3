"""Legal templates, lists and texts that were once slow or great in memory, or could be."""
import random, re, string

from running import Case, templates

SCAN = ['scan', '--templates', 'T']
ALL = ['scan', '--all', '--templates', 'T']
NOTHING = dict(status=1, out=b'')
WIDE = '<<var;name="copyright";original="Copyright (c) <year> <owner>";match=".{0,5000}">>'


def variable(pattern, name='v', original=''):
    return f'<<var;name="{name}";original="{original}";match="{pattern}">>'


EMPTY = '<<var;name=v;original=;match=>>'


def optional_words(first, count):
    """`count` optional words of four letters, no two the same, then the word `end`."""
    letters = string.ascii_lowercase
    spelled = (letters[first] + letters[k // 676 % 26] + letters[k // 26 % 26] + letters[k % 26] for k in range(count))
    return ''.join(f'<<beginOptional>>{word} <<endOptional>>' for word in spelled) + 'end'


def words(chance, count):
    return ' '.join(''.join(chance.choices('abcdefghijklmnopqrstuvwxyz', k=chance.randint(2, 9))) for _ in range(count))


def published(count, ending=''):
    """Templates in the shape of published ones, and their texts, each with this ending."""
    chance = random.Random(7)
    bodies = [words(chance, chance.randint(100, 1500)) + ending for _ in range(count)]
    shaped = {f'L{k}': f'<<beginOptional>>{words(chance, 4)} License\n\n<<endOptional>> {WIDE}\n\n{body}\n' for k, body in enumerate(bodies)}
    return templates(**shaped), bodies


def of_published():
    """Many templates that begin with an optional title and a wide variable."""
    for count in (41, 687):
        files, (body, *_) = published(count)
        title = 'Some Title\n\nCopyright (c) 2020 A. Author\n\n'
        yield Case('published templates', f'{count}, a text of one of them', SCAN, files, given=(title + body).encode(), out=re.compile(rb'-\tL0\t.*', re.S))
        yield Case('published templates', f'{count}, the first half of a text', SCAN, files, given=(title + body[:len(body) // 2]).encode(), **NOTHING)
        yield Case('published templates', f'{count}, a text 40 times', SCAN, files, given=(body + '\n').encode() * 40, out=re.compile(rb'-\tL0\t.*', re.S))
        yield Case('published templates', f'{count}, checked', ['check', '--templates', 'T'], files, out=re.compile(rb'(L\d+\t\d+\tyes\n){%d}' % count))


def of_texts():
    """Texts on which a template begins over and over."""
    group = 'texts that begin a template over and over'
    inside = templates(F=f'foo {variable(".+")} bar')
    for count in (4_000, 40_000, 400_000):
        yield Case(group, f'foo .+ bar, {count} times foo', SCAN, inside, given=b'foo ' * count, **NOTHING)
        yield Case(group, f'foo .+ bar, {count} times bar', SCAN, inside, given=b'bar ' * count, **NOTHING)
    nested = templates(R=f'x {variable("((a*)*)*")} y')
    yield Case(group, '((a*)*)*, 10,000 letters', ALL, nested, given=b'x ' + b'a' * 10_000 + b' z', **NOTHING)
    yield Case(group, '((a*)*)*, 200 letters', SCAN, nested, given=b'x ' + b'a' * 200 + b' y',
               out=b'-\tR\t0\t2\t0\t204\n\tv\t2\t202\t' + b'a' * 200 + b'\n')
    yield Case(group, '(a|aa)+, 10,000 letters', ALL, templates(R=f'x {variable("(a|aa)+")} y'), given=b'x ' + b'a' * 10_000 + b' z', **NOTHING)
    yield Case(group, '(.*.*.*)*, 1,000 words', ALL, templates(R=f'x {variable("(.*.*.*)*")} y'), given=b'x ' + b'a ' * 1_000 + b'z', **NOTHING)


def of_values():
    """Matches with many ways to be read."""
    group = 'values with many ways'
    two = templates(A=f'x {variable(".*", "a")}{variable(".*", "b")} y')
    for count in (10_000, 100_000):
        letters = b'a' * count
        yield Case(group, f'.* .* on {count} letters', SCAN, two, given=b'x ' + letters + b' y', out=re.compile(rb'-\tA\t0\t2\t.*\ta\t-\n.*', re.S))
    of = templates(A=f'x {variable(".+", "a")} of {variable(".+", "b")} y')
    yield Case(group, 'x .+ of .+ y on 16,000 words', SCAN, of, given=b'x ' + b'z ' * 8_000 + b'of ' + b'z ' * 8_000 + b'y', out=re.compile(rb'-\tA\t.*', re.S))
    wide = templates(A=f'x {variable(".{0,5000}", "a")} of {variable(".{0,5000}", "b")} y')
    yield Case(group, 'x .{0,5000} of .{0,5000} y on 2,000 times of', ALL, wide, given=b'x ' + b'of ' * 2_000 + b'y', out=None, status=(0, 1))
    yield Case(group, 'the same by default', SCAN, wide, given=b'x ' + b'of ' * 1_500 + b'y', out=None, status=(0, 1))
    many = EMPTY * 32_000
    yield Case(group, '32,000 empty variables after a letter', SCAN, templates(E=f'x{many}'), given=b'x', out=b'-\tE\t0\t0\t0\t1\n' + b'\tv\t-\n' * 32_000)
    yield Case(group, '32,000 empty variables and a million letters', SCAN, templates(E=f'x {many}{variable(".*")} y'),
               given=b'x ' + b'a' * 1_000_000 + b' y', out=re.compile(rb'-\tE\t0\t2\t0\t1000004\n(\tv\t-\n){32000}\tv\t2\t1000002\ta{1000000}\n'))
    eight = 'q ' + ' '.join(variable('.*', f'v{k}') for k in range(8)) + ' r'
    yield Case(group, 'eight times .* on 3,000 words', SCAN, templates(M=eight), given=b'q ' + b'z ' * 3_000 + b'r', out=None, status=(0, 1))
    optional = 'a' + '<<beginOptional>> a<<endOptional>>' * 2_000
    yield Case(group, '2,000 optional words', SCAN, templates(O='b ' + optional + ' c'), given=b'b ' + b'a ' * 2_001 + b'c', out=re.compile(rb'-\tO\t0\t2002\t.*', re.S))


def of_weights():
    """Templates that weigh little or as much as they may, and could be great in memory."""
    group = 'templates of great or no weight'
    check = ['check', '--templates', 'T']
    members = ''.join(chr(0x4E00 + k) for k in range(8_000))
    texts = {
        '([8,000 members]a){60000}': f'x{variable("([" + members + "]a){60000}")}',
        '(a|b){60000}': f'x{variable("(a|b){60000}")}',
        '.{65535}': f'x{variable(".{65535}")}y{variable(".{65534}")}',
        'a million alternatives of no weight': f'x{variable("|" * 1_000_000)}',
        '(((){65535}){65535}){65535}': f'x{variable("(((){65535}){65535}){65535}")}',
        '((((a{65535}){65535}){65535}){0})': f'x{variable("((((a{65535}){65535}){65535}){0})")}',
        '300,000 empty groups': f'x{variable("()" * 300_000)}',
        '100,000 empty repetitions': f'x{variable("(){9}" * 100_000)}',
        '16,000 blanks between empty variables': 'x' + (' ' + variable('')) * 16_000,
        '8,000 optional words': 'a' + '<<beginOptional>> word<<endOptional>>' * 8_000,
        '25,000 empty optional parts': 'a' + '<<beginOptional>><<endOptional>>' * 25_000,
    }
    for name, text in texts.items():
        yield Case(group, f'{name}, checked', check, templates(W=text), out=re.compile(rb'W\t\d+\t(yes|no)\n'), status=(0, 1))
        yield Case(group, f'{name}, on 1,000 words', SCAN, templates(W=text), given=b'x a b word ' * 250, out=None, status=(0, 1))
    copies = {f'A{k}': f'x{variable("|" * 1_000_000)}' for k in range(32)}
    yield Case(group, '32 times a million alternatives', check, templates(**copies), out=re.compile(rb'(A\d+\t1\t(yes|no)\n){32}'), status=(0, 1))
    copies = {f'A{k}': f'x{variable("(a|b){60000}")}' for k in range(64)}
    yield Case(group, '64 times (a|b){60000}', SCAN, templates(**copies), given=b'x abab', **NOTHING)


def of_sets():
    """Sets of many templates."""
    group = 'sets of many templates'
    check = ['check', '--templates', 'T']
    ones = {f'W{k}': f'word{k}' for k in range(4_000)}
    optionals = {f'O{k}': optional_words(k, 17_000) for k in range(4)}
    yield Case(group, '2,048 templates checked', check, templates(**dict(list(ones.items())[:2_048])), out=re.compile(rb'(W\d+\t\d+\tyes\n){2048}'))
    yield Case(group, '4,000 words and 4 that begin with 17,000 optional words', SCAN, templates(**ones, **optionals), given=b'word7 end', out=None)
    same = {f'S{k}': 'foo' for k in range(4_096)}
    yield Case(group, '4,096 times the word foo, 200 times foo', SCAN, templates(**same), given=b'foo ' * 200, out=re.compile(rb'(-\tS\d+\t\d+\t\d+\t\d+\t\d+\n){819200}'))
    begun = {f'H{k}': f'{variable(".{0,9}")} end{k}' for k in range(2_000)}
    yield Case(group, '2,000 that begin with a variable, 2,000 words', SCAN, templates(**begun), given=b'foo ' * 2_000, **NOTHING)
    yield Case(group, '2,000 that begin with a variable and end alike', SCAN, templates(**{k: v[:v.rindex('end')] + 'end' for k, v in begun.items()}),
               given=b'foo end ' * 50, out=None)
    weights = {f'G{k}': 'x' + variable('.{65535}') + 'y' + variable('.{65530}') for k in range(512)}
    yield Case(group, '512 of the greatest weight', SCAN, templates(**weights), given=b'foo x bar', **NOTHING)


def of_lines():
    """Long lines, long words, long names."""
    group = 'long lines, words and names'
    tokens = ['tokens']
    yield Case(group, 'a line of 4 MiB of marks', tokens, given=b'.,' * (2 << 20), out=None)
    yield Case(group, 'a word of 16 MiB', tokens, given=b'a' * (16 << 20), out=None)
    yield Case(group, '16 MiB of blanks in one line', tokens, given=b' ' * (16 << 20), **NOTHING)
    yield Case(group, '16 MiB of line ends', tokens, given=b'\n' * (16 << 20), **NOTHING)
    yield Case(group, '16 MiB of one mark', tokens, given=b'=' * (16 << 20), **NOTHING)
    yield Case(group, '16 MiB of quotes', tokens, given=b"'\"" * (8 << 20), out=re.compile(rb"-\t0\t16777216\t'\n"))
    yield Case(group, '4 MiB of signs', tokens, given=b'(c)' * (4 << 18), out=re.compile(rb'-\t0\t3145728\tcopyright\n'))
    yield Case(group, '4 MiB of leads', tokens, given=b'/*' * (2 << 20), **NOTHING)
    yield Case(group, '4 MiB of what an item begins with', tokens, given=b'1.' * (2 << 20), out=None)
    yield Case(group, '4 MiB of 80, no UTF-8', tokens, given=b'\x80' * (4 << 20), out=re.compile(rb'-\t0\t4194304\t(\xef\xbf\xbd)+\n'))
    yield Case(group, '4 MiB of U+FB01', tokens, given=b'\xef\xac\x81' * (4 << 18), out=re.compile(rb'-\t0\t3145728\t(fi)+\n'))
    name = 'n' * 250
    yield Case(group, '100,000 tokens of a file with a long name', ['tokens', name], {name: b'a ' * 100_000}, out=None)
    yield Case(group, '10,000 files', SCAN + ['f'] * 10_000, {**templates(A='foo bar'), 'f': b'foo bar'}, out=b'f\tA\t0\t1\t0\t7\n' * 10_000)


def of_lists():
    """Word lists that write much, or join much."""
    group = 'costly word lists'
    long = b'b' * 255
    listed = ['tokens', '--words', 'list']
    yield Case(group, 'a word that becomes 255 bytes, 1 MiB of it', listed, {'list': long + b',a'}, given=b'a ' * (1 << 19), out=None)
    rows = b'\n'.join(b'a%d,a%d' % (k, k + 1) for k in range(2_047))
    yield Case(group, 'a chain of 4,094 phrases', listed, {'list': rows}, given=b'a2047', out=b'-\t0\t5\ta0\n')
    prefixes = b','.join(b' '.join([b'a'] * k) for k in range(1, 9))
    yield Case(group, 'phrases that begin one another, 200,000 words', listed, {'list': prefixes}, given=b'a ' * 200_000, out=re.compile(rb'(-\t\d+\t\d+\ta\n){25000}'))
    ends = b'\n'.join(b'a a a a a a a b%d' % k for k in range(4_096))
    yield Case(group, '4,096 phrases that differ in their last word, 200,000 words', listed, {'list': ends}, given=b'a ' * 200_000, out=None)
    yield Case(group, 'a line of 16 MiB with one comma', listed, {'list': b' ' * (16 << 20) + b','}, status=2, out=b'', err=b'licscan: words: Q1 at line 1: empty phrase\n')
    yield Case(group, 'a phrase of 8 MiB', listed, {'list': b'ab ' * (8 << 18)}, status=2, out=b'', err=b'licscan: words: Q3 at line 1: phrase too long\n')
    yield Case(group, 'a phrase of 4 MiB of signs', listed, {'list': b'(c)' * (4 << 18) + b',x'}, given=b'x', out=b'-\t0\t1\tcopyright\n')


def of_heavy():
    """Inputs as long as they may be: answered, or refused for memory by name."""
    group = 'inputs of 64 MiB'
    most = 64 << 20
    heavy = dict(or_memory=True, seconds=60)
    yield Case(group, 'one line of marks', ['tokens'], given=b'.,' * (most // 2), out=None, **heavy)
    yield Case(group, 'one line of words', ['tokens'], given=b'foo ' * (most // 4), out=None, **heavy)
    yield Case(group, 'lines of words', ['tokens'], given=b'foo bar\n' * (most // 8), out=None, **heavy)
    yield Case(group, 'lines of words, scanned', SCAN, templates(A='foo bar baz'), given=b'foo bar\n' * (most // 8), **NOTHING, **heavy)
    yield Case(group, 'one word of 255 bytes for each', ['tokens', '--words', 'list'], {'list': b'b' * 255 + b',a'}, given=b'a ' * (8 << 20), out=None, **heavy)
    same = {f'S{k}': 'foo' for k in range(4_096)}
    yield Case(group, '4,096 times the word foo, 20,000 words', SCAN, templates(**same), given=b'foo bar ' * 1_000 + b'bar ' * 18_000, out=None, **heavy)


def cases(tools, heavy):
    for group in (of_published, of_texts, of_values, of_weights, of_sets, of_lines, of_lists):
        yield from group()
    if heavy:
        yield from of_heavy()
