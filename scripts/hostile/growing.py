"""Templates, sets and texts in sizes doubled four times: what a search takes little time for if it is linear in each of them."""
import dataclasses, re, resource

from costly import ALL, NOTHING, SCAN, published, variable
from running import GIB, Case, templates

DOUBLINGS = 4
# how many times the seconds a size may take of those of half the size: for a series that is linear, and for one whose answer is a square
LINEAR, SQUARE = 2.6, 4.6
# what any size may take, in seconds: the start of the program, and its templates
LEAST_SECONDS = 0.5
SERIES = []


@dataclasses.dataclass
class Series:
    """Cases of one form. `make` gives the fields of the case of a size, `seconds` are those that the greatest size may take, `growth` how many
    times the seconds a size may take of those of half the size."""
    group: str
    name: str
    least: int
    seconds: float
    growth: float
    make: object

    def sizes(self):
        return [self.least << doubling for doubling in range(DOUBLINGS + 1)]

    def case(self, size):
        seconds = LEAST_SECONDS + self.seconds * size / self.sizes()[-1]
        fields = {'args': SCAN, 'seconds': seconds, 'growth': self.growth, **self.make(size)}
        return Case(self.group, f'{size:,} {self.name}', series=f'{self.group}: {self.name}', **fields)


def series(group, name, least, seconds, *arguments, growth=LINEAR):
    """Adds the cases that a function makes out of these arguments and of a size."""
    def add(make):
        SERIES.append(Series(group, name, least, seconds, growth, lambda size: make(*arguments, size)))
        return make
    return add


def nothing(files, text):
    """No match of these templates in this text."""
    return dict(files=files, given=text.encode(), **NOTHING)


def spelled(number):
    """A word of four letters, another one for each number."""
    return ''.join(chr(ord('a') + number // 26 ** place % 26) for place in range(4))


def numbered(form, count):
    """`count` templates of this form, each with a word of its own in place of `{}`."""
    return templates(**{f'T{number}': form.replace('{}', spelled(number)) for number in range(count)})


def bounded(most, name='v'):
    return variable('.{0,%d}' % most, name)


def optional(text):
    return f'<<beginOptional>>{text}<<endOptional>>'


VALUES = 'values of bounded variables'


def values(variables, most, size):
    """Variables of at most this number of words with the word `q` between them, on a text of `q` alone: the last ones hold what they can."""
    lengths, left = [], size - (variables - 1)
    for _ in range(variables):
        lengths.insert(0, min(most, left))
        left -= lengths[0]
    text = 'x ' + 'q ' * size + 'z'
    lines, start = [f'-\tV\t0\t{size + 1}\t0\t{len(text)}\n'], len('x ')
    for number, length in enumerate(lengths):
        end = start + 2 * length - 1
        lines.append(f'\tv{number}\t{start}\t{end}\t{text[start:end]}\n' if length else f'\tv{number}\t-\n')
        start += 2 * length + len('q ')
    inner = ' q '.join(bounded(2 * most - 1, f'v{number}') for number in range(variables))
    return dict(files=templates(V=f'x {inner} z'), given=text.encode(), out=''.join(lines).encode())


@series(VALUES, 'words for 128 variables', 1_000, 2, 128)
@series(VALUES, 'words for 8 variables', 1_000, 2, 8)
@series(VALUES, 'words for 2 variables', 2_125, 2, 2)
def values_of_four_fifths(variables, size):
    """A text of four fifths of what the variables may hold."""
    return values(variables, -(-5 * size // (4 * variables)), size)


@series(VALUES, 'words for 128 variables of up to 500', 2_000, 3)
def values_of_one_bound(size):
    return values(128, 500, size)


@series(VALUES, 'bullets and words, eight copies of them', 375, 1)
def bullets(count, copies=8):
    template = ' '.join(f'{bounded(14, f"b{number}")} {spelled(number)}' for number in range(count))
    text = ' '.join(f'{number}. {spelled(number)}' for number in range(count))
    out = re.compile(rb'(-\tB(\t\d+){4}\n(\tb\d+\t.*\n){%d}){%d}' % (count, copies))
    return dict(files=templates(B=template), given=f'{text}\n'.encode() * copies, out=out)


@series(VALUES, 'times `of`, x .{0,3N} of .{0,3N} y', 500, 2)
def values_of_sentence(size):
    text = 'x ' + 'w of ' * size + 'y'
    last = len('w of ') * ((3 * size + 1) // len('w of ')) - 1
    start, end = len(text) - len(' y') - last, len(text) - len(' y')
    first_end = start - len(' of ')
    out = f'-\tV\t0\t{2 * size + 1}\t0\t{len(text)}\n\ta\t2\t{first_end}\t{text[2:first_end]}\n\tb\t{start}\t{end}\t{text[start:end]}\n'
    return dict(files=templates(V=f'x {bounded(3 * size, "a")} of {bounded(3 * size, "b")} y'), given=text.encode(), out=out.encode())


SHARED = 'templates that share a text'
SUFFIX = 'is provided as is without any warranty of any kind'


@series(SHARED, 'templates with one suffix, 100 times this suffix', 256, 1)
def one_suffix(count, copies=100):
    return nothing(numbered('{} ' + SUFFIX, count), (SUFFIX + '\n') * copies)


@series(SHARED, 'times the suffix of 4,096 templates', 25, 1)
def one_suffix_often(copies):
    return one_suffix(4_096, copies)


@series(SHARED, 'published templates with one last sentence, on 40 of them', 43, 2)
def one_last_sentence(count):
    files, bodies = published(count, f' {SUFFIX}.')
    found = bodies[:40]
    return dict(files=files, given='\n'.join(found).encode(), out=re.compile(rb'(-\tL\d+(\t\d+){4}\n\tcopyright\t-\n){%d}' % len(found)))


@series(SHARED, 'required texts that share a window, a megabyte of one letter', 125, 8)
def one_window(count, size=1 << 20):
    letters = {f'A{number}': 'b ' + 'a' * (16 + number % 180) + f' c{number}' for number in range(count)}
    return nothing(templates(**letters), 'a' * size)


@series(SHARED, 'letters, 2,000 required texts that share a window', 1 << 16, 8)
def one_window_often(size):
    return one_window(2_000, size)


@series(SHARED, 'required texts that begin with 12 marks, 65,536 marks', 250, 2, 'b ' + '. ' * 12 + '{}', '. ')
@series(SHARED, 'required texts that begin with 24 zeros, 128 KiB of zeros', 250, 3, 'b ' + '0' * 24 + ' {}', '0')
def one_beginning(form, unit, count):
    return nothing(numbered(form, count), unit * ((1 << 17) // len(unit)))


LARGE = 'sets of large templates'


def set_of(size, count, content):
    """A set of `count` templates of this size: at most three bytes of memory a byte of its files."""
    def writer(number):
        def write(path):
            with open(path, 'wb') as it:
                it.write(content(number))
        return write
    files = {f'T/G{number}.template.txt': writer(number) for number in range(count)}
    return dict(files=files, given=b'foo bar', most_memory=3 * size * count + (8 << 20), limits={resource.RLIMIT_AS: 2 * GIB}, **NOTHING)


@series(LARGE, 'templates of 65,000 letters', 256, 30)
def large_texts(count):
    letters = ' '.join(map(spelled, range(13_000))).encode() + b' '
    return set_of(65_000, count, lambda number: letters[5 * number:] + letters[:5 * number])


@series(LARGE, 'templates with an original of a megabyte', 16, 8)
def large_originals(count):
    original = 'word ' * 200_000
    return set_of(1_000_000, count, lambda number: f'{spelled(number)} {variable(".*", original=original)} end'.encode())


HEAVY = 'heavy patterns'
ALTERNATIVES = variable('(' + '|'.join(map(spelled, range(26_000))) + ')')


@series(HEAVY, 'KiB, 32 templates of 26,000 alternatives', 8, 6, f'{{}} x {ALTERNATIVES} y', 32)
@series(HEAVY, 'KiB, 26,000 alternatives after two words', 8, 2, f'x y {ALTERNATIVES}', 1)
@series(HEAVY, 'KiB, 26,000 alternatives between two words', 8, 2, f'x {ALTERNATIVES} y', 1)
def alternatives(form, count, size):
    """Each word of the templates is in the text over and over, never in their order."""
    unit = ' '.join(['x', spelled(size), spelled(25_999), 'y x y q', *map(spelled, range(count))]) + '\n'
    return nothing(numbered(form, count), unit * (1024 * size // len(unit)))


@series(HEAVY, 'letters, (a|a|..)* with 100,000 alternatives', 250, 1)
def many_ways(size):
    text = f'x {"a" * size} y'
    files = templates(R=f'x {variable("(" + "|".join("a" * 100_000) + ")*")} y')
    return dict(files=files, given=text.encode(), out=f'-\tR\t0\t2\t0\t{len(text)}\n\tv\t2\t{size + 2}\t{"a" * size}\n'.encode())


def in_rows(files, words, copies):
    """`copies` rows `x a .. a y` are the matches of a template without a variable."""
    row = 'x ' + 'a ' * words + 'y\n'
    lines = (f'-\tO\t{at * (words + 2)}\t{at * (words + 2) + words + 1}\t{at * len(row)}\t{at * len(row) + len(row) - 1}\n' for at in range(copies))
    return dict(files=files, given=(row * copies).encode(), out=''.join(lines).encode())


@series(HEAVY, 'times optional parts 64 deep, 20 matches', 6, 4)
def deep(count, copies=20):
    nested = ('<<beginOptional>>a ' * 64 + '<<endOptional>>' * 64) * count
    return in_rows(templates(O=f'x {nested}y'), 200, copies)


@series(HEAVY, 'matches, optional parts 64 deep', 5, 4)
def deep_often(copies):
    return deep(24, copies)


@series(HEAVY, 'optional words, a match of 1,000', 1_125, 3)
def optional_row(count, words=1_000):
    return in_rows(templates(O=f'x {optional("a ") * count}y'), words, 1)


@series(HEAVY, 'words in a match of 9,000 optional ones', 500, 6)
def optional_row_often(words):
    return optional_row(9_000, words)


WIDE = 'wide variables'
TWO_WIDE = f'{{}} {bounded(65_535, "a")} y {bounded(65_520, "b")} z'


@series(WIDE, 'times y z, 16 of W .{0,65535} y .{0,65520} z', 1_250, 1)
def two_wide_often(size, count=16):
    return nothing(numbered(TWO_WIDE, count), 'y z ' * size)


@series(WIDE, 'of W .{0,65535} y .{0,65520} z, 20,000 words', 4, 1)
def two_wide(count):
    return two_wide_often(10_000, count)


@series(WIDE, 'times y z after the first words of these 16', 1_250, 1)
def two_wide_begun(size):
    text = ' '.join(map(spelled, range(16))) + ' ' + 'y z ' * size
    start, end = len(spelled(0) + ' '), text.index(' y z')
    out = f'-\tT0\t0\t17\t0\t{end + 4}\n\ta\t{start}\t{end}\t{text[start:end]}\n\tb\t-\n'
    return dict(files=numbered(TWO_WIDE, 16), given=text.encode(), out=out.encode())


@series(WIDE, 'of W .{0,4000} a, 20,000 words', 16, 1)
def one_wide(count):
    return nothing(numbered(f'{{}} {bounded(4_000)} a', count), 'a ' * 20_000)


@series(WIDE, 'nested a .+ b', 256, 2)
def nested(count):
    files = templates(**{f'N{number}': f'a{spelled(number)} {variable(".+")} b{spelled(number)}' for number in range(count)})
    ends = [' '.join(side + spelled(number) for number in range(count)[::step]) for side, step in (('a', 1), ('b', -1))]
    text = ' '.join(ends)
    start, end = len('aaaaa '), len(text) - len(' baaaa')
    return dict(files=files, given=text.encode(), out=f'-\tN0\t0\t{2 * count - 1}\t0\t{len(text)}\n\tv\t{start}\t{end}\t{text[start:end]}\n'.encode())


@series(WIDE, 'of W [200 letters]{0,30} y, 30 KB', 64, 1)
def of_letters(count):
    letters = [chr(0x4E00 + number) for number in range(200)]
    words = (''.join(letters[(at + step) % 200] for step in range(12)) for at in range(770))
    return nothing(numbered(f'{{}} {variable("[" + "".join(letters) + "]{0,30}")} y', count), ' y '.join(words) + ' y')


@series(WIDE, 'words, .{1,500} first', 12_500, 1, variable('.{1,500}') + ' without any warranty')
@series(WIDE, 'words, .{0,5000} last', 12_500, 1, f'without any warranty {bounded(5_000)}')
@series(WIDE, 'words, .{0,5000} first', 12_500, 1, f'{bounded(5_000)} without any warranty')
def at_an_end(template, size):
    """A sentence in every hundredth line of ten words, and half of it in the others."""
    line = ' '.join(map(spelled, range(8)))
    text = ''.join(f'{line} without {"any warranty" if number % 100 == 99 else "any"}\n' for number in range(size // 10))
    return dict(files=templates(W=template), given=text.encode(), out=re.compile(rb'(-\tW(\t\d+){4}\n\tv\t.*\n){%d}' % (size // 1_000)))


@series('all matches', 'times foo .+ bar [a-z ]{3,40} baz: its square, halved', 50, 5, growth=SQUARE)
def all_matches(copies):
    row, tokens = 'foo one bar two baz three ', 6
    pairs = ((first, last) for first in range(copies) for last in range(first, copies))
    lines = (f'-\tF\t{first * tokens}\t{last * tokens + 4}\t{first * len(row)}\t{last * len(row) + 19}\n' for first, last in pairs)
    files = templates(F=f'foo {variable(".+")} bar {variable("[a-z ]{3,40}")} baz')
    return dict(args=ALL, files=files, given=(row * copies).encode(), out=''.join(lines).encode())


def cases(tools, heavy):
    for it in SERIES:
        for size in it.sizes():
            yield it.case(size)
