"""Values of variables in long texts, and where the same text could be read in very many ways."""
from harness import Case, templates

SCAN = ['scan', '--templates', 'T']
LOREM = b'lorem '


def variable(name, pattern):
    return b'<<var;name="%s";original="p";match="%s">>' % (name, pattern)


def template_part(number):
    """A tenth of the template: a text, an optional part, and in each third one a variable."""
    part = LOREM * 95 + b'<<beginOptional>>extra <<endOptional>>'
    return part + variable(b'v%d' % number, b'.{1,5000}') + b' end ' if number % 3 == 2 else part


def text_part(number):
    """A tenth of the text: in each second one what is optional, and in each third one a value of 99 letters and blanks."""
    return LOREM * 95 + (b'extra ' if number % 2 else b'') + (b'name ' * 20 + b'end ' if number % 3 == 2 else b'')


def lines(last, end, *values):
    """The lines of a match of `L` from the first token on, and of its variables."""
    return b'-\tL\t0\t%d\t0\t%d\n' % (last, end) + b''.join(b'\t%s\t%d\t%d\t%s\n' % (name, start, start + len(value), value) for name, start, value in values)


NAMES = b' '.join([b'name'] * 20)
# templates, texts and lines
ROWS = [
    # 950 words, five of what is optional, and three values of 20 words, each with an end; the match does without the last word, which is optional
    ('three variables and ten optional parts in 5,024 letters', b''.join(map(template_part, range(10))), b''.join(map(text_part, range(10))),
     lines(1016, 6035, (b'v2', 1716, NAMES), (b'v5', 3542, NAMES), (b'v8', 5362, NAMES))),
    ('one variable after 30,000 letters', LOREM * 6000 + variable(b'v', b'.+') + b' stop', LOREM * 6000 + b'the end stop',
     lines(6002, 36012, (b'v', 36000, b'the end'))),
    ('plain text of 30,000 letters has no value', LOREM * 6000, LOREM * 6000, lines(5999, 35999)),
    ('nested repetitions take 200 letters', b'x ' + variable(b'v', b'((a*)*)*') + b' y', b'x ' + b'a' * 200 + b' y', lines(2, 204, (b'v', 2, b'a' * 200))),
]

CASES = [Case(name, SCAN, templates(L=template), given=text, out=out) for name, template, text, out in ROWS]
