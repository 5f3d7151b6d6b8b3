"""Cases in short form, and the lines of output that they mean."""
import re

from harness import Case, templates

ALL = ['scan', '--all', '--templates', 'T']
CHECK = ['check', '--templates', 'T']


def token_lines(shown):
    """The lines of tokens of standard input, each of which is given as `TEXT START-END, `."""
    return ''.join(f'-\t{start}\t{end}\t{text}\n' for text, start, end in re.findall(r'(.+?) (\d+)-(\d+), ', shown, re.S)).encode()


def of_tokens(name, given, shown, options=(), files=None):
    """A run of `tokens` on an input, whose tokens are given in short form."""
    given = given if isinstance(given, bytes) else given.encode()
    out = token_lines(shown)
    return Case(f'{name}: {given[:60]}', ['tokens', *options], files or {}, given=given, status=0 if out else 1, out=out)


def joined(rows):
    """Lines with their tokens as one text, with its tokens."""
    text, shown = '', ''
    for line, tokens in rows:
        at = len(text.encode())
        shown += re.sub(r' (\d+)-(\d+), ', lambda match: f' {int(match[1]) + at}-{int(match[2]) + at}, ', tokens)
        text += line + '\n'
    return text, shown


def folder_of(texts):
    """The files of a folder of templates, which are numbered in this order; the folder alone where there is none."""
    return templates(**{str(k): text.encode() for k, text in enumerate(texts)}) or {'T': None}


def match_lines(shown, given):
    """The lines of matches in a text of words with white space between, each of which is given as `FIRST-LAST-TEMPLATE `."""
    words = [match.span() for match in re.finditer(rb'\S+', given.encode())]
    rows = [[int(number) for number in row.split('-')] for row in shown.split()]
    return ''.join(f'-\t{id}\t{first}\t{last}\t{words[first][0]}\t{words[last][1]}\n' for first, last, id in rows).encode()


def of_matches(name, texts, given, shown, options=()):
    """A run of `scan --all` with templates that are numbered, whose matches are given in short form."""
    out = match_lines(shown, given)
    return Case(f'{name}: {texts}, {given}', [*ALL, *options], folder_of(texts), given=given.encode(), status=0 if out else 1, out=out)


def of_weight(name, text, weight, is_described=True):
    """A run of `check` on one template: its weight, and whether it describes its original text."""
    out = f'L\t{weight}\t{"yes" if is_described else "no"}\n'.encode()
    return Case(f'{name}: {text[:60]}', CHECK, templates(L=text.encode()), status=0 if is_described else 1, out=out)


def of_fault(name, text, fault):
    """A run of `check` on a template that is refused."""
    text = text if isinstance(text, bytes) else text.encode()
    return Case(f'{name}: {text[:60]}', CHECK, templates(L=text), status=2, err=f'licscan: template L: {fault}\n'.encode())
