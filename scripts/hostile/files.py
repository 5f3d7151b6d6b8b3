"""Word lists, rules, template folders and files that are odd: their names, what they are instead of a file, and what they hold."""
import os, re, socket, threading

from costly import ALL, SCAN
from running import Case, templates

FOO = templates(A='foo bar')
FOUND = b'\tA\t0\t1\t0\t7\n'
UNREADABLE = b'cannot be read\n'


def folder(path):
    os.mkdir(path)


def fifo(path):
    os.mkfifo(path)


def fed_fifo(path):
    """A pipe into which someone writes `foo bar`, once it is read."""
    os.mkfifo(path)

    def feed():
        with open(path, 'wb') as it:
            it.write(b'foo bar')
    threading.Thread(target=feed, daemon=True).start()


def link_to(target):
    return lambda path: os.symlink(target, path)


def listening(path):
    """A socket; the path may be too long for one, so it is made next to it."""
    here = os.getcwd()
    os.chdir(os.path.dirname(path))
    try:
        with socket.socket(socket.AF_UNIX) as it:
            it.bind(os.path.basename(path))
    finally:
        os.chdir(here)


def without_rights(path):
    with open(path, 'wb') as it:
        it.write(b'foo bar')
    os.chmod(path, 0)


NO_FILES = {
    'a folder': folder, 'a link to itself': lambda path: os.symlink(os.path.basename(path), path), 'a link to nothing': link_to('none'),
    'a link to a folder': link_to('/'), 'a socket': listening, 'a file without rights': without_rights,
}


def of_templates():
    """What may be in a folder of templates, or in its place."""
    group = 'template folders'
    for name, make in {**NO_FILES, 'a pipe': fifo, 'a link to /dev/zero': link_to('/dev/zero'), 'a link to a terminal': link_to('/dev/tty')}.items():
        yield Case(group, f'{name} for a template', ALL, {**FOO, 'T/N.template.txt': make}, given=b'foo bar', status=2, out=b'-' + FOUND,
                   err=b'licscan: template N: ' + UNREADABLE, as_nobody='rights' in name)
        if name not in ('a link to a folder', 'a folder'):
            yield Case(group, f'{name} for the folder', ['scan', '--templates', 'N'], {'N': make}, status=2, out=b'',
                       err=b'licscan: templates: cannot be listed\n', as_nobody='rights' in name)
    yield Case(group, 'a folder without rights', SCAN, FOO, lambda it: os.chmod(os.path.join(it, 'T'), 0), status=2, out=b'',
               err=b'licscan: templates: cannot be listed\n', as_nobody=True)
    yield Case(group, 'a folder that can be listed, and whose files cannot be opened', SCAN, FOO, lambda it: os.chmod(os.path.join(it, 'T'), 0o444), given=b'foo bar', status=2, out=b'',
               err=b'licscan: template A: ' + UNREADABLE, as_nobody=True)
    yield Case(group, 'no folder', SCAN, status=2, out=b'', err=b'licscan: templates: cannot be listed\n')
    yield Case(group, 'the empty name', ['scan', '--templates', ''], status=2, out=b'', err=b'licscan: templates: cannot be listed\n')
    yield Case(group, 'a name of 100,000 bytes', ['scan', '--templates', 'T' * 100_000], status=2, out=b'', err=b'licscan: templates: cannot be listed\n')
    yield Case(group, 'an empty folder', SCAN, prepare=lambda it: os.mkdir(os.path.join(it, 'T')), given=b'foo', status=1, out=b'')
    yield Case(group, 'a pipe of another name', ALL, {**FOO, 'T/pipe': fifo, 'T/.template.txt': fifo}, given=b'foo bar', out=b'-' + FOUND)
    yield Case(group, '20,000 other files', ALL, {**FOO, **{f'T/{k}.txt': b'' for k in range(20_000)}}, given=b'foo bar', out=b'-' + FOUND)
    yield Case(group, 'a link to a template', ALL, {'T/A.template.txt': link_to('../a'), 'a': b'foo bar'}, given=b'foo bar', out=b'-' + FOUND)
    for what, held, fault in (('nothing', b'', 'M10 at 0: no letter in it'), ('NUL', b'\0', None), ('a byte order mark', b'\xef\xbb\xbf', 'M10 at 0: no letter in it'),
                              ('<<', b'<<', None), ('<<var', b'<<var', 'M1 at 0: rule not closed'), ('<<endOptional>>', b'<<endOptional>>', 'M2 at 0: end without begin'),
                              ('UTF-16', 'foo'.encode('utf-16'), 'not UTF-8 at byte 0'), ('a surrogate', b'a\xed\xa0\x80', 'not UTF-8 at byte 1')):
        yield Case(group, f'a template that holds {what}', ['check', '--templates', 'T'], {'T/N.template.txt': held}, status=2 if fault else 0,
                   out=b'' if fault else re.compile(rb'N\t\d\tyes\n'), err=f'licscan: template N: {fault}\n'.encode() if fault else b'')


def of_names():
    """Names with line ends, tabs and backslashes in them, names that are no UTF-8, long names."""
    group = 'names of files and templates'
    for name, shown in ((b'a\nb', b'a\\nb'), (b'a\tb', b'a\\tb'), (b'a\rb', b'a\\rb'), (b'a\\b', b'a\\\\b'), (b'\x1b[31m', b'\x1b[31m'), (b' ', b' '), (b'..x', b'..x'),
                        ('\u202e\ufeff'.encode(), '\u202e\ufeff'.encode()), (b'n' * 255, b'n' * 255), (b'-x', b'./-x')):
        given = b'./-x' if name == b'-x' else name
        yield Case(group, f'a file named {name[:12]!r}', ALL + [given], {**FOO, name: b'foo bar'}, out=shown + FOUND)
        if len(name) < 200:
            path = b'T/' + name + b'.template.txt'
            shown = name if name == b'-x' else shown
            yield Case(group, f'a template named {name[:12]!r}', ALL, {path: b'foo bar'}, given=b'foo bar', out=b'-\t' + shown + b'\t0\t1\t0\t7\n')
            yield Case(group, f'a refused template named {name[:12]!r}', SCAN, {path: b' '}, given=b'foo bar', status=2, out=b'',
                       err=b'licscan: template ' + shown + b': M10 at 0: no letter in it\n')
    yield Case(group, 'a file name that is no UTF-8', ALL + [b'\xff'], {**FOO, b'\xff': b'foo bar'}, status=2, out=b'', err=b'licscan: argument 5 is not UTF-8\n')
    yield Case(group, 'template names that are no UTF-8', ALL, {**FOO, b'T/\xff.template.txt': b'x', b'T/\xc3': b'x'}, given=b'foo bar', status=2, out=b'-' + FOUND,
               err=b'licscan: templates: a file name is not UTF-8\n' * 2)
    yield Case(group, 'an identifier of --after with a line end', ALL + ['--after', '0:0:a\nb'], FOO, given=b'foo bar', status=2, out=b'',
               err=b'licscan: --after: no template a\\nb\n')
    yield Case(group, 'the empty file name', ALL + [''], FOO, status=2, out=b'', err=b'licscan: : ' + UNREADABLE)


def of_inputs():
    """What may be in the place of an input."""
    group = 'inputs that are no files'
    for name, make in NO_FILES.items():
        if name != 'a link to a folder':
            yield Case(group, name, ALL + ['N', 'good'], {**FOO, 'N': make, 'good': b'foo bar'}, status=2, out=b'good' + FOUND,
                       err=b'licscan: N: ' + UNREADABLE, as_nobody='rights' in name)
    yield Case(group, 'a pipe', ALL + ['N'], {**FOO, 'N': fed_fifo}, out=b'N' + FOUND)
    for path, status, err in (('/dev/null', 1, b''), ('/dev/zero', 2, b'licscan: /dev/zero: X2: more than 67108864 bytes\n'),
                              ('/proc/self/mem', 2, b'licscan: /proc/self/mem: ' + UNREADABLE), ('/', 2, b'licscan: /: ' + UNREADABLE),
                              ('n' * 256, 2, b'licscan: ' + b'n' * 256 + b': ' + UNREADABLE), ('good/x', 2, b'licscan: good/x: ' + UNREADABLE)):
        yield Case(group, path[:20], ALL + [path], {**FOO, 'good': b'foo bar'}, status=status, out=b'', err=err, or_memory=path == '/dev/zero')
    yield Case(group, 'standard input twice', ALL + ['-', '-'], FOO, given=b'foo bar', out=b'-' + FOUND)
    yield Case(group, 'the template itself', ALL + ['T/A.template.txt'], FOO, out=b'T/A.template.txt' + FOUND)


def of_lists():
    """Word lists and rules that are no files, or hold anything."""
    group = 'word lists and rules'
    for option in ('words', 'rules'):
        args = ['tokens', f'--{option}', 'N', '-']
        for name, make in NO_FILES.items():
            yield Case(group, f'{name} for --{option}', args, {'N': make}, given=b'x', status=2, out=b'', err=f'licscan: {option}: '.encode() + UNREADABLE,
                       as_nobody='rights' in name)
        yield Case(group, f'/dev/zero for --{option}', ['tokens', f'--{option}', '/dev/zero'], status=2, out=b'', err=f'licscan: {option}: '.encode() + UNREADABLE)
        yield Case(group, f'/dev/null for --{option}', ['tokens', f'--{option}', '/dev/null'], given=b'x', out=b'-\t0\t1\tx\n')
        for held, at in ((b'\xff', 0), (b'# \xc3', 2), (b'lead x\n' + b'\xed\xa0\x80', 7), (b'a\xf4\x90\x80\x80', 1)):
            yield Case(group, f'{held!r} for --{option}', args, {'N': held}, given=b'x', status=2, out=b'', err=f'licscan: {option}: not UTF-8 at byte {at}\n'.encode())
    words = ['tokens', '--words', 'N']
    for held, fault in ((b'', None), (b'\n\n \t\n', None), (b'# \n#,,\n', None), (b',', 'Q1 at line 1: empty phrase'), (b'a,\n', 'Q1 at line 1: empty phrase'),
                        (b'x\n===\n', 'Q1 at line 2: empty phrase'), (b'\xef\xbb\xbfa,b', None), (b'\0,\0\0', None), (b'a\r\nb\r\n', None), (b'\xc2\xad\n', None),
                        (b'\xc2\xad,a\n', 'Q1 at line 1: empty phrase'), (b'a b,a b,a  b', None), (b'(c),copyright', None), (b'https://,http://', None), (b'\n' * 5 + b'//,', 'Q1 at line 6: empty phrase')):
        yield Case(group, f'the word list {held[:20]!r}', words, {'N': held}, given=b'x', status=2 if fault else 0, out=b'' if fault else b'-\t0\t1\tx\n',
                   err=f'licscan: words: {fault}\n'.encode() if fault else b'')
    rules = ['tokens', '--rules', 'N']
    for held, fault in ((b'', None), (b'# x\n \n', None), (b'lead', 'L2 at line 1: bad text'), (b'\nlead a b', 'L2 at line 2: bad text'), (b'LEAD x', 'L1 at line 1: unknown rule'),
                        (b'items', 'L1 at line 1: unknown rule'), (b'items ON', 'L1 at line 1: unknown rule'), (b'\xef\xbb\xbflead x', 'L1 at line 1: unknown rule'),
                        (b'lead \xc2\xad', 'L2 at line 1: bad text'), (b'lead \0', None), (b'items on\r\nitems off\r\n', None), (b'leadx', 'L1 at line 1: unknown rule'),
                        (b'tail-repeat x\ntail-space x\nlead-space x\ntail x\nlead x', None)):
        yield Case(group, f'the rules {held[:20]!r}', rules, {'N': held}, given=b'a', status=2 if fault else 0, out=b'' if fault else b'-\t0\t1\ta\n',
                   err=f'licscan: rules: {fault}\n'.encode() if fault else b'')


def cases(tools, heavy):
    for group in (of_templates, of_names, of_inputs, of_lists):
        yield from group()
