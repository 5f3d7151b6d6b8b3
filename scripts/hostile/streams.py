"""Standard streams that are closed, full or broken; few handles, a limit on the size of files, little memory."""
import os, resource

from costly import ALL, SCAN, variable
from running import Case, templates

FOO = templates(A='foo bar')
TWO = templates(A='foo bar', B='foo <<var;name="w";original="bar";match="[a-z]+">>')
LINE = b'-\tA\t0\t1\t0\t7\n'
REPORT = LINE + b'-\tB\t0\t1\t0\t7\n\tw\t4\t7\tbar\n'
UNWRITTEN = b'licscan: standard output: cannot be written\n'
COMMANDS = {'scan': ALL, 'check': ['check', '--templates', 'T'], 'tokens': ['tokens'], '--help': ['--help'], '--version': ['--version']}


def of_closed():
    group = 'closed and full streams'
    for name, args in COMMANDS.items():
        for start in ({'stdout': ('/dev/full', os.O_WRONLY)}, {'closed': (1,)}, {'stdout': ('/dev/null', os.O_RDONLY)}):
            yield Case(group, f'{name}, standard output {start}', args, FOO, given=b'foo bar', status=2, err=UNWRITTEN, start=start)
    for start in ({'closed': (0,)}, {'stdin': ('/dev/null', os.O_WRONLY)}, {'stdin': ('/', os.O_RDONLY)}):
        yield Case(group, f'standard input {start}', ALL, FOO, status=2, out=b'', err=b'licscan: -: cannot be read\n', start=start)
        yield Case(group, f'a file, standard input {start}', ALL + ['f'], {**FOO, 'f': b'foo bar'}, out=b'f' + LINE[1:], start=start)
    for start in ({'closed': (2,)}, {'stderr': ('/dev/full', os.O_WRONLY)}, {'stderr': ('/dev/null', os.O_RDONLY)}):
        yield Case(group, f'standard error {start}', ALL + ['none', 'f'], {**FOO, 'f': b'foo bar'}, status=2, out=b'f' + LINE[1:], start=start)
        yield Case(group, f'a refused option, standard error {start}', ['scan', '--unknown'], status=2, out=b'', start=start)
    yield Case(group, 'all closed', ALL + ['f'], {**FOO, 'f': b'foo bar'}, status=2, out=b'', start={'closed': (0, 1, 2)})
    yield Case(group, 'all closed, an option refused', ['--unknown'], status=2, out=b'', start={'closed': (0, 1, 2)})


def of_size():
    """A file that takes k bytes and then no more."""
    group = 'an output that takes k bytes'
    for size in range(len(REPORT) + 1):
        whole = size == len(REPORT)
        yield Case(group, f'{size} bytes', SCAN, TWO, given=b'foo bar', status=0 if whole else 2, out=REPORT[:size], err=None,
                   limits={resource.RLIMIT_FSIZE: size}, start={'stderr': ('/dev/null', os.O_WRONLY)})
    long = b'foo bar ' * 20_000
    for size in (65_535, 65_536, 65_537, 200_000):
        yield Case(group, f'{size} bytes of a long report', ALL, FOO, given=long, status=2, out=None, err=None, limits={resource.RLIMIT_FSIZE: size},
                   start={'stderr': ('/dev/null', os.O_WRONLY)})


def of_handles():
    """Few file handles."""
    group = 'few file handles'
    for most in (4, 5, 6):
        yield Case(group, f'{most} handles', ALL + ['f', '-'], {**FOO, 'f': b'foo bar'}, given=b'foo bar', out=b'f' + LINE[1:] + LINE,
                   limits={resource.RLIMIT_NOFILE: most})


def of_address_space():
    """Less and less address space: a run ends well, or says that memory ran out."""
    group = 'limits of address space'
    chosen = templates(A='foo bar', W=f'x {variable(".{0,5000}")} of {variable("(a|b){30000}")} y', O='q' + '<<beginOptional>> z<<endOptional>>' * 2_000)
    text = b'foo bar x ab of ab y q z z z ' * 40 + b'foo bar ' * 20_000
    for mib in (4, 5, 6, 7, 8, 10, 12, 16, 20, 24, 32, 48, 64, 128, 256):
        for name, args in (('scan', SCAN), ('scan --all', ALL), ('check', ['check', '--templates', 'T']), ('tokens', ['tokens'])):
            yield Case(group, f'{name} in {mib} MiB', args, chosen, given=text, status=(0, 1), or_memory=True, limits={resource.RLIMIT_AS: mib << 20})


def cases(tools, heavy):
    for group in (of_closed, of_size, of_handles, of_address_space):
        yield from group()
