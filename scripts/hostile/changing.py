"""Reads and writes that fail or move one byte, each in turn, and files that grow or shrink while they are read."""
import errno, itertools, os, re

from costly import ALL
from harness import preloaded
from running import Case, run, templates

FILES = {**templates(A='foo bar', B='foo <<var;name="w";original="bar";match="[a-z]+">>'), 'rules': b'lead @@\n', 'list': b'bar, barr\n',
         'f': b'foo bar ' * 5_000, 'g': b'@@ foo barr'}
LOADED = ['--templates', 'T', '--rules', 'rules', '--words', 'list', 'f', 'g']
COMMANDS = {'scan': ['scan', *LOADED], 'scan --all': ['scan', '--all', *LOADED], 'check': ['check', *LOADED[:6]], 'tokens': ['tokens', *LOADED[2:]]}
UNREAD = re.compile(rb'licscan: (rules|words|template A|template B|f|g): cannot be read\n')
UNWRITTEN = b'licscan: standard output: cannot be written\n'
FAILURES = (errno.EIO, errno.EINTR, errno.EAGAIN)


class Lines:
    """Bytes that are some of these lines, in their order."""

    def __init__(self, whole):
        self.lines = whole.splitlines(keepends=True)

    def fullmatch(self, came):
        left = iter(self.lines)
        return all(line in left for line in came.splitlines(keepends=True))


class Beginning:
    """Bytes with which these begin."""

    def __init__(self, whole):
        self.whole = whole

    def fullmatch(self, came):
        return self.whole.startswith(came)


def counted(tools, built, args, call):
    """What a whole run writes, and how many calls of that kind it makes."""
    count = os.path.join(tools, 'count')
    env = {'LD_PRELOAD': built, 'MEDDLE_CALL': call, 'MEDDLE_COUNT': count}
    ran = run(os.path.join(tools, 'licscan'), Case('', '', args, FILES, start={'env': env}))
    with open(count) as it:
        return ran, int(it.read())


def of_calls(tools, built):
    """Each read and each write fails in turn, or moves one byte."""
    for (name, args), call in itertools.product(COMMANDS.items(), ('read', 'write')):
        whole, calls = counted(tools, built, args, call)
        for at in range(1, calls + 1):
            env = {'LD_PRELOAD': built, 'MEDDLE_CALL': call, 'MEDDLE_AT': str(at)}
            yield Case(f'{call}s that move one byte', f'{name}, {call} {at} of {calls}', args, FILES, status=whole.status, out=whole.out,
                       start={'env': {**env, 'MEDDLE_WITH': 'one'}})
            for failure in FAILURES if call == 'read' else (*FAILURES, errno.ENOSPC, 0):
                out, err = (Lines(whole.out), UNREAD) if call == 'read' else (Beginning(whole.out), UNWRITTEN)
                yield Case(f'{call}s that fail', f'{name}, {call} {at} of {calls}, {errno.errorcode.get(failure, "takes none")}', args, FILES, status=2,
                           out=out, err=err, start={'env': {**env, 'MEDDLE_WITH': str(failure) if failure else 'none'}})


def of_changes(built):
    """A file of 100,000 bytes that has another size before each of its reads: what was read is read, and no more."""
    held, tokens = b'ab cd\n' * 16_666, 2 * 16_666
    for at, size in itertools.product(range(1, 9), (0, 1, 20_000, 50_000, 99_999, 150_000)):
        env = {'LD_PRELOAD': built, 'MEDDLE_CALL': 'read', 'MEDDLE_AT': str(at), 'MEDDLE_WITH': 'size', 'MEDDLE_FILE': 'f', 'MEDDLE_SIZE': str(size)}
        yield Case('files that grow or shrink as they are read', f'{size} bytes before read {at}', ['tokens', 'f'], {'f': held}, status=(0, 1),
                   out=re.compile(rb'(f\t\d+\t\d+\t(ab|cd?|a)\n){0,%d}(f\t\d+\t\d+\t\0+\n)?' % tokens), start={'env': env})
    for size in (0, 3, 1_048_576, 1_048_577):
        env = {'LD_PRELOAD': built, 'MEDDLE_CALL': 'read', 'MEDDLE_AT': '1', 'MEDDLE_WITH': 'size', 'MEDDLE_FILE': 'T/A.template.txt', 'MEDDLE_SIZE': str(size)}
        fault = {0: b'M10 at 0: no letter in it', 1_048_576: b'M9 at 0: weight over 131072', 1_048_577: b'M11 at 0: more than 1048576 bytes'}.get(size)
        yield Case('files that grow or shrink as they are read', f'a template of {size} bytes', ALL, templates(A='foo bar'), given=b'foo', status=2 if fault else 0,
                   out=b'' if fault else b'-\tA\t0\t0\t0\t3\n', err=b'licscan: template A: ' + fault + b'\n' if fault else b'', start={'env': env})


def cases(tools, heavy):
    built = preloaded(os.path.join(os.path.dirname(os.path.abspath(__file__)), 'meddle.c'), tools)
    yield from of_calls(tools, built)
    yield from of_changes(built)
