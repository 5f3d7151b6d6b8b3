"""Cases of the line that says how far the work on many files is."""
from harness import Case

CLEAR = b'\r\x1b[K'
SHOWN = [b'%s%d of 20 files' % (CLEAR, done) for done in range(20)]
# each of the files is the one input, which is read to its end for the first
TOKENS = ['tokens', *['-'] * 20]
LINE = b'-\t0\t3\tfoo\n'

CASES = [
    Case('many files are counted in one line that is gone at the end', TOKENS, given=b'foo', out=LINE, err=b''.join(SHOWN) + CLEAR, at_terminal=True),
    Case('nothing is counted where nobody waits', TOKENS, given=b'foo', out=LINE),
    Case('few files are not counted', TOKENS[:-1], given=b'foo', out=LINE, at_terminal=True),
    Case('the line is gone before a file is reported', [*TOKENS[:-1], 'none'], given=b'foo', status=2, out=LINE,
         err=b''.join(SHOWN) + CLEAR + b'licscan: none: cannot be read\n' + CLEAR, at_terminal=True),
]
