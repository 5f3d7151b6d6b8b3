"""What all trials share: a command is run on its input, what comes of it is compared with what is expected, and bad ones are counted.

`./dev STEP` puts this module on the path of the script that it runs.
"""
import argparse, contextlib, dataclasses, difflib, errno, os, pty, re, shutil, signal, subprocess, sys, tempfile, threading, tty

TOP = os.path.dirname(os.path.dirname(os.path.realpath(__file__)))
PROGRAM = os.path.join(TOP, 'crates', 'licscan', 'out', 'licscan')
TEMPLATES = os.path.join(TOP, 'examples', 'templates')
# the version, which this source alone says
with open(os.path.join(TOP, 'crates', 'lic_arguments', 'src', 'command_line.rt'), encoding='utf-8') as command_line:
    VERSION = re.search(r'VERSION: &str = "(.+)"', command_line.read())[1]
# by what name ./dev runs the trial
STEP = ''
# the whole environment of a command, if none is handed in
ENVIRONMENT = {'PATH': '/usr/bin:/bin', 'LC_ALL': 'C'}
# how long a run may take before it is ended, with status -9
SECONDS = 60
# how many lines of a difference are shown, each to this width
LINES, WIDTH = 20, 200


@dataclasses.dataclass
class Case:
    """A run of the program in a folder of its own, and what is expected of it, byte for byte.

    `files` are what the folder holds, as `lay` takes it. `stdin` and `stdout` name a file that is the input or the output. With
    `at_terminal`, standard error is a terminal.
    """
    name: str
    args: list
    files: dict = dataclasses.field(default_factory=dict)
    given: bytes = b''
    status: int = 0
    out: bytes = b''
    err: bytes = b''
    stdin: str = ''
    stdout: str = ''
    at_terminal: bool = False


@dataclasses.dataclass
class Ran:
    """What came of a run: the status, the bytes that were written, processor seconds, and the most bytes of memory that it took."""
    status: int
    out: bytes
    err: bytes
    seconds: float = 0
    memory: int = 0


def templates(**texts):
    """The files of a folder `T` with these templates."""
    return {f'T/{id}.template.txt': text if isinstance(text, bytes) else text.encode() for id, text in texts.items()}


def lay(folder, files):
    """Makes files in a folder, by their paths in it: of bytes, of text, or by a function that gets the path. None makes a folder."""
    for name, held in files.items():
        path = os.path.join(os.fsencode(folder), os.fsencode(name))
        os.makedirs(path if held is None else os.path.dirname(path), exist_ok=True)
        if callable(held):
            held(path)
        elif held is not None:
            with open(path, 'wb') as it:
                it.write(held if isinstance(held, bytes) else held.encode())


@contextlib.contextmanager
def folder_of(files):
    """A new folder that holds these files, as long as it is needed."""
    with tempfile.TemporaryDirectory(prefix='licscan-trial-', ignore_cleanup_errors=True) as folder:
        lay(folder, files)
        yield folder


def read_all(reader):
    """What comes from the other end of a terminal until it is closed."""
    came = b''
    while True:
        try:
            piece = os.read(reader, 65_536)
        except OSError as error:
            # (so a terminal ends)
            if error.errno != errno.EIO:
                raise
            return came
        if not piece:
            return came
        came += piece


def ended(pid):
    """Waits for a child: its status, what it used, and the most bytes of memory that it took."""
    _, status, used = os.wait4(pid, 0)
    return status, used, used.ru_maxrss * 1024


class Streams:
    """The standard streams of a run: files, a path that takes the place of one, or a terminal for standard error."""

    def __init__(self, folder, given, paths, at_terminal):
        self.reader = None
        self.files = {name: tempfile.TemporaryFile() for name in ('stdin', 'stdout', 'stderr')}
        self.files['stdin'].write(given)
        self.files['stdin'].seek(0)
        self.opened = {name: os.open(os.path.join(folder, path), flags, 0o644) for name, (path, flags) in paths.items()}
        if at_terminal:
            self.reader, self.opened['stderr'] = pty.openpty()
            tty.setraw(self.opened['stderr'])

    def handles(self):
        return {name: self.opened.get(name, it) for name, it in self.files.items()}

    def close_opened(self):
        for it in self.opened.values():
            os.close(it)

    def written(self):
        """What was written to the files of standard output and standard error."""
        for name in ('stdout', 'stderr'):
            self.files[name].seek(0)
            yield self.files[name].read()

    def close(self):
        for it in self.files.values():
            it.close()
        if self.reader is not None:
            os.close(self.reader)


def run(words, folder=None, given=b'', env=None, seconds=SECONDS, streams=None, at_terminal=False, wait=ended, **how):
    """Runs a command in a folder, with these bytes as its standard input, and gives what came of it. After these seconds it is killed.

    What it writes goes to files, so that how fast that is read plays no part. `streams` has a path and its flags for the stream that it takes the
    place of; `how` goes to the process as it is."""
    own = Streams(folder or '.', given, streams or {}, at_terminal)
    try:
        process = subprocess.Popen(words, cwd=folder, env=env or ENVIRONMENT, **own.handles(), **how)
        own.close_opened()
        timer = threading.Timer(seconds, os.kill, (process.pid, signal.SIGKILL))
        timer.start()
        shown = read_all(own.reader) if at_terminal else b''
        status, used, memory = wait(process.pid)
        timer.cancel()
        process.returncode = os.waitstatus_to_exitcode(status)
        out, err = own.written()
        return Ran(process.returncode, out, shown or err, used.ru_utime + used.ru_stime, memory)
    finally:
        own.close()


def run_case(program, case):
    """Runs a case in a new folder."""
    paths = {'stdin': (case.stdin, os.O_RDONLY), 'stdout': (case.stdout, os.O_WRONLY)}
    with folder_of(case.files) as folder:
        streams = {name: it for name, it in paths.items() if it[0]}
        return run([program, *case.args], folder, case.given, streams=streams, at_terminal=case.at_terminal)


def difference(expected, came):
    """The lines in which bytes differ, '-' before those that were expected and '+' before those that came."""
    lines = ([repr(line)[2:-1] for line in text.splitlines(keepends=True)] for text in (expected, came))
    return [line[:WIDTH] for line in list(difflib.unified_diff(*lines, n=1, lineterm=''))[2:LINES + 2]]


def faults_of(case, ran):
    """What differs from what is expected of a case, in lines; none where nothing does. What is expected may be bytes, something with a `fullmatch`
    for them, as a pattern, or None for anything; and several statuses."""
    statuses = case.status if isinstance(case.status, tuple) else (case.status,)
    found = [] if ran.status in statuses else [f'status {ran.status}, expected {case.status}']
    for what, expected, came in (('standard output', case.out, ran.out), ('standard error', case.err, ran.err)):
        if isinstance(expected, bytes):
            found += [f'{what}:', *difference(expected, came)] if expected != came else []
        elif expected is not None and not expected.fullmatch(came):
            found += [f'{what}: {came[:WIDTH]!r}, expected {expected}'[:2 * WIDTH]]
    return found


class Tally:
    """Counts what was tried, and what of it is bad."""

    def __init__(self, what):
        self.what, self.tried, self.bad = what, 0, 0

    def add(self, name, faults, count=1):
        """Counts runs by this name, and says what is wrong with them."""
        faults = list(faults)
        self.tried += count
        if faults:
            self.bad += 1
            print(name, *faults, sep='\n  ', flush=True)

    def end(self):
        """Says how many there were. The status to end with: 1 if one is bad, or none was tried."""
        print(f'{self.tried} {self.what}, {self.bad} bad')
        return 1 if self.bad or not self.tried else 0


def preloaded(source, folder):
    """A library that a program is to load before others, built of a source in C."""
    compiler = shutil.which('cc')
    if not compiler:
        sys.exit(f'no C compiler: {os.path.relpath(source, TOP)} is built by cc')
    library = os.path.join(folder, os.path.basename(source).removesuffix('.c') + '.so')
    subprocess.run([compiler, '-shared', '-fPIC', '-O1', '-o', library, source, '-ldl'], check=True)
    return library


def arguments(doc, program=PROGRAM, made_by='./licscan --version'):
    """A reader of a trial's arguments, whose help is this text: the program that is tried is this one, if no other is named."""
    def built(path):
        if not os.path.isfile(path) or not os.access(path, os.X_OK):
            raise argparse.ArgumentTypeError(f'no program at {path}; {made_by} proves and builds the one of this repository')
        return os.path.abspath(path)

    reader = argparse.ArgumentParser(f'./dev {STEP}', description=doc, formatter_class=argparse.RawDescriptionHelpFormatter)
    reader.add_argument('--program', type=built, default=program, help=f'the program that is tried ({os.path.relpath(program, TOP)})')
    return reader
