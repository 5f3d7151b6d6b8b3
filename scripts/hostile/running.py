"""A hostile case, how it is run under limits, and what is wrong with what came of it."""
import dataclasses, os, resource, signal

import harness
from harness import templates
from watching import be_watched, wait

GIB = 1 << 30
OUT_OF_MEMORY = b'out of memory'
# of a shorter run nobody can tell how time grows
LEAST_SECONDS = 0.1


@dataclasses.dataclass
class Case:
    """A run of the program, and what is expected of it.

    `files` are made in a new folder (a value is bytes, or a function that makes the file at a path); `prepare` gets that folder.
    `out` and `err` are bytes that must come, something with a `fullmatch` for them, as a pattern, or None for anything. With `or_memory`, the
    answer may also be that memory ran out: status 2 and a text that says so. `start` may change how the process is started. A case of a
    `series` has twice the size of the one before, and may take at most `growth` times its seconds.
    """
    group: str
    name: str
    args: list
    files: dict = dataclasses.field(default_factory=dict)
    prepare: object = None
    given: bytes = b''
    status: object = 0
    out: object = None
    err: object = b''
    or_memory: bool = False
    seconds: float = 20
    most_memory: int = 2 * GIB
    limits: dict = dataclasses.field(default_factory=dict)
    start: dict = dataclasses.field(default_factory=dict)
    as_nobody: bool = False
    series: str = ''
    growth: float = 0


def limiter(case):
    """What sets the limits of a process before the program starts in it."""
    limits = {resource.RLIMIT_AS: case.most_memory, resource.RLIMIT_CPU: int(case.seconds) + 1, resource.RLIMIT_CORE: 0}
    limits.update(case.limits)
    closed = case.start.get('closed', ())

    def limit():
        # (first, since what is to be loaded for it may go past the limits)
        be_watched()
        signal.signal(signal.SIGXFSZ, signal.SIG_IGN)
        for what, most in limits.items():
            resource.setrlimit(what, (most, most))
        for number in closed:
            os.close(number)
    return limit


def run(program, case):
    """Runs a case in a folder of its own."""
    with harness.folder_of(case.files) as folder:
        os.chmod(folder, 0o755)
        if case.prepare:
            case.prepare(folder)
        streams = {name: case.start[name] for name in ('stdin', 'stdout', 'stderr') if name in case.start}
        env = {**harness.ENVIRONMENT, **case.start.get('env', {})}
        who = {'user': 'nobody'} if case.as_nobody and os.geteuid() == 0 else {}
        return harness.run([program, *case.args], folder, case.given, env, seconds=10 * case.seconds + 10, streams=streams, wait=wait,
                           preexec_fn=limiter(case), restore_signals=False, **who)


def is_out_of_memory(ran):
    """Whether the program said at its end that memory ran out; it may have written a part of its lines."""
    lines = ran.err.splitlines()
    return ran.status == 2 and bool(lines) and lines[-1].endswith(OUT_OF_MEMORY)


def faults(case, ran):
    """What is wrong with a run; nothing where it went as expected."""
    found = []
    if ran.seconds > case.seconds:
        found.append(f'{ran.seconds:.1f} seconds')
    if ran.memory > case.most_memory:
        found.append(f'{ran.memory >> 20} MiB')
    if case.or_memory and is_out_of_memory(ran):
        return found
    return found + harness.faults_of(case, ran)


def growth_faults(program, half, half_ran, case, ran):
    """What is wrong with the seconds of a case, beside those of the one of half its size. Where it seems too much, both are run again, since
    other work on the machine can disturb a run, and the quickest of three counts."""
    smaller, larger = half_ran.seconds, ran.seconds
    for _ in range(2):
        if larger <= case.growth * max(smaller, LEAST_SECONDS):
            return []
        smaller, larger = min(smaller, run(program, half).seconds), min(larger, run(program, case).seconds)
    if larger <= case.growth * max(smaller, LEAST_SECONDS):
        return []
    return [f'{larger:.2f} seconds, {smaller:.2f} for half the size']


def outcome(case, ran):
    """How a run that went as expected ended, in a word for the table."""
    if is_out_of_memory(ran):
        return 'out of memory'
    return 'refused by name' if ran.status == 2 else 'answered'
