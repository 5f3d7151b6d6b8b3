#!/usr/bin/env python3
"""Times a built licscan, as ratios within one run.

With `--against` both programs are run in turn, and each line ends with the figures of the other one, and how many times its seconds those of the
first are; in `set` and `growth` they are timed one after the other, on lines of their own. But for `kinds` and `--sources`, inputs are made from
fixed seeds by `inputs.py`, so that each machine has the same: licence texts, sources of which some half have a licence at their heads, templates in
the shape of published ones. The starter set is timed, too. The parts, all of them where none is named:
  reading    50 MB of licence texts: `tokens`, and a scan for a template that never occurs, against `wc -m`
  kinds      `tokens` by kind of text, in seconds of the processor, the quickest of 15 runs: real files of this system, prose from its translated
             manual pages, and the sources with 42 lists of equivalent words
  rules      `tokens` of 10 MB by line rules of 256 texts, the profile's among them, against the profile: the others begin with a sign, or a letter
  start      the start: 700 templates in the shape of published ones, and the starter set
  search     the search beyond reading, `scan` and `scan --all`, each for both sets of templates: 20 MB of sources, 10,000 small files, a megabyte of
             licence texts. The start is taken off, and so is reading: `tokens`, or the scan for nothing where that is quicker (`tokens` writes).
             `--sources` takes files below folders of yours in place of the sources
  set        the starter set on 200 MB of the files below `--sources`, or on the 20 MB of sources, without its mentions and with them, and a scan
             for nothing, against `tokens`, in seconds of the processor; the quickest of three runs
  growth     the cases of scripts/hostile/growing.py, or those whose group or name has the word of `--only`: the processor seconds of five sizes, each
             twice the one before (16 times the first ones at the last size is linear), up to a size that takes more than 30; then how many times
             those of one plain template on the same text the last are
Each other figure is the quickest of three runs, of 25 where a run takes less than half a second, and of one where it takes ten seconds or more;
those of `growth` are of one run.
"""
import dataclasses, math, os, subprocess, sys, tempfile

import growing, harness, running
import inputs, kinds, starter

HERE = os.path.dirname(os.path.abspath(__file__))
ENVIRONMENT = dict(os.environ, LC_ALL='C.UTF-8')
FILES_OF_A_CALL = 4_000
# bytes of sources that are scanned, and of those on which the starter set is tried
SOURCES = 20_000_000
MANY_SOURCES = 200_000_000
MOST_SECONDS = 30
# about how many bytes of each kind of text are in a run
KIND = 8_000_000


@dataclasses.dataclass
class Figure:
    """Seconds, megabytes of memory, and seconds of the processor."""
    seconds: float
    memory: int
    processor: float = 0

    def less(self, seconds):
        return Figure(self.seconds - seconds, self.memory)


def timed(command, files):
    """One run of a command, over the files in as many calls as they need."""
    figure = Figure(0, 0)
    for at in range(0, max(1, len(files)), FILES_OF_A_CALL):
        arguments = [sys.executable, '-S', f'{HERE}/measured.py', *command, *files[at:at + FILES_OF_A_CALL]]
        done = subprocess.run(arguments, capture_output=True, env=ENVIRONMENT, check=True)
        seconds, kilobytes, status, processor = done.stdout.split()
        figure = Figure(figure.seconds + float(seconds), max(figure.memory, int(kilobytes) // 1024), figure.processor + float(processor))
        if int(status) == 2:
            sys.exit(f'{command}: {done.stderr.decode()}')
    return figure


def quickest(commands, files=()):
    """The quickest run of each command. They are run in turn, so that other work on the machine disturbs all of them."""
    figures = [timed(command, files) for command in commands]
    slowest = max(figure.seconds for figure in figures)
    # a short run is soon disturbed by other work
    for _ in range(0 if slowest >= 10 else 2 if slowest >= 0.5 else 24):
        again = [timed(command, files) for command in commands]
        figures = [min(pair, key=lambda figure: figure.seconds) for pair in zip(figures, again)]
    return figures


class Bench:
    """The programs that are timed, and a folder for their inputs."""

    def __init__(self, asked, folder):
        self.programs = [os.path.abspath(it) for it in (asked.program, asked.against) if it]
        self.only, self.own, self.folder, self.texts = asked.only, asked.sources, folder, inputs.texts()

    def at(self, name):
        return os.path.join(self.folder, name)

    def quickest(self, arguments, files=()):
        return quickest([[program, *arguments] for program in self.programs], files)

    def text(self, name, size):
        """A file of licence texts of this size."""
        whole = '\n'.join(self.texts) + '\n'
        with open(self.at(name), 'w', encoding='utf-8') as out:
            for at in range(0, size, len(whole)):
                out.write(whole[:size - at])
        return self.at(name)

    def template(self, name, text):
        """A folder with one template."""
        os.makedirs(self.at(name))
        with open(self.at(f'{name}/only.template.txt'), 'w') as out:
            out.write(text + '\n')
        return self.at(name)

    def line(self, name, figures, base=None, what=''):
        """A line of the figures of all programs, and how many times those of a base the first one is."""
        first, *others = figures
        times = f'{first.seconds / base[0].seconds:8.2f} times {what:12}' if base else ' ' * 27
        against = ''.join(f' | {it.seconds:9.4f} s {it.memory:5} MB {first.seconds / it.seconds:6.2f} times' for it in others)
        print(f'{name:64} {first.seconds:9.4f} s {times} {first.memory:5} MB{against}', flush=True)


def reading(bench):
    text = bench.text('real.txt', 50_000_000)
    never = bench.template('never', 'zzzyyyxxx wwwvvv')
    counted = quickest([['wc', '-m', text]])
    for name, arguments in (('tokens', ['tokens']), ('a scan for nothing', ['scan', '--templates', never])):
        bench.line(name, bench.quickest([*arguments, text]), counted, 'wc -m')


def kinds_of_text(bench):
    read = kinds.kinds(bench.folder)
    chosen = [(name, [], files) for name, files in read.items()]
    if 'sources' in read:
        chosen.append(('sources, 42 lists of words', ['--words', kinds.words(bench.folder)], read['sources']))
    for name, options, files in chosen:
        size = sum(map(os.path.getsize, files))
        times = max(1, KIND // size)
        commands = [[program, 'tokens', *options, '--'] for program in bench.programs]
        least = [math.inf for _ in commands]
        for _ in range(15):
            least = [min(seconds, timed(command, files * times).processor) for seconds, command in zip(least, commands)]
        rates = ' | '.join(f'{seconds * 1000:7.0f} ms {size * times / seconds / 1e6:6.0f} MB/s {least[0] / seconds:6.2f} times' for seconds in least)
        print(f'{name:28} {size * times / 1e6:5.1f} MB {rates}', flush=True)


def rules(bench):
    text = bench.text('rules.txt', 10_000_000)
    with open(f'{harness.TOP}/examples/rules/profile.rules') as file:
        lines = file.read().splitlines()
    count = 256 - sum(line.startswith(('lead', 'tail')) for line in lines)
    base = bench.quickest(['tokens', text])
    bench.line('the profile', base)
    for name, letters in (('a sign', '~^@$&'), ('a letter', 'abcdefghijklmnopqrstuvwxyz')):
        path = bench.at(f'{len(letters)}.rules')
        with open(path, 'w') as out:
            more = [f'{("lead", "tail")[i % 2]} {letters[i % len(letters)]}{i:03}q{letters[i % len(letters)]}' for i in range(count)]
            out.write('\n'.join(lines + more) + '\n')
        bench.line(f'256 texts, those not in the profile begin with {name}', bench.quickest(['tokens', '--rules', path, text]), base, 'the profile')


def sets(bench):
    """The sets of templates, and the figures of the start with each."""
    inputs.write_templates(bench.at('published'), 700)
    for name, folder in (('700 published', bench.at('published')), ('the starter set', harness.TEMPLATES)):
        yield name, folder, bench.quickest(['scan', '--templates', folder, '/dev/null'])


def start(bench):
    for name, _, figures in sets(bench):
        bench.line(name, figures)


def files_below(folders, most):
    """Files below these folders that are UTF-8, up to this number of bytes in all."""
    found, size = [], 0
    for path in sorted(os.path.join(at, name) for folder in folders for at, _, names in os.walk(folder) for name in names):
        try:
            with open(path, 'rb') as file:
                data = file.read()
            data.decode()
        except (UnicodeDecodeError, OSError):
            continue
        if 0 < len(data) < 1_000_000:
            found.append(os.path.abspath(path))
            size += len(data)
        if size >= most:
            break
    return found


def small_files(bench, sources, count):
    """`count` files of at most 4 KB, the beginnings of these."""
    os.makedirs(bench.at('small'))
    paths = [bench.at(f'small/{number}') for number in range(count)]
    for number, path in enumerate(paths):
        with open(sources[number % len(sources)], 'rb') as source, open(path, 'wb') as out:
            out.write(source.read(4096).decode(errors='ignore').encode())
    return paths


def search(bench):
    trees = files_below(bench.own, SOURCES) if bench.own else inputs.write_sources(bench.at('sources'), SOURCES)
    never = bench.template('never', 'zzzyyyxxx wwwvvv')
    chosen = list(sets(bench))
    read_files = {'sources': trees, '10,000 small files': small_files(bench, trees, 10_000), 'a megabyte of licences': [bench.text('texts.txt', 1_000_000)]}
    for name, files in read_files.items():
        calls = -(-len(files) // FILES_OF_A_CALL)
        both = [bench.quickest(arguments, files) for arguments in (['tokens'], ['scan', '--templates', never])]
        bench.line(f'{name}: tokens', both[0])
        read = [min(pair, key=lambda figure: figure.seconds) for pair in zip(*both)]
        bench.line(f'{name}: reading', read, both[0], 'tokens')
        for set_name, folder, starts in chosen:
            for kind in (['scan'], ['scan', '--all']):
                whole = bench.quickest([*kind, '--templates', folder], files)
                beyond = [it.less(begun.seconds * calls + base.seconds) for it, begun, base in zip(whole, starts, read)]
                bench.line(f'{name}: {" ".join(kind)} beyond reading, {set_name}', beyond, both[0], 'tokens')


def set_of_templates(bench):
    files = files_below(bench.own, MANY_SOURCES) if bench.own else inputs.write_sources(bench.at('sources'), SOURCES)
    never = bench.template('never', 'zzzyyyxxx wwwvvv')
    print(f'{len(files):,} files, {sum(map(os.path.getsize, files)):,} bytes')
    with starter.both() as both:
        runs = {'tokens': ['tokens'], 'a scan for nothing': ['scan', '--templates', never], 'the starter set': ['scan', '--templates', harness.TEMPLATES],
                'with the mentions': ['scan', '--templates', both]}
        for program in bench.programs:
            taken = [{name: timed([program, *run, '--'], files).processor for name, run in runs.items()} for _ in range(3)]
            least = {name: min(it[name] for it in taken) for name in runs}
            for name, seconds in least.items():
                print(f'{name:64} {seconds:9.2f} s of the processor, {seconds / least["tokens"]:5.2f} times tokens', flush=True)


def growth(bench):
    def seconds(program, case):
        ran = running.run(program, dataclasses.replace(case, seconds=MOST_SECONDS))
        return ran.seconds if ran.status in (0, 1) else math.inf

    def taken_by(program, series):
        """The seconds of each size, up to the first that takes too many."""
        taken = []
        while len(taken) < len(series.sizes()) and math.inf not in taken:
            taken.append(seconds(program, series.case(series.sizes()[len(taken)])))
        return taken

    def row(label, numbers, more=''):
        print(f'    {label:8}' + ''.join(f'{it:8.2f}' for it in numbers) + more, flush=True)

    plain = running.templates(P='zzzyyyxxx wwwvvv')
    for series in growing.SERIES:
        if bench.only not in f'{series.group} {series.name}'.lower():
            continue
        print(f'{series.group}: {series.sizes()[0]:,} to {series.sizes()[-1]:,} {series.name}')
        bare = seconds(bench.programs[0], dataclasses.replace(series.case(series.sizes()[-1]), files=plain))
        rows = [taken_by(program, series) for program in bench.programs]
        for label, taken in zip(('program', 'against'), rows):
            grown = f'   grown {taken[-1] / taken[0]:6.1f} times, {taken[-1] / bare:7.1f} times a plain template'
            row(label, taken, grown if math.inf not in taken else f'   over {MOST_SECONDS} seconds')
        if len(rows) == 2:
            row('ratio', [one / other for one, other in zip(*rows)])


PARTS = {'reading': reading, 'kinds': kinds_of_text, 'rules': rules, 'start': start, 'search': search, 'set': set_of_templates, 'growth': growth}


def main():
    reader = harness.arguments(__doc__)
    reader.add_argument('--against', metavar='PROGRAM', help='another program, which is timed beside the first')
    reader.add_argument('--only', metavar='WORD', type=str.lower, default='', help='of growth')
    reader.add_argument('--sources', metavar='FOLDER', action='append', default=[], help='of search and set: files below this folder (may be given again)')
    reader.add_argument('parts', metavar='PART', nargs='*', help=', '.join(PARTS))
    asked = reader.parse_intermixed_args()
    if unknown := set(asked.parts) - set(PARTS):
        reader.error(f'no part {", ".join(sorted(unknown))}')
    for name in asked.parts or PARTS:
        with tempfile.TemporaryDirectory() as folder:
            PARTS[name](Bench(asked, folder))


if __name__ == '__main__':
    main()
