"""The worked examples that crates/lic_command_cases runs on `command` over streams in memory, as cases of the built program."""
import json, os

from harness import Case

TOP = os.path.dirname(os.path.dirname(os.path.dirname(os.path.abspath(__file__))))
WORKED = os.path.join(TOP, 'crates', 'lic_command_cases', 'data', 'cases.json')


def bytes_of(given):
    """What is meant by nothing, a text, or a list of texts, of bytes by their numbers, and of texts with how often they are repeated."""
    if isinstance(given, str):
        return given.encode()
    pieces = ([piece, 1] if isinstance(piece, (str, int)) else piece for piece in given or [])
    return b''.join((bytes([text]) if isinstance(text, int) else text.encode()) * count for text, count in pieces)


def files_of(case):
    """What the folder of a worked case holds."""
    files = {name: bytes_of(text) for name, text in case.get('files', {}).items()}
    if 'templates' in case:
        texts = {**case['templates'], **{f'K{k}': 'k' for k in range(case.get('numbered', 0))}}
        files['T'] = None
        files.update({f'T/{id}.template.txt': bytes_of(text) for id, text in texts.items()})
    return files


def cases_of(name, case, profile):
    """A run of a worked case, and one with the profile's line rules as a file where as much comes of that."""
    expected = {'given': bytes_of(case.get('input')), 'status': case['status'],
                'out': bytes_of(case.get('output')), 'err': bytes_of(case.get('errors'))}
    arguments, files = case['arguments'], files_of(case)
    yield Case(f'{name}: {arguments}', arguments, files, **expected)
    if case.get('by_file'):
        rules = {'rules.txt': profile.encode()}
        yield Case(f'{name}, by a file of line rules: {arguments}', [*arguments, '--rules', 'rules.txt'], {**files, **rules}, **expected)


with open(WORKED, encoding='utf-8') as it:
    HELD = json.load(it)
CASES = [run for k, case in enumerate(HELD['cases']) for run in cases_of(f'{case["subject"]}, case {k}', case, HELD['profile'])]
