#!/usr/bin/env python3
"""Runs each example of docs/MANUAL.md and each recipe of docs/RECIPES.md as it is written there.

Examples are the blocks whose lines begin with `$ `: what each command writes must be the lines after it. They are run in a folder with the
files that the manual shows before them.

Each recipe is run in a new folder with the example templates, some files, and the program on the path. What it writes must be the text
in scripts/recipes/expected under the recipe's number. A recipe that needs jq, or the texts of a Debian system, is left out where there is none.
The last line is 'N examples and recipes, M bad', and the status is 1 if M is not 0.
"""
import contextlib, os, re, shutil, subprocess, sys

import harness
from harness import TEMPLATES, TOP

EXPECTED = os.path.join(TOP, 'scripts', 'recipes', 'expected')
COMMON = '/usr/share/common-licenses'
TAG = b'// SPDX-License-Identifier: '
FILES = {
    'debian/copyright': b'Files: *\nLicense: X\n Permission to use, copy, modify, and/or distribute\n .\n this software\n',
    'logo.png': b'\x89PNG\0\1 license: MIT',
    'src/either.c': TAG + b'MIT OR Zlib\nint either;\n',
    'src/exception.c': TAG + b'Apache-2.0 WITH LLVM-exception\n',
    'old/latin.py': b'# \xe9\n# License: BSD, see LICENSE\n',
    'src/own.c': TAG + b'MIT OR LicenseRef-Own-1.0\nint own;\n',
    'src/nothing.c': b'int nothing;\n',
    'src/two words.py': b'# This is free software; you can redistribute it and/or modify it under\n# the same terms as Perl itself.\n',
    b'odd/b\xe9d.c': TAG + b'ISC\n',
    'odd/good.c': TAG + b'Zlib\n',
    'templates/Uses.template.txt': 'permission to use, copy, modify, and/or distribute this software',
    'templates/Unlike.template.txt': 'a <<var;name="n";original="1";match="[a-z]+">>',
}
# what is added to git
ADDED = ['FILE', 'LICENSE', 'debian', 'logo.png', 'src']
# files that recipes write, and that are shown with their output
WRITTEN = ['found.txt', 'tags.txt']


def text_of(*path):
    with open(os.path.join(TOP, *path), encoding='utf-8', newline='') as it:
        return it.read()


def shell(command, folder, program):
    """Runs a command of a document there, with the program on the path: what it writes, and its status. Its errors are passed on."""
    with harness.folder_of({'licscan': lambda path: os.symlink(program, path)}) as bin:
        ran = harness.run(['bash', '-c', command], folder, env=dict(os.environ, PATH=f'{bin}:{os.environ["PATH"]}'))
    sys.stderr.write(ran.err.decode('utf-8', 'replace'))
    return ran.out.decode(), ran.status


def shown_files(manual):
    """The templates that the manual gives in a sentence, by their paths."""
    found = re.findall(r'\(`(\w+/\w+\.template\.txt)`\s+holds\s+`([^`]*)`\.\)', manual)
    return {name: ' '.join(text.split()) for name, text in found}


def examples(manual):
    """The blocks of the manual, each with the file that it is, if the line before names it, and with its commands and what they write."""
    for before, block in re.findall(r'([^\n]*)\n\n```\n(.*?)^```$', manual, re.M | re.S):
        named = re.findall(r'`([\w.-]+\.template\.txt|[\w.-]+\.sh)`', before)
        folder = 'templates/' if named and named[-1].endswith('.template.txt') else ''
        file = {folder + named[-1]: block} if named and not block.startswith('$ ') else {}
        yield file, re.findall(r'^\$ (.*)\n((?:(?!\$ ).*\n)*)', block, re.M)


def try_examples(program, tally):
    manual = text_of('docs', 'MANUAL.md')
    with harness.folder_of({'examples': lambda path: os.symlink(os.path.join(TOP, 'examples'), path), **shown_files(manual)}) as folder:
        for file, commands in examples(manual):
            harness.lay(folder, file)
            for command, expected in commands:
                wrote, _ = shell(command, folder, program)
                tally.add(f'MANUAL: {command}', harness.difference(expected.encode(), wrote.encode()))


def recipes():
    return re.findall(r'^```\n(.*?)^```$', text_of('docs', 'RECIPES.md'), re.M | re.S)


@contextlib.contextmanager
def recipes_folder():
    """A folder as recipes want it, as long as it is needed."""
    notice = text_of('examples', 'NOTICE')
    links = {name: lambda path: os.symlink(os.path.join(TOP, os.path.basename(path).decode()), path) for name in ('scripts', 'examples')}
    with harness.folder_of({'FILE': notice, 'LICENSE': notice, **links, **FILES}) as folder:
        shutil.copytree(TEMPLATES, os.path.join(folder, 'templates'), dirs_exist_ok=True)
        subprocess.run(['git', 'init', '-q'], cwd=folder, check=True)
        subprocess.run(['git', 'add', *ADDED], cwd=folder, check=True)
        yield folder


def result_of(recipe, program):
    """What a recipe writes, to its output and to files, and its status."""
    with recipes_folder() as folder:
        text, status = shell(recipe, folder, program)
        for name in WRITTEN:
            path = os.path.join(folder, name)
            if os.path.exists(path):
                with open(path, encoding='utf-8') as it:
                    text += f'{name}:\n{it.read()}\n'
    return f'{text}status {status}\n'


def lacking(recipe):
    """What of the machine a recipe needs, where that is not there."""
    if 'jq' in recipe.split() and not shutil.which('jq'):
        return 'jq'
    return COMMON if COMMON in recipe and not os.path.exists(COMMON) else ''


def try_recipes(program, tally, writes):
    for number, recipe in enumerate(recipes(), 1):
        if needed := lacking(recipe):
            print(f'recipe {number} not tried: there is no {needed}')
            continue
        name, result = f'{number:02}', result_of(recipe, program)
        if writes:
            harness.lay(EXPECTED, {name: result})
        path = os.path.join(EXPECTED, name)
        expected = text_of(path) if os.path.exists(path) else ''
        tally.add(f'RECIPES, recipe {number}:\n{recipe}', harness.difference(expected.encode(), result.encode()))


def main():
    reader = harness.arguments(__doc__)
    reader.add_argument('--write', action='store_true', help='writes the expected texts of recipes anew, to be read before they are kept')
    asked, tally = reader.parse_args(), harness.Tally('examples and recipes')
    try_examples(asked.program, tally)
    try_recipes(asked.program, tally, asked.write)
    return tally.end()


if __name__ == '__main__':
    sys.exit(main())
