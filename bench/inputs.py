"""Makes the inputs of the bench from fixed seeds, so that each machine has the same: licence texts, sources with licences at their heads, templates.

Words are drawn as often as in prose: some English, legal and program words first, then made ones. A quarter of the paragraphs of a licence are real
texts or notices. Of sources half have one at the head, as the comment of their language; a line in a hundred speaks of licences.
"""
import bisect, itertools, os, random, re

# the most frequent ones first
FREQUENT = """the of to and or in is this a for any that be you it not with by are as on if software from such use which license copyright shall
under an may all at other work your no copies code this we source will without has must include including modify distribute conditions provided
terms these new was can when rights licence program copy notice file permission one its but free see used name warranty each version library have
set only their who do data more than time list so also granted make user where use files text line then there value first some must out general
public above following section they who contributors limited reproduce implied merchantability fitness particular purpose liable damages binary
form redistribute documentation materials event whether contract tort arising caused substantial portions hereby charge person obtaining deal
restriction publish sublicense sell persons furnished subject""".split()
CODE = """int return if else for while def self import from class static const void char struct include define endif ifdef string size len count index
value name type data key node list map next result error status buffer offset flags mode path read write open close init free copy new get set
add remove find parse format print test assert true false none null begin end left right width height state event handler callback context
config option default max min first last start stop sum line file text""".split()
SYLLABLES = 'ba be bi bo ca ce co cu da de di do en er es fa fi fo ga ge ha he in is ka la le li lo ma me mi mo na ne ni no on or pa pe po ra re ri ro sa se si so ta te ti to un ur va ve vi'.split()
BEYOND_ASCII = ['M\u00FCller', 'Andr\u00E9', '\u2013', '\u00A9', '\u201Cas', 'is\u201D', '\u00A7', 'na\u00EFve', '\u0141ukasz']
MADE = 6_000

COPYRIGHT = '<<var;name="copyright";original="Copyright (c) <year> <owner>";match=".{0,5000}">>'
ITEM = re.compile(r'^(\s*)([0-9]{1,2}[.)]|\([0-9a-z]\)|[a-z][.)]|[*\u2022-])(?=\s+\S)', re.M)

MIT = """Permission is hereby granted, free of charge, to any person obtaining a copy of this software and associated documentation files (the
"Software"), to deal in the Software without restriction, including without limitation the rights to use, copy, modify, merge, publish, distribute,
sublicense, and/or sell copies of the Software, and to permit persons to whom the Software is furnished to do so, subject to the following
conditions:

The above copyright notice and this permission notice shall be included in all copies or substantial portions of the Software.

THE SOFTWARE IS PROVIDED "AS IS", WITHOUT WARRANTY OF ANY KIND, EXPRESS OR IMPLIED, INCLUDING BUT NOT LIMITED TO THE WARRANTIES OF MERCHANTABILITY,
FITNESS FOR A PARTICULAR PURPOSE AND NONINFRINGEMENT. IN NO EVENT SHALL THE AUTHORS OR COPYRIGHT HOLDERS BE LIABLE FOR ANY CLAIM, DAMAGES OR OTHER
LIABILITY, WHETHER IN AN ACTION OF CONTRACT, TORT OR OTHERWISE, ARISING FROM, OUT OF OR IN CONNECTION WITH THE SOFTWARE OR THE USE OR OTHER DEALINGS
IN THE SOFTWARE."""
BSD = """Redistribution and use in source and binary forms, with or without modification, are permitted provided that the following conditions are
met:

1. Redistributions of source code must retain the above copyright notice, this list of conditions and the following disclaimer.
2. Redistributions in binary form must reproduce the above copyright notice, this list of conditions and the following disclaimer in the
documentation and/or other materials provided with the distribution.

THIS SOFTWARE IS PROVIDED BY THE COPYRIGHT HOLDERS AND CONTRIBUTORS "AS IS" AND ANY EXPRESS OR IMPLIED WARRANTIES, INCLUDING, BUT NOT LIMITED TO, THE
IMPLIED WARRANTIES OF MERCHANTABILITY AND FITNESS FOR A PARTICULAR PURPOSE ARE DISCLAIMED. IN NO EVENT SHALL THE COPYRIGHT HOLDER OR CONTRIBUTORS BE
LIABLE FOR ANY DIRECT, INDIRECT, INCIDENTAL, SPECIAL, EXEMPLARY, OR CONSEQUENTIAL DAMAGES (INCLUDING, BUT NOT LIMITED TO, PROCUREMENT OF SUBSTITUTE
GOODS OR SERVICES; LOSS OF USE, DATA, OR PROFITS; OR BUSINESS INTERRUPTION) HOWEVER CAUSED AND ON ANY THEORY OF LIABILITY, WHETHER IN CONTRACT, STRICT
LIABILITY, OR TORT (INCLUDING NEGLIGENCE OR OTHERWISE) ARISING IN ANY WAY OUT OF THE USE OF THIS SOFTWARE, EVEN IF ADVISED OF THE POSSIBILITY OF SUCH
DAMAGE."""
GPL = """This program is free software; you can redistribute it and/or modify it under the terms of the GNU General Public License as published by
the Free Software Foundation; either version 2 of the License, or (at your option) any later version.

This program is distributed in the hope that it will be useful, but WITHOUT ANY WARRANTY; without even the implied warranty of MERCHANTABILITY or
FITNESS FOR A PARTICULAR PURPOSE. See the GNU General Public License for more details."""
LGPL = GPL.replace('program is', 'library is').replace('GNU General', 'GNU Lesser General').replace('version 2 of', 'version 2.1 of')
APACHE = """Licensed under the Apache License, Version 2.0 (the "License"); you may not use this file except in compliance with the License. You may
obtain a copy of the License at

    http://www.apache.org/licenses/LICENSE-2.0

Unless required by applicable law or agreed to in writing, software distributed under the License is distributed on an "AS IS" BASIS, WITHOUT
WARRANTIES OR CONDITIONS OF ANY KIND, either express or implied. See the License for the specific language governing permissions and limitations under
the License."""
HEADS = [MIT, BSD, GPL, LGPL, APACHE, 'SPDX-License-Identifier: MIT', 'SPDX-License-Identifier: GPL-2.0-or-later OR Apache-2.0',
         'This file is part of the library. See LICENSE for terms of use.', 'Use of this source code is governed by a BSD-style license.']
# how a file of a language is named, and what is before each line of a comment
LANGUAGES = [('.c', ' * '), ('.h', '// '), ('.py', '# '), ('.pl', '# '), ('.js', ' * ')]


def vocabulary(first):
    """These words, then made ones, with the sums of their weights, by which they are drawn."""
    chance = random.Random(1)
    made = [''.join(SYLLABLES[int(chance.random() * len(SYLLABLES))] for _ in range(1 + int(chance.random() * 4))) for _ in range(MADE)]
    words = first + made + BEYOND_ASCII
    sums = list(itertools.accumulate(1 / (rank + 3) for rank in range(len(words))))
    return words, [it / sums[-1] for it in sums]


PROSE, CODED = vocabulary(FREQUENT), vocabulary(CODE + FREQUENT[:60])


def number(chance, least, most):
    """A number from the least to the most. (All is made of `random` alone, which gives the same for a seed in each Python.)"""
    return least + int(chance.random() * (most - least + 1))


def drawn(chance, vocabulary, count):
    words, sums = vocabulary
    return [words[bisect.bisect(sums, chance.random())] for _ in range(count)]


def sentence(chance):
    words = drawn(chance, PROSE, number(chance, 6, 34))
    for at in range(number(chance, 4, 12), len(words) - 1, 11):
        words[at] += ','
    if chance.random() < 0.1:
        words[1:3] = [f'"{" ".join(words[1:3])}"']
    if chance.random() < 0.08:
        words = [word.upper() for word in words]
    return ' '.join(words).capitalize() + '.' if words[0].islower() else ' '.join(words) + '.'


def filled(text, width=74, prefix=''):
    """The words of each paragraph in lines of at most this width, each with this before it."""
    lines = []
    for paragraph in text.split('\n\n'):
        line = ''
        for word in paragraph.split():
            if line and len(line) + len(word) >= width:
                lines.append(prefix + line)
                line = word
            else:
                line = f'{line} {word}' if line else word
        lines += [prefix + line, prefix.rstrip()]
    return '\n'.join(lines[:-1])


def licence(chance):
    """A text of some 150 to 3,000 words: a title, a copyright notice, paragraphs, of which some are items; a quarter are real texts or notices."""
    title = ' '.join(drawn(chance, PROSE, 3)).title() + ' License'
    paragraphs = [f'Copyright (c) {number(chance, 1985, 2024)} {" ".join(drawn(chance, PROSE, 2)).title()}']
    for at in range(1, number(chance, 3, 40)):
        mark = ('', '', '', f'{at}. ', f'({chr(97 + at % 26)}) ', '- ')[number(chance, 0, 5)]
        text = ' '.join(sentence(chance) for _ in range(number(chance, 1, 6)))
        paragraphs.append(mark + text if chance.random() < 0.75 else HEADS[number(chance, 0, 4)])
    return title + '\n\n' + filled('\n\n'.join(paragraphs)) + '\n'


def texts(count=400):
    """`count` licence texts."""
    chance = random.Random(2)
    return [licence(chance) for _ in range(count)]


def code_line(chance, mark):
    if chance.random() < 0.01:
        return f'{mark}{" ".join(drawn(chance, PROSE, 6))} license {" ".join(drawn(chance, PROSE, 3))}'
    if chance.random() < 0.15:
        return mark + ' '.join(drawn(chance, PROSE, number(chance, 3, 11)))
    form = ('{}_{}({}, {}.{}[{}]);', 'if ({} == {} && {}->{}) {{', '    {} = {}_{}("{}");', '        return {} + {};', 'static const {} *{} = &{}.{};', '}}', '',
            '    {}.{}({}) # {} {}', 'for {} in {}.{}():')[number(chance, 0, 8)]
    return form.format(*drawn(chance, CODED, form.count('{}'))) if form != '}}' else '}'


def source(chance):
    """A file of code, with its ending: half have a head that speaks of a licence."""
    ending, mark = LANGUAGES[number(chance, 0, len(LANGUAGES) - 1)]
    head = ''
    if chance.random() < 0.5:
        owner = f'Copyright (C) {number(chance, 1990, 2024)} {" ".join(drawn(chance, PROSE, 2)).title()}\n\n'
        head = filled(owner + HEADS[number(chance, 0, len(HEADS) - 1)], prefix=mark) + '\n'
        head = f'/*\n{head} */\n' if mark == ' * ' else head
    lines = [code_line(chance, mark) for _ in range(int(10 + 1800 * chance.random() ** 2))]
    return ending, head + '\n'.join(lines) + '\n'


def write_sources(folder, size):
    """Files of code of this size in all, in folders of a hundred: their paths."""
    chance, paths, written = random.Random(3), [], 0
    while written < size:
        ending, text = source(chance)
        path = os.path.join(folder, f'{len(paths) // 100:03}', f'{"_".join(drawn(chance, CODED, 2))}{len(paths)}{ending}')
        os.makedirs(os.path.dirname(path), exist_ok=True)
        with open(path, 'w', encoding='utf-8') as out:
            written += out.write(text)
        paths.append(path)
    return paths


def shaped(title, body):
    """A template with this title and body, in the shape of published ones."""
    def bullet(item):
        return f'{item[1]}<<var;name="bullet";original="{item[2]}";match=".{{0,20}}">>'
    return f'<<beginOptional>>{title}\n\n<<endOptional>> {COPYRIGHT}\n\n{ITEM.sub(bullet, body)}\n'


def stretches(count):
    """`count` stretches of lines of licence texts, of 100 to 1,500 words each."""
    chance = random.Random(11)
    sources = [lines for lines in (text.split('\n') for text in texts()) if sum(len(line.split()) for line in lines) >= 300]
    while count:
        lines = sources[number(chance, 0, len(sources) - 1)]
        start, words = number(chance, 0, len(lines) - 1), 0
        wanted = number(chance, 100, 1500)
        for end in range(start, len(lines)):
            words += len(lines[end].split())
            if words >= wanted:
                break
        if words >= 100:
            count -= 1
            yield '\n'.join(lines[start:end + 1]).strip()


def write_templates(folder, count):
    """`count` templates in the shape of published ones: an optional title, a variable of up to 5,000 letters for the copyright notice, and a stretch
    of a licence text in which each item's number or sign is a variable of up to 20 letters."""
    os.makedirs(folder)
    for at, body in enumerate(stretches(count)):
        with open(os.path.join(folder, f'P{at:04}.template.txt'), 'w', encoding='utf-8') as out:
            out.write(shaped(f'Licence number {at}', body))
