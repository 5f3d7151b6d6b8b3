"""Real files of a Debian system by kind of text, drawn by a seed: sources, licence texts, copyright files, and prose from translated manual pages.

What is installed decides which files there are, so that figures of two machines do not compare, and ratios within one run do.
"""
import glob, gzip, os, random, re

SEED = 1
# bytes of the files that are drawn of a kind, and of the text files that pages are made into
MOST = 1_000_000
PAGES = 12_000
REAL = {'sources': ['/usr/include/**/*.h', '/usr/share/perl/**/*.p[lm]'], 'licence texts': ['/usr/share/common-licenses/*'],
        'copyright files': ['/usr/share/doc/*/copyright']}
PROSE = {'French': ['fr'], 'German': ['de'], 'Spanish': ['es'], 'Cyrillic': ['ru', 'uk'], 'Chinese, Japanese, Korean': ['zh_CN', 'ja', 'ko']}
# requests whose arguments are prose
WORDED = re.compile(r'\.(?:SH|SS|TP|IP|PP|[BI]|BR|RB|IR|RI|BI|IB)\b ?(.*)')
ESCAPES = re.compile(r'\\f(?:\(..|\[[^]]*\]|.)|\\\*?(?:\(..|\[[^]]*\])|\\s[-+]?\d|\\[&|]')


# 42 lists of equivalent words
WORDS = """acknowledgment,acknowledgement; analogue,analog; analyse,analyze; artefact,artifact; authorisation,authorization; authorised,authorized;
calibre,caliber; cancelled,canceled; capitalisations,capitalizations; catalogue,catalog; categorise,categorize; centre,center;
emphasised,emphasized; favour,favor; favourite,favorite; fulfil,fulfill; fulfilment,fulfillment; initialise,initialize; judgment,judgement;
labelling,labeling; labour,labor; licence,license; maximise,maximize; modelled,modeled; modelling,modeling; offence,offense; optimise,optimize;
organisation,organization; organise,organize; practise,practice; programme,program; realise,realize; recognise,recognize; signalling,signaling;
sub-license,sublicense; sub license,sublicense; utilisation,utilization; whilst,while; wilful,wilfull; non-commercial,noncommercial; per
cent,percent; copyright holder,copyright owner"""


def drawn(paths):
    """Files of at most 200 KB in an order by the seed, until they have MOST bytes."""
    paths = sorted(it for it in set(paths) if os.path.isfile(it) and not os.path.islink(it) and 0 < os.path.getsize(it) <= 200_000)
    random.Random(SEED).shuffle(paths)
    size = 0
    for path in paths:
        if size < MOST:
            size += os.path.getsize(path)
            yield path


def decoded(line):
    """A line of a page. One in UTF-8 that was taken for Latin-1 and encoded once more, as most of the Spanish pages of fakeroot were, is decoded twice."""
    try:
        return line.encode('latin-1').decode('utf-8')
    except UnicodeError:
        return line


def prose(path):
    """A manual page without its requests and escapes."""
    with gzip.open(path) as file:
        lines = [decoded(line) for line in file.read().decode('utf-8', 'replace').split('\n')]
    kept = []
    for line in lines:
        worded = WORDED.match(line)
        if worded or line[:1] not in ('.', "'"):
            kept.append(ESCAPES.sub('', worded.group(1) if worded else line).replace('\\-', '-'))
    return '\n'.join(kept) + '\n'


def pages(languages, folder):
    """The pages of these languages as text files of about PAGES bytes."""
    paths = [path for language in languages for path in glob.glob(f'/usr/share/man/{language}/man*/*.gz')]
    text = ''.join(it for it in map(prose, drawn(paths)) if not it.isascii())
    lines, size = [], 0
    for line in text.splitlines(keepends=True):
        lines.append(line)
        size += len(line.encode())
        if size >= PAGES:
            yield written(f'{folder}/{languages[0]}', lines)
            lines, size = [], 0


def written(name, lines):
    """A new file with these lines."""
    path = f'{name}{len(glob.glob(f"{name}*"))}.txt'
    with open(path, 'w', encoding='utf-8') as out:
        out.writelines(lines)
    return path


def words(folder):
    """A file with the lists of equivalent words."""
    return written(f'{folder}/words', [f'{it}\n' for it in re.split(r';\s', WORDS)])


def kinds(folder):
    """The name and the files of each kind of text of which this system has any."""
    found = {name: list(drawn(path for it in patterns for path in glob.glob(it, recursive=True))) for name, patterns in REAL.items()}
    found |= {name: list(pages(languages, folder)) for name, languages in PROSE.items()}
    return {name: files for name, files in found.items() if files}
