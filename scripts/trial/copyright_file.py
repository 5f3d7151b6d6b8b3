"""Reads a machine-readable debian/copyright: the licence that its maintainers state for each file."""
import re


def paragraphs(text):
    """Each paragraph as a dictionary of its fields, with the lines that go on."""
    for paragraph in re.split(r"\n[ \t]*\n", text):
        fields, name = {}, None
        for line in paragraph.split("\n"):
            if line[:1] in (" ", "\t") and name:
                fields[name] += "\n" + line.strip()
            elif re.match(r"[A-Za-z-]+:", line):
                name, _, value = line.partition(":")
                name = name.lower()
                fields[name] = value.strip()
        if fields:
            yield fields


def pattern_of(globs):
    """A regular expression for the globs of a field `Files`: `*` and `?` also take slashes."""
    def one(glob):
        glob = glob.removeprefix("./")
        return re.sub(r"\\\\(.)", r"\\\1", re.escape(glob).replace(r"\*", ".*").replace(r"\?", "."))
    return re.compile("|".join(f"(?:{one(glob)})" for glob in globs))


def stated(text):
    """Globs and licence of each paragraph of files, the last one that fits counts."""
    return [(pattern_of(it["files"].split()), it["license"].split("\n")[0]) for it in paragraphs(text) if it.get("files") and it.get("license")]


def licence_of(rows, path):
    return next((licence for pattern, licence in reversed(rows) if pattern.fullmatch(path)), "")
