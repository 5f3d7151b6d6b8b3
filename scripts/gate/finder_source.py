#!/usr/bin/env python3
"""Fails where the finder could learn of matches by other means than the two machines whose steps it counts.

Usage, at any place: python3 scripts/gate/finder_source.py

It reads the code of lic_find (crates/lic_find/src: no tests, proofs, clauses or comments) and its line of crates.txt. Refused are
- code that imports or names another crate of the repository than lic_auto and lic_norm, or a machine under another name (the other crates of its
  line serve definitions), and a re-export of lic_marks by lic_auto;
- a call of `id`, `template` or `parts`;
- a call of `is_match`;
- a `Run` that is made anywhere but once in one constructor, which the others call, and once in `is_match`; a second `Back`, and a second call of
  the function that makes it;
- a `Finder::steps` that is not the sum of the counts of the two machines.

So that it is known to refuse, the same is asked of copies in which a patch of scripts/gate/wrong_finders is applied, and those faults must be
found that the patch names. A patch has lines `#` for what it is, `fault:` for a fault that must be found, `file:` for the file that the next
edits change, and then edits: a line with `-`, whose text is once in that file, and lines with `+`, which take its place.
"""
import os
import re
import shutil
import sys
import tempfile

HERE = os.path.dirname(os.path.abspath(__file__))
TOP = os.path.dirname(os.path.dirname(HERE))
FINDER = os.path.join(TOP, "crates", "lic_find", "src")
MACHINES = os.path.join(TOP, "crates", "lic_auto", "src")
PATCHES = os.path.join(HERE, "wrong_finders")
DEPENDS_ON = ["lic_auto", "lic_norm"]
STEPS = "self.noting.saturating_add(self.run.steps())"


def after_braces(text, start):
    """The place after the braces that open at `start` or later."""
    depth = 0
    for place in range(text.index("{", start), len(text)):
        depth += {"{": 1, "}": -1}.get(text[place], 0)
        if depth == 0:
            return place + 1
    sys.exit("finder_source.py: braces that are not closed")


def code_of(text):
    """A source without comments and ghost items: imports, fields, members and clauses."""
    text = re.sub(r"//[^\n]*", "", text)
    text = re.sub(r"^\s*ghost use [^;]*;", "", text, flags=re.M)
    clause = re.compile(r"^\s*(?:(?:pub )?ghost|requires|ensures)\b", re.M)
    while found := clause.search(text):
        text = text[: found.start()] + text[after_braces(text, found.end()) :]
    return text


def code_in(folder):
    """The code of each file in a folder, by its path from there."""
    found = {}
    for place, _, names in os.walk(folder):
        for name in sorted(names):
            path = os.path.join(place, name)
            if name.endswith(".rt"):
                with open(path, encoding="utf-8") as file:
                    found[os.path.relpath(path, folder)] = code_of(file.read())
    return found


def manifest():
    """The crates of lic_find's line."""
    with open(os.path.join(TOP, "crates.txt"), encoding="utf-8") as file:
        lines = dict(line.split(":", 1) for line in file if ":" in line)
    return lines["lic_find"].split()


def functions(code):
    """Each function's name and its body."""
    for text in code.values():
        for found in re.finditer(r"\bfn\s+(\w+)", text):
            body = text[text.index("{", found.end()) : after_braces(text, found.end())]
            yield found[1], body


def calling(code, pattern):
    """The names of the functions in whose bodies this is, each as often as it is."""
    return sorted(name for name, body in functions(code) for _ in re.findall(pattern, body))


def claims(code, machines, line):
    """What is claimed of the code: its name, what was found, and what is right."""
    every = "\n".join(code.values())
    yield "crates that the code names", sorted(set(re.findall(r"\b(lic_\w+)\s*::", every))), DEPENDS_ON
    yield "of these not in crates.txt", [name for name in DEPENDS_ON if name not in line], []
    yield "other names of what is imported", re.findall(r"\b(?:use\s+lic_[^;]*\bas\b|type\s[^;]*\b(?:Run|Back)\b)[^;]*;", every), []
    yield "re-exports of lic_marks by lic_auto", re.findall(r"\bpub\s+use\s[^;]*\blic_marks\b[^;]*;", "\n".join(machines.values())), []
    for name in ("id", "template", "parts"):
        yield f"calls of {name}", calling(code, rf"\b{name}\s*\(|::\s*{name}\b"), []
    uses = [name for name, text in code.items() if re.search(r"(?<!fn )\bis_match\b", text.replace("pub use matches::is_match;", ""))]
    yield "files that use is_match", uses, []
    runs = calling(code, r"\bRun\s*::\s*(?:new|over)\b")
    constructor = next((name for name in runs if name != "is_match"), "a constructor")
    yield "functions that make a Run", runs, sorted([constructor, "is_match"])
    callers = calling(code, rf"\b{constructor}\s*\(")
    yield "constructors that do not call that one", [name for name in ("new", "resume") if name not in callers], []
    backs = calling(code, r"\bBack\s*::\s*(?:new|over)\b")
    yield "functions that make a Back", backs, backs[:1] or ["one"]
    scans = calling(code, rf"\b{backs[0]}\s*\(") if backs else []
    yield "functions that call that one", scans, [constructor]
    bodies = ["".join(body.split()).strip("{}") for name, body in functions(code) if name == "steps"]
    yield "bodies of Finder::steps", bodies, [STEPS]
    yield "functions that take a machine's count", calling(code, r"\.\s*steps\s*\(\)"), sorted([*backs[:1], "steps"])


def faults(finder):
    """The claims that do not hold of the sources in a folder."""
    made = claims(code_in(finder), code_in(MACHINES), manifest())
    return {what: f"{found}, and not {right}" for what, found, right in made if found != right}


def read_patch(path):
    """The faults that a patch names, and its edits, each with a file, the text that is in it once, and the lines in its place."""
    expected, edits, file = [], [], None
    with open(path, encoding="utf-8") as lines:
        for line in lines.read().splitlines():
            if line.startswith("fault:"):
                expected.append(line.removeprefix("fault:").strip())
            elif line.startswith("file:"):
                file = line.removeprefix("file:").strip()
            elif line.startswith("-"):
                edits.append((file, line[1:], []))
            elif line.startswith("+"):
                edits[-1][2].append(line[1:])
    return expected, edits


def apply(edits, folder):
    """Applies edits to the sources in a folder."""
    for file, old, new in edits:
        path = os.path.join(folder, file)
        with open(path, encoding="utf-8") as source:
            text = source.read()
        if text.count(old) != 1:
            sys.exit(f"finder_source.py: {file} has {text.count(old)} times {old}")
        with open(path, "w", encoding="utf-8") as source:
            source.write(text.replace(old, "\n".join(new)))


def faults_of_patch(path):
    """What is not refused of a finder that such a patch makes, though the patch names it."""
    expected, edits = read_patch(path)
    with tempfile.TemporaryDirectory(prefix="licscan-finder-") as top:
        copy = shutil.copytree(FINDER, os.path.join(top, "src"))
        apply(edits, copy)
        found = faults(copy)
    print(f"{os.path.basename(path)}: {', '.join(found) or 'no fault'}")
    return [f"{os.path.basename(path)}: not refused for its {what}" for what in expected or ["faults"] if what not in found]


def main():
    wrong = [f"{what}: {fault}" for what, fault in faults(FINDER).items()]
    if not wrong:
        print(f"the finder depends on {', '.join(DEPENDS_ON)}, and its steps are those of one Run and one Back")
    patches = sorted(name for name in os.listdir(PATCHES) if name.endswith(".patch"))
    for name in patches:
        wrong += faults_of_patch(os.path.join(PATCHES, name))
    if not patches:
        wrong.append("no wrong finder to refuse")
    for fault in wrong:
        print(f"finder_source.py: {fault}", file=sys.stderr)
    return 1 if wrong else 0


if __name__ == "__main__":
    sys.exit(main())
