#!/usr/bin/env python3
"""Makes templates of the whole texts that a Debian system carries: common_licenses.py OUT [FOLDER]

FOLDER is /usr/share/common-licenses if it is not given. Each text that is known below goes to OUT/IDENTIFIER.template.txt, in the published
markup: an address of the FSF is a variable, and what would be a list item if a line began with it is optional. Some have an appendix that
says how a notice is written: that is in a second template, OUT/IDENTIFIER-b.template.txt, only. So a COPYING is reported by its text, and the
notice in its appendix is not. A template that is there is left as it is. Status: 0 if one was made, else 1.
"""
import os
import re
import sys

ENDING = ".template.txt"
IDENTIFIERS = {
    "Apache-2.0": "Apache-2.0", "Artistic": "Artistic-1.0-Perl", "CC0-1.0": "CC0-1.0", "GFDL-1.2": "GFDL-1.2", "GFDL-1.3": "GFDL-1.3", "GPL-1": "GPL-1.0",
    "GPL-2": "GPL-2.0", "GPL-3": "GPL-3.0", "LGPL-2": "LGPL-2.0", "LGPL-2.1": "LGPL-2.1", "LGPL-3": "LGPL-3.0", "MPL-1.1": "MPL-1.1", "MPL-2.0": "MPL-2.0",
}
END_OF_TERMS = re.compile(r"^ *END OF TERMS AND CONDITIONS *$", re.MULTILINE)
# where the FSF was, and where it is found
ADDRESS = re.compile(r"(?:59 Temple Place|51 Franklin St|675 Mass Ave|31 Milk St)[^\n]*(?:\n[^\n]*(?:USA|02110|02111|02139))?|<https?://(?:www\.)?fsf\.org/>|<https?://www\.gnu\.org/licenses/>")

# what would be a list item if a line began with it
ITEM = re.compile(r"(?<= )(?:[0-9]{1,3}(?:\.[0-9]{1,3})*[.):]|(?:[A-Za-z]|[ivxIVX]{1,5})[.)]|\((?:[0-9]{1,3}|[A-Za-z]|[ivxIVX]{1,5})\)|[-+*]) ")


def optional(text):
    return f"<<beginOptional>>{text}<<endOptional>>"


def marked(text):
    """The text in the published markup: a paragraph is a line, so that an item within it may begin a line of a file."""
    paragraphs = []
    for paragraph in re.split(r"\n\s*\n", text.strip()):
        line = ADDRESS.sub("\0", paragraph)
        line = " ".join(line.split()).replace("<<", "< <")
        line = ITEM.sub(lambda it: optional(it[0]), line)
        line = line.replace("\0", '<<var;name="address";original="51 Franklin Street";match=".{0,120}">>')
        paragraphs.append(line)
    return "\n\n".join(paragraphs) + "\n"


def templates_of(identifier, text):
    """The text, and where it has an appendix, the text without it and the whole."""
    end = END_OF_TERMS.search(text)
    if end and text[end.end():].strip():
        yield identifier, marked(text[:end.start()])
        yield f"{identifier}-b", marked(text)
    else:
        yield identifier, marked(text)


def main():
    if len(sys.argv) not in (2, 3):
        sys.exit("usage: common_licenses.py OUT [FOLDER]")
    folder = sys.argv[2] if len(sys.argv) == 3 else "/usr/share/common-licenses"
    os.makedirs(sys.argv[1], exist_ok=True)
    made = 0
    for name, identifier in IDENTIFIERS.items():
        if not os.path.isfile(os.path.join(folder, name)):
            continue
        with open(os.path.join(folder, name), encoding="utf-8") as file:
            text = file.read()
        for id, template in templates_of(identifier, text):
            path = os.path.join(sys.argv[1], id + ENDING)
            if not os.path.exists(path):
                with open(path, "w", encoding="utf-8") as file:
                    file.write(template)
                made += 1
    print(f"{made} templates made", file=sys.stderr)
    return 0 if made else 1


if __name__ == "__main__":
    sys.exit(main())
