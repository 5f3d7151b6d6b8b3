"""Copyright notices in a file's text: years and holders, as its lines have them."""
import re

MAX_BYTES = 1_000_000
# a sign, years, a holder
NOTICE = re.compile(r"(?:copyright|\(c\)|©)[\s:]*(?:copyright|\(c\)|©|[\s:,])*((?:19|20)\d\d[-–—\d,\s]*)(?:by\s+)?([^\d\s].*)", re.IGNORECASE)
# a field of SPDX, a sign or none, years or none, a holder
FIELD = re.compile(r"SPDX-(?:File|Snippet)CopyrightText:(?:copyright|\(c\)|©|[\s:,])*((?:19|20)\d\d[-–—\d,\s]*)?(?:by\s+)?([^\d\s].*)", re.IGNORECASE)
# what does not belong to a holder: the end of a comment or of a program's string, and sentences that follow
END = re.compile(r"\s*(?:\\[nrt].*|\"\s*[,;)].*|\*+/|-->|\*/|[|*#/]+\s*$|\ball rights reserved\b.*|\blicen[cs]ed under\b.*|\bpermission is hereby\b.*)", re.IGNORECASE)
# a year, or from a year to another one, `1999-2004` or `1999-04`
SPAN = re.compile(r"(?<!\d)(\d{4})(?:-(\d{4}|\d\d))?(?![\d-])")


def read(path):
    """The notices of a file, `2019-2024 A. Author`, each once, in its order. One in a field of SPDX may have no year."""
    with open(path.encode("utf-8", "surrogateescape"), "rb") as file:
        text = file.read(MAX_BYTES).decode("utf-8", "replace")
    return found(text)


def found(text):
    notices = []
    for line in text.split("\n"):
        match = FIELD.search(line) or NOTICE.search(line)
        if match:
            years = re.sub(r"\s*[-–—]+\s*", "-", " ".join((match[1] or "").split())).strip(" ,-")
            holder = END.sub("", match[2]).strip(" \t\r,.;\"'")
            if holder and re.search(r"[^\W\d_]{2}", holder):
                notices.append(f"{years} {' '.join(holder.split())}".strip())
    return list(dict.fromkeys(notices))


def merged(notices):
    """One notice for each holder, with all its years, in the order of the holders' first notices. One whose years are spelled otherwise stays."""
    years = {}
    for notice in notices:
        spans, holder = re.fullmatch(r"(?:([\d,\s-]*\d) )?(.*)", notice).groups("")
        if SPAN.sub("", spans).strip(", "):
            years.setdefault(notice, set())
            continue
        known = years.setdefault(holder, set())
        for first, last in SPAN.findall(spans):
            known.update(range(int(first), int(first[:4 - len(last)] + last) + 1))
    return [f"{spelled(it)} {holder}".strip() for holder, it in years.items()]


def spelled(years):
    """Years as they are written: `1999, 2001-2004`."""
    firsts = sorted(it for it in years if it - 1 not in years)
    lasts = sorted(it for it in years if it + 1 not in years)
    return ", ".join(str(first) if first == last else f"{first}-{last}" for first, last in zip(firsts, lasts))
