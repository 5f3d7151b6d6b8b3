"""Names of licences as they are compared: those of Debian, of SPDX and of the starter set become one."""
import re

# names that say the same
SAME = {
    "expat": "mit", "mit/expat": "mit", "expat/mit": "mit", "mit-license": "mit", "pd": "public-domain", "publicdomain": "public-domain",
    "artistic-1.0-perl": "artistic", "artistic-1": "artistic", "artistic-1.0": "artistic", "bsd-2": "bsd-2-clause", "bsd-3": "bsd-3-clause", "bsd3": "bsd-3-clause", "bsd_2_clause": "bsd-2-clause", "bsd_3_clause": "bsd-3-clause", "apache2": "apache-2",
    "bsd-4": "bsd-4-clause", "boost-1.0": "bsl-1", "boost": "bsl-1", "bsl": "bsl-1", "asl-2.0": "apache-2", "asl2": "apache-2", "python": "psf-2", "python-2.0": "psf-2", "psf": "psf-2", "libpng-2": "libpng", "zlib/libpng": "zlib",
    "bsd2": "bsd-2-clause", "perl": "artistic", "ntp": "hpnd", "lgpl-2.0": "lgpl-2", "cc0": "cc0-1", "wtfpl-2": "wtfpl", "fsf-unlimited": "fsfullr", "fsful": "fsfullr",
}
FAMILIES = "afl agpl lgpl gpl gfdl apache mpl artistic bsd cc-by-sa cc-by cddl cecill epl ofl".split()
SUFFIX = re.compile(r"-(identifier|field|notice|mention)(-[b-z])?(-dot)?$")


def name_of(written):
    """One licence in small letters; `+` for 'or later', no `.0` at the end, no exception."""
    name = re.split(r"[ _-]with[ _-]|-exception$|~", written.strip().strip("()").lower())[0].strip(" ,()")
    # without invariant sections, as Debian calls it
    name = re.sub(r"^gfdl-niv-", "gfdl-", name)
    name = re.sub(r"^(bsd|mit)-(style|like)$", r"\1", name)
    name = re.sub(r"-or-later$", "+", re.sub(r"-only$", "", name))
    name = re.sub(r"^([al]?gpl)v?(\d)", r"\1-\2", name)
    name = SAME.get(name, name)
    name = re.sub(r"(\d)\.0(\+?)$", r"\1\2", re.sub(r"v(\d)", r"\1", name))
    clauses = re.match(r"bsd-[234]-clauses?", name)
    return SAME.get(name, clauses[0].rstrip("s") if clauses else name)


def names_of(expression):
    """All licences of an expression, of Debian's or SPDX's form, as a set."""
    plain = re.sub(r"(?i)mit/(expat|x11)", "MIT", expression).replace("-OR-", " or ")
    parts = re.split(r"\s+(?:and/or|and|or)\s+|\s*[,/|]\s*(?:and |or )?", plain, flags=re.IGNORECASE)
    return {name for name in map(name_of, parts) if name}


def family_of(name):
    return next((it for it in FAMILIES if re.match(rf"{it}(?![a-z])", name)), name)


def verdict(stated, said):
    """How what a scanner says of a file agrees with what the maintainers state."""
    if not said:
        return "silent"
    if stated & said:
        return "agree"
    # the same family without its version or with another choice of later versions, or a version that the maintainers do not tell
    for one in said:
        for other in stated:
            if family_of(one) == family_of(other) and (one.rstrip("+") == other.rstrip("+") or family_of(one) in (one, other)):
                return "less exact"
    return "other"
