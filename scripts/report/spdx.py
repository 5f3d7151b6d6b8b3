#!/usr/bin/env python3
"""Writes an SPDX 2.3 document of files: licscan scan .. | spdx.py --files LIST [--json] NAME

LIST has the names of the files with a zero byte after each, as `git ls-files -z` writes them: a file without a match is in the document too. Each file
has its SHA-1 checksum, the licences that are found in it (its texts, notices, tags and fields, or its mentions where it has nothing else), and the notices of
its lines. A licence of one's own has the text of LICENSES/NAME.txt. What is concluded is left open: NOASSERTION. SOURCE_DATE_EPOCH sets the date. It is run in the folder of the files.
"""
import argparse
import datetime
import hashlib
import json
import os
import re
import sys

import lines
import notices

# names of the starter set that are no identifiers of SPDX
UNLISTED = {"AGPL", "Apache", "Artistic", "BSD", "BSD-style", "GFDL", "GPL", "LGPL", "LGPL-2.0", "MIT-style", "PSF-contributor", "Python-terms",
            "Ruby-terms", "Unicode", "public-domain"}


def listed(name):
    """The name as a document may have it."""
    return "NOASSERTION" if name == "unknown" else f"LicenseRef-{name}" if name in UNLISTED else name


def in_file(names):
    """The identifiers that are in a file: those of expressions, each by itself."""
    found = set()
    for name in names:
        without = re.sub(r" with [^\s()/]+", "", name, flags=re.IGNORECASE)
        found.update(listed(one) for one in re.split(r"[()/\s]+", without) if one and one.lower() not in ("and", "or"))
    return sorted(found)


def described(number, file, matches):
    """A file as the document has it."""
    with open(file.encode("utf-8", "surrogateescape"), "rb") as data:
        checksum = hashlib.sha1(data.read()).hexdigest()
    return {
        "fileName": "./" + os.path.normpath(file),
        "SPDXID": f"SPDXRef-File-{number}",
        "checksums": [{"algorithm": "SHA1", "checksumValue": checksum}],
        "licenseConcluded": "NOASSERTION",
        "licenseInfoInFiles": in_file(lines.answer(matches)) or ["NONE"],
        "copyrightText": "\n".join(notices.read(file)) or "NONE",
    }


def document(name, files):
    """The document, as JSON has it."""
    sums = sorted(it["checksums"][0]["checksumValue"] for it in files)
    code = hashlib.sha1("".join(sums).encode()).hexdigest()
    seconds = int(os.environ.get("SOURCE_DATE_EPOCH", datetime.datetime.now().timestamp()))
    found, kept = sorted({it for file in files for it in file["licenseInfoInFiles"]} - {"NONE", "NOASSERTION"}), lines.kept_texts()
    return {
        "spdxVersion": "SPDX-2.3", "dataLicense": "CC0-1.0", "SPDXID": "SPDXRef-DOCUMENT", "name": name,
        "documentNamespace": f"https://spdx.org/spdxdocs/{re.sub('[^A-Za-z0-9.-]', '-', name)}-{code}",
        "creationInfo": {"created": datetime.datetime.fromtimestamp(seconds, datetime.timezone.utc).strftime("%Y-%m-%dT%H:%M:%SZ"), "creators": ["Tool: licscan"]},
        "packages": [{
            "name": name, "SPDXID": "SPDXRef-Package", "downloadLocation": "NOASSERTION", "filesAnalyzed": True,
            "packageVerificationCode": {"packageVerificationCodeValue": code}, "licenseConcluded": "NOASSERTION",
            "licenseInfoFromFiles": found or ["NONE"], "licenseDeclared": "NOASSERTION", "copyrightText": "NOASSERTION",
        }],
        "files": files,
        "hasExtractedLicensingInfos": [{"licenseId": it, "name": it.removeprefix("LicenseRef-"), "extractedText": kept.get(it, "NOASSERTION")}
                                       for it in found if it.startswith("LicenseRef-")],
        "relationships": [{"spdxElementId": "SPDXRef-DOCUMENT", "relationshipType": "DESCRIBES", "relatedSpdxElement": "SPDXRef-Package"}]
                         + [{"spdxElementId": "SPDXRef-Package", "relationshipType": "CONTAINS", "relatedSpdxElement": it["SPDXID"]} for it in files],
    }


def text(value):
    return value if value in ("NONE", "NOASSERTION") else f"<text>{value}</text>"


def tag_value(made):
    """The same as tags and values."""
    package, info = made["packages"][0], made["creationInfo"]
    rows = [("SPDXVersion", made["spdxVersion"]), ("DataLicense", made["dataLicense"]), ("SPDXID", made["SPDXID"]), ("DocumentName", made["name"]),
            ("DocumentNamespace", made["documentNamespace"]), ("Creator", info["creators"][0]), ("Created", info["created"]),
            ("Relationship", "SPDXRef-DOCUMENT DESCRIBES SPDXRef-Package"), None,
            ("PackageName", package["name"]), ("SPDXID", package["SPDXID"]), ("PackageDownloadLocation", "NOASSERTION"), ("FilesAnalyzed", "true"),
            ("PackageVerificationCode", package["packageVerificationCode"]["packageVerificationCodeValue"]), ("PackageLicenseConcluded", "NOASSERTION"),
            *(("PackageLicenseInfoFromFiles", it) for it in package["licenseInfoFromFiles"]), ("PackageLicenseDeclared", "NOASSERTION"),
            ("PackageCopyrightText", "NOASSERTION")]
    for file in made["files"]:
        rows += [None, ("FileName", file["fileName"]), ("SPDXID", file["SPDXID"]), ("FileChecksum", f"SHA1: {file['checksums'][0]['checksumValue']}"),
                 ("LicenseConcluded", "NOASSERTION"), *(("LicenseInfoInFile", it) for it in file["licenseInfoInFiles"]),
                 ("FileCopyrightText", text(file["copyrightText"]))]
    for one in made["hasExtractedLicensingInfos"]:
        rows += [None, ("LicenseID", one["licenseId"]), ("LicenseName", one["name"]), ("ExtractedText", text(one["extractedText"]))]
    return "".join(f"{row[0]}: {row[1]}\n" if row else "\n" for row in rows)


def main():
    parser = argparse.ArgumentParser(description=__doc__, formatter_class=argparse.RawDescriptionHelpFormatter)
    parser.add_argument("--files", required=True, metavar="LIST")
    parser.add_argument("--json", action="store_true")
    parser.add_argument("name")
    asked = parser.parse_args()
    lines.open_streams()
    found = {}
    for match in lines.matches(sys.stdin):
        found.setdefault(os.path.normpath(match.file), []).append(match)
    try:
        with open(asked.files, "rb") as listed:
            names = sorted(it.decode("utf-8", "surrogateescape") for it in listed.read().split(b"\0") if it)
        made = document(asked.name, [described(number, file, found.get(os.path.normpath(file), [])) for number, file in enumerate(names, 1)])
    except OSError as error:
        print(f"spdx.py: {error}", file=sys.stderr)
        return 2
    sys.stdout.write(json.dumps(made, indent=2, ensure_ascii=False) + "\n" if asked.json else tag_value(made))
    return 0


if __name__ == "__main__":
    sys.exit(main())
