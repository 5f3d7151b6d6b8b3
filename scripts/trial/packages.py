#!/usr/bin/env python3
"""Draws Debian source packages by a seed, and fetches them: packages.py FOLDER [--seed N] [--count N] [--without NAME ..] [--without-seeds N ..] [--only NAME ..]

Packages are drawn from apt's list of sources, each of another section where that can be, those above 5 MB left out, and are unpacked to
FOLDER/NAME. Those that cannot be fetched, or whose debian/copyright is not machine-readable, are left out, and the next one is drawn.
apt keeps its lists in FOLDER/.apt, so the system's are left as they are, and no right is needed.

The draws of docs/TESTING.md were made `--without-seeds` 1, 3, 41, 20261128, 20261205, 20261207 to 20261211, 20261303, 20261401, 20261801, 20261301, 20261302,
20261501, 20261601, then those of its table, 20262001 to 20262003 before the last two."""
import argparse
import os
import random
import shutil
import subprocess
import sys

SOURCES = "deb-src [signed-by=/usr/share/keyrings/debian-archive-keyring.gpg] http://deb.debian.org/debian {} main\n"
CONFIGURATION = """\
Dir::Etc::sourcelist "{0}/sources.list";
Dir::Etc::sourceparts "-";
Dir::State::lists "{0}/lists";
Dir::Cache "{0}/cache";
"""
MAX_BYTES = 5_000_000
# drawn at most, for each that is wanted: of some copies of Debian's archive most packages cannot be fetched
TRIES = 30
# how many of the first that another seed draws are left out: as many as a draw of 24 packages may try
OF_A_SEED = 720


def prepare(folder, suite):
    """An apt of our own: the environment in which it runs. Its list is fetched once."""
    apt = os.path.join(os.path.abspath(folder), ".apt")
    environment = dict(os.environ, APT_CONFIG=os.path.join(apt, "conf"))
    if not os.path.exists(os.path.join(apt, "conf")):
        for name in ("lists/partial", "cache/archives/partial"):
            os.makedirs(os.path.join(apt, name), exist_ok=True)
        with open(os.path.join(apt, "sources.list"), "w", encoding="utf-8") as file:
            file.write(SOURCES.format(suite))
        with open(os.path.join(apt, "conf"), "w", encoding="utf-8") as file:
            file.write(CONFIGURATION.format(apt))
        subprocess.run(["apt-get", "-qq", "update"], env=environment, check=True)
    return environment


def listed(environment):
    """The section of each source package that is not too large."""
    words = ["apt-get", "indextargets", "--format", "$(FILENAME)", "Created-By: Sources"]
    paths = subprocess.run(words, env=environment, check=True, stdout=subprocess.PIPE, text=True).stdout.split()
    text = subprocess.run(["/usr/lib/apt/apt-helper", "cat-file", *paths], env=environment, check=True, stdout=subprocess.PIPE, text=True).stdout
    found = {}
    for paragraph in text.split("\n\n"):
        fields = dict(line.split(": ", 1) for line in paragraph.split("\n") if ": " in line and line[0] != " ")
        sums = paragraph.partition("Checksums-Sha256:")[2].partition("\n")[2].split("\n")
        size = sum(int(line.split()[1]) for line in sums[:next((at for at, line in enumerate(sums) if line[:1] != " "), len(sums))])
        if "Package" in fields and 0 < size <= MAX_BYTES:
            found[fields["Package"]] = fields.get("Section", "")
    return found


def drawn(found, seed, without):
    """The packages in the order in which they are drawn: one of each section, then a second one of each, and so on."""
    rows = {}
    for name in random.Random(seed).sample(sorted(found), len(found)):
        if name not in without:
            rows.setdefault(found[name], []).append(name)
    sections = random.Random(seed).sample(sorted(rows), len(rows))
    return [rows[section][at] for at in range(max(map(len, rows.values()))) for section in sections if at < len(rows[section])]


def wanted_of(asked, found):
    """The packages to be tried, in this order."""
    earlier = set()
    for seed in asked.without_seeds:
        # a seed may have drawn without those that are named before it
        earlier.update(drawn(found, seed, set())[:OF_A_SEED], drawn(found, seed, earlier)[:OF_A_SEED])
    return drawn(found, asked.seed, set(asked.without) | earlier)[:TRIES * asked.count]


def fetch(folder, name, environment):
    """Whether the package is there, unpacked and machine-readable."""
    place = os.path.join(folder, name)
    os.makedirs(place, exist_ok=True)
    words = ["apt-get", "-qq", "source", "--only-source", name]
    done = subprocess.run(words, cwd=place, env=environment, stdout=subprocess.DEVNULL, stderr=subprocess.DEVNULL, check=False)
    folders = [it.path for it in os.scandir(place) if it.is_dir()]
    copyright = os.path.join(folders[0], "debian", "copyright") if folders else ""
    if done.returncode == 0 and os.path.exists(copyright) and b"\nFiles:" in open(copyright, "rb").read():
        for file in os.scandir(place):
            if file.is_file():
                os.remove(file.path)
        return True
    shutil.rmtree(place)
    return False


def main():
    parser = argparse.ArgumentParser(description=__doc__, formatter_class=argparse.RawDescriptionHelpFormatter)
    parser.add_argument("folder")
    parser.add_argument("--seed", type=int, default=1)
    parser.add_argument("--count", type=int, default=12)
    parser.add_argument("--suite", default="bookworm")
    parser.add_argument("--without", nargs="*", default=[], help="packages that are not drawn, such as those that were looked at")
    parser.add_argument("--without-seeds", type=int, nargs="*", default=[], help="seeds of earlier draws, in their order, whose first packages are not drawn")
    parser.add_argument("--only", nargs="*", help="these packages, none is drawn")
    asked = parser.parse_args()
    environment = prepare(asked.folder, asked.suite)
    names = asked.only or wanted_of(asked, listed(environment))
    wanted = len(names) if asked.only else asked.count
    fetched = 0
    for name in names:
        if fetched < wanted and fetch(asked.folder, name, environment):
            print(name, flush=True)
            fetched += 1
    return 0 if fetched == wanted else 1


if __name__ == "__main__":
    sys.exit(main())
