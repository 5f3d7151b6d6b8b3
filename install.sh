#!/usr/bin/env bash
# Puts licscan under a prefix: the program, its manual page, completions, the starter set, line rules, spellings and documents.
# Usage: ./install.sh PREFIX [PROGRAM]   PROGRAM is the proved one, which is built first where that has not been done.
set -euo pipefail
if [ $# -lt 1 ] || [ $# -gt 2 ] || [[ $1 == -* ]]; then
    echo 'usage: ./install.sh PREFIX [PROGRAM]' >&2
    exit 2
fi
top=$(cd "$(dirname "${BASH_SOURCE[0]}")" && pwd)
program=${2:-$top/crates/licscan/out/licscan}
if [ $# -eq 1 ]; then
    "$top/licscan" --version
fi
share=$1/share
install -D -m 755 "$program" "$1/bin/licscan"
(cd "$top/share" && find . -type f) | while IFS= read -r name; do
    install -D -m 644 "$top/share/$name" "$share/$name"
done
# templates that an earlier version had are not kept
rm -rf "$share/licscan/templates" "$share/licscan/mentions" "$share/licscan/expressions" "$share/licscan/rules"
install -d "$share/licscan/templates" "$share/licscan/mentions" "$share/licscan/expressions" "$share/licscan/rules" "$share/licscan/report" "$share/doc/licscan"
install -m 644 "$top"/examples/templates/* "$share/licscan/templates"
install -m 644 "$top"/examples/mentions/* "$share/licscan/mentions"
install -m 644 "$top"/examples/expressions/* "$share/licscan/expressions"
install -m 644 "$top"/examples/rules/* "$share/licscan/rules"
install -m 644 "$top/examples/words" "$share/licscan/words"
install -m 644 "$top"/scripts/report/{lines,notices}.py "$share/licscan/report"
install -m 755 "$top"/scripts/report/{check,summary,debian,spdx,whole}.py "$share/licscan/report"
install -m 755 "$top"/scripts/templates/{common_licenses,tags}.py "$share/licscan"
install -m 644 "$top"/docs/{MANUAL,RECIPES,GLOSSARY}.md "$top/README.md" "$top/CHANGELOG.md" "$top/LICENSE" "$share/doc/licscan"
echo "installed; try: $1/bin/licscan scan --templates $share/licscan/templates FILE"
