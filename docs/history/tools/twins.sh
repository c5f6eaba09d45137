#!/bin/sh
# Lists the pairs of places in the sources that share five or more lines, or lines of one shape, by the machine's command
# `duplicates`, which reads files that end in .rs: over a copy without contracts, comments and imports.
# usage: docs/history/tools/twins.sh [FOLDER]      FOLDER: the top of a checkout, else the current folder
set -eu
copy=$(mktemp -d)
trap 'rm -rf "$copy"' EXIT
cd "${1:-.}"
git ls-files 'crates/*/src/*.rt' | while read -r file; do
    to="$copy/${file%.rt}.rs"
    mkdir -p "$(dirname "$to")"
    grep -vE '^\s*(ghost use|use |ensures|requires)' "$file" | sed 's#//.*##' > "$to"
done
duplicates --repo "$copy" --most 100 --min-lines 5
