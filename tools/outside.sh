#!/bin/sh
# Makes a copy of the repository in a new folder, with the crates of outside/ in their places: there they can be proved
# (`rt check meaning_runner`), and their program built for tools/check_flow.py and tools/check_meaning.py.
set -eu
[ $# -eq 1 ] || { echo 'usage: tools/outside.sh FOLDER' >&2; exit 1; }
top=$(cd "$(dirname "$0")/.." && pwd)
mkdir "$1"
cp -r "$top/." "$1"
cd "$1"
for folder in outside/*/; do
    name=$(basename "$folder")
    mv "$folder" "crates/$name"
    find "crates/$name" -name '*.txt' | while read -r file; do mv "$file" "${file%.txt}"; done
done
cat outside/lines.txt >> crates.txt
rm -r outside
