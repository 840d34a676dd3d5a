#!/bin/sh
# Tries the must-fail edits of the crates whose first check takes long, in a copy of the repository: those in slow-edits/,
# which the gate leaves out. The names of crates may be given; without any all are tried.
set -u
top=$(cd "$(dirname "$0")/.." && pwd)
copy=$(mktemp -d)
trap 'rm -rf "$copy"' EXIT
cp -r "$top/." "$copy" || exit 1
cd "$copy" || exit 1
[ $# -gt 0 ] || set -- $(cd crates && ls -d */slow-edits | cut -d/ -f1)
for crate in "$@"; do
    mkdir -p "crates/$crate/must-fail"
    mv "crates/$crate/slow-edits/"*.edit "crates/$crate/must-fail/" || exit 1
done
rt must-fail "$@"
