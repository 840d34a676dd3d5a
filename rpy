#!/bin/sh
# Runs the program with the words given, from any folder. Where it is not built yet, or a source is newer, it is proved and built first.
# With RPY_BUILD=try it is run unproved, for a first look.
here=$(CDPATH= cd -- "$(dirname -- "$(readlink -f -- "$0")")" && pwd) || exit 70
program=$here/crates/rpy/out/rpy

is_current() {
    [ -x "$program" ] && [ -z "$(find "$here/crates.txt" "$here"/crates/*/src "$here"/crates/*/specs -newer "$program" -print | head -n 1)" ]
}

if [ "${RPY_BUILD:-}" = try ]; then
    echo "rpy: running the program through rt try, unproved; files are named by their whole paths" >&2
    for word; do
        shift
        if [ -f "$word" ]; then word=$(readlink -f -- "$word"); fi
        set -- "$@" "$word"
    done
    cd "$here/crates/rpy" && exec rt try -- "$@"
fi

if ! is_current; then
    echo "rpy: proving and building the program; the first time proves every crate, which takes its time" >&2
    log=$(mktemp) || exit 70
    (cd "$here/crates/rpy" && rt run </dev/null >"$log" 2>&1)
    if ! grep -q '^rt: running ' "$log"; then
        cat "$log" >&2
        rm -f "$log"
        exit 70
    fi
    rm -f "$log"
    touch "$program"
fi
exec "$program" "$@"
