#!/usr/bin/env bash
# Proves and writes the static library, target/staticlib/libqs.a, where it is missing or older than
# its sources; that needs rt. Where it is neither, nothing is done.
set -eu
cd "$(dirname "$(readlink -f "${BASH_SOURCE[0]}")")"
library=target/staticlib/libqs.a

# What rt keeps in a crate's out/ is no source.
due() {
    [ ! -f "$library" ] || [ -n "$(find crates crates.txt -name out -prune -o -type f -newer "$library" -print -quit)" ]
}

if due; then
    mkdir -p target/staticlib
    # Of two that are called at once the second waits, and finds it done.
    exec 9>target/library.lock
    flock 9
    if due; then
        (cd crates/qs && rt lib)
        cp crates/qs/out/libqs.a "$library"
    fi
fi
