#!/usr/bin/env bash
# Proves and builds the programs, target/bin/list, replay and show, each where it is missing or older
# than its sources; that needs rt. What rt ci or rt run has built since, it takes as it is.
set -eu
cd "$(dirname "$(readlink -f "${BASH_SOURCE[0]}")")"

# Whether a file is missing or older than the sources. What rt keeps in a crate's out/ is none.
due() {
    [ ! -f "$1" ] || [ -n "$(find crates crates.txt -name out -prune -o -type f -newer "$1" -print -quit)" ]
}

mkdir -p target/bin
# Of two that are called at once the second waits, and finds it done.
exec 9>target/programs.lock
flock 9
for name in list replay show; do
    built=crates/$name/out/$name
    program=target/bin/$name
    if due "$program"; then
        if due "$built"; then
            (cd "crates/$name" && rt run <stdin >/dev/null)
        fi
        cp "$built" "$program"
    fi
done
