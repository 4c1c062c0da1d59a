#!/usr/bin/env bash
# Runs the layout program: rust/layout.sh TICKET [NAME...]. rust/layout.sh --help tells the rest.
# It builds the library (library.sh) and the program first where that is due. It needs rustc, rt for
# the library, and no crate but ours.
set -eu
# The folder stays the caller's, so that --file finds a path as the caller means it.
top=$(dirname "$(dirname "$(readlink -f "${BASH_SOURCE[0]}")")")
sources=$top/rust/src
library=$top/target/staticlib
folder=$top/target/rust
program=$folder/layout
"$top/library.sh" >&2
if [ ! -x "$program" ] || [ -n "$(find "$sources" "$library" -newer "$program" -type f -print -quit)" ]; then
    mkdir -p "$folder"
    rustc --edition 2021 -O --crate-type rlib --crate-name qs --cfg 'feature="alloc"' \
        -L native="$library" -l static=qs -o "$folder/libqs.rlib" "$sources/lib.rs"
    rustc --edition 2021 -O --extern qs="$folder/libqs.rlib" -o "$program" "$sources/bin/layout.rs"
fi
exec "$program" "$@"
