#!/usr/bin/env bash
# cargo for this package: offline, with Debian's crates in place of crates.io, building under target/ at the repository's top.
# For example: rust/cargo.sh test --release, rust/cargo.sh bench, or rust/cargo.sh fmt --all.
set -eu
cd "$(dirname "$(readlink -f "${BASH_SOURCE[0]}")")/.."
# Debian keeps crates' sources as folders side by side.
registry=$(dpkg -L librust-itoa-dev 2>/dev/null | sed -n 's|/itoa-[^/]*$||p' | head -n 1)
command=$1
shift
# It reads no crate but ours, and knows none of the words below.
if [ "$command" = fmt ]; then
    exec cargo fmt --manifest-path rust/Cargo.toml "$@"
fi
CARGO_TARGET_DIR=target/cargo exec cargo "$command" --offline --manifest-path rust/Cargo.toml \
    --config 'source.crates-io.replace-with="debian"' \
    --config "source.debian.directory=\"$registry\"" "$@"
