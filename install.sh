#!/usr/bin/env bash
# Installs the library for C programs: ./install.sh [PREFIX], which is /usr/local where it isn't given.
# It writes PREFIX/include/qs.h, PREFIX/lib/libqs.a and PREFIX/lib/pkgconfig/qs.pc, all of them below
# the folder DESTDIR where that is set, as packagers want it. A program is then built by
#
#     cc read.c $(pkg-config --cflags --libs qs) -o read
#
# The library is proved and built first where that is due (library.sh).
set -eu

usage='usage: ./install.sh [PREFIX], an absolute path'
prefix=${1-/usr/local}
if [ "$prefix" = --help ]; then
    echo "$usage"
    exit
fi
if [ $# -gt 1 ] || [[ $prefix != /* ]]; then
    echo "$usage" >&2
    exit 2
fi
# before the folder changes, since DESTDIR may be relative to the caller's
to=${DESTDIR:+$(realpath -m "$DESTDIR")}$prefix
cd "$(dirname "$(readlink -f "${BASH_SOURCE[0]}")")"
./library.sh
version=$(sed -n 's/^#define QS_VERSION "\(.*\)"$/\1/p' include/qs.h)
module=$(<qs.pc.in)
module=${module//@PREFIX@/"$prefix"}
module=${module//@VERSION@/"${version:?include/qs.h has no QS_VERSION}"}
install -D -m 644 include/qs.h "$to/include/qs.h"
install -D -m 644 target/staticlib/libqs.a "$to/lib/libqs.a"
mkdir -p "$to/lib/pkgconfig"
echo "$module" >"$to/lib/pkgconfig/qs.pc"
chmod 644 "$to/lib/pkgconfig/qs.pc"
echo "qs $version is in $to"
