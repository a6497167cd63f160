#!/usr/bin/env bash
# Builds libaat.a and libaat.so of crates/aat_c, with the calls that take memory inside, and installs them with the header
# and aat.pc under a prefix.
#
#     tools/install.sh PREFIX
set -euo pipefail
cd "$(dirname "$0")/.."
prefix=$(mkdir -p "$1" && cd "$1" && pwd)
(cd crates/aat_c && rt lib) > /dev/null
build=$(mktemp -d)
trap 'rm -r "$build"' EXIT
"${CC:-cc}" -O2 -fPIC -c bindings/c/allocator.c -o "$build/allocator.o"
cp crates/aat_c/out/libaat_c.a "$build/libaat.a"
ar rs "$build/libaat.a" "$build/allocator.o" 2> /dev/null
"${CC:-cc}" -shared -Wl,-soname,libaat.so.1 -o "$build/libaat.so.1" -Wl,--whole-archive "$build/libaat.a" -Wl,--no-whole-archive
install -d "$prefix/lib/pkgconfig" "$prefix/include"
install -m 644 include/aat.h "$prefix/include/aat.h"
install -m 644 "$build/libaat.a" "$prefix/lib/libaat.a"
install -m 755 "$build/libaat.so.1" "$prefix/lib/libaat.so.1"
ln -sf libaat.so.1 "$prefix/lib/libaat.so"
sed "s|@PREFIX@|$prefix|" bindings/c/aat.pc.in > "$prefix/lib/pkgconfig/aat.pc"
echo "installed in $prefix"
