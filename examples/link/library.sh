#!/usr/bin/env bash
# Puts libwagtenib.a and libwagtenib.so together in crates/libwagtenib/out/link, out of what `examples/build.py libwagtenib` has built.
set -eu
cd "$(dirname "$0")/../.."
out=$PWD/crates/libwagtenib/out/link
compiler=${CC:-cc}
for tool in "$compiler" ar; do
  command -v "$tool" >/dev/null || { echo "library.sh: $tool isn't here" >&2; exit 1; }
done
work=$(mktemp -d)
trap 'rm -rf "$work"' EXIT

# The archive gets the kit's three functions over malloc inside, so that it needs only the C library.
heap=$(dirname "$(rt doc)")/c/liblibc_c.a
proved=$PWD/crates/libwagtenib/out/liblibwagtenib.a
(cd "$work" && ar x "$heap" heap.pic.o && ar x "$proved")
mkdir -p "$out"
rm -f "$out"/libwagtenib.*
ar rcs "$out/libwagtenib.a" "$work"/*.o
"$compiler" -shared -o "$out/libwagtenib.so" -Wl,-soname,libwagtenib.so.0 -Wl,--whole-archive "$out/libwagtenib.a" -Wl,--no-whole-archive
