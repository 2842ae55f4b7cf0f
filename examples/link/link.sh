#!/usr/bin/env bash
# Builds libwagtenib.a and libwagtenib.so into crates/libwagtenib/out/link, and runs programs in C and Python over them.
set -euo pipefail
cd "$(dirname "$0")/../.."
out=$PWD/crates/libwagtenib/out/link
compiler=${CC:-cc}
for tool in "$compiler" nm python3; do
  command -v "$tool" >/dev/null || { echo "link: $tool isn't here" >&2; exit 1; }
done
work=$(mktemp -d)
trap 'rm -rf "$work"' EXIT

echo "Building libwagtenib: rt proves it and the crates below it, and says which it is at."
examples/build.py libwagtenib
examples/link/library.sh
nm "$out/libwagtenib.a" >"$work/names" 2>/dev/null
python3 examples/link/names.py "$work/names"

echo
python3 examples/link/cases.py >"$work/cases"
python3 examples/link/cases.py --header >"$work/hashes.h"
flags="-std=c99 -Wall -Wextra -Werror -O1 -Iinclude -I$work"
sanitize=-fsanitize=address,undefined
echo 'int main(void) { return 0; }' >"$work/empty.c"
if ! "$compiler" $sanitize "$work/empty.c" -o "$work/empty" 2>/dev/null; then
  echo "C: without the address sanitizer, which $compiler hasn't got here"
  sanitize=
fi
"$compiler" $flags $sanitize examples/link/verify.c "$out/libwagtenib.a" -o "$work/verify"
"$work/verify" <"$work/cases"
"$compiler" $flags examples/link/follow.c "$out/libwagtenib.a" -pthread -Wl,--wrap=malloc,--wrap=realloc -o "$work/follow"
"$work/follow"
if command -v "${CXX:-c++}" >/dev/null; then
  echo '#include "wagtenib.h"' >"$work/header.cc"
  "${CXX:-c++}" -Wall -Wextra -Werror -Iinclude -c "$work/header.cc" -o "$work/header.o"
  echo "C++: the header compiles"
else
  echo "C++: not tried, no ${CXX:-c++} here"
fi
python3 examples/link/verify.py "$out/libwagtenib.so" <"$work/cases"
if command -v valgrind >/dev/null && valgrind --quiet true 2>/dev/null; then
  "$compiler" $flags -g examples/link/verify.c "$out/libwagtenib.a" -o "$work/plain"
  valgrind --quiet --leak-check=full --error-exitcode=3 "$work/plain" <"$work/cases" | sed 's/^C:/C under valgrind:/'
fi
echo
echo "libwagtenib.a and libwagtenib.so are in crates/libwagtenib/out/link; make install PREFIX=.. copies them and the header."
