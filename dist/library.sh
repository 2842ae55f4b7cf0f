#!/bin/sh
# Makes libwagtenib.so of the files of this folder, by a C compiler: library.sh FILE
set -eu
here=$(cd "$(dirname "$0")" && pwd)
code=$("$here/processor.sh")
exec "${CC:-gcc}" -shared -fPIC -O2 "$here/memory.c" "$code" -Wl,-soname,libwagtenib.so.0 -o "$1"
