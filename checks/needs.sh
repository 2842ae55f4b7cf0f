#!/usr/bin/env bash
# Says which tools a target of the Makefile that needs the kit lacks here: needs.sh demo|prove|claim|check|link|dist|programs. deps/fetch.sh fetches what the others need.
set -u
cd "$(dirname "$0")/.." || exit
what=$1
missing=0

lacks() {
  echo "make $what lacks $1" >&2
  missing=1
}

command -v rt >/dev/null || lacks "rt, the command of the Rattle kit: put the kit's folder bin on the PATH (README.md, 'With the kit')"
command -v python3 >/dev/null || lacks "python3, 3.8 or later"
if command -v python3 >/dev/null && ! python3 -c 'import sys; sys.exit(sys.version_info < (3, 8))'; then
  lacks "a python3 of 3.8 or later: this one is $(python3 --version 2>&1)"
fi
case $what in
  demo) tools="awk cmp cut diff grep mktemp realpath sed seq sort tail uniq wc" ;; # (and a C compiler, if its part must be linked)
  link) tools="${CC:-cc} ar mktemp nm sed" ;;
  check) tools="cmp rm" ;;
  prove) tools="${CC:-cc} cmp rm" ;;
  *) tools= ;;
esac
for tool in $tools; do
  command -v "$tool" >/dev/null || lacks "$tool"
done
[ "$missing" = 0 ] || exit 1

# Kits of one logic prove alike.
kit=$(rt version)
logic="logic ${kit##*logic }"
[[ $(<README.md) == *"\`$logic\`"* ]] || echo "This kit is $kit, of another logic than README.md names: proofs made with that one may fail here." >&2
