#!/usr/bin/env bash
# Builds the programs twice, in folders of other names and lengths, by other numbers of processors, and compares their bytes: reproduce.sh [CRATE..].
# Without CRATE it builds the programs in Go. If the kit is on the PATH, it also builds the programs whose crates are already built here (make programs) and
# libwagtenib: it links each of them again from its proofs. (The folders crates/*/out that `rt ci` left have no mark by which rt knows their sources, so rt
# proves them once more.) If all programs are there, it makes two releases, whose SHA256SUMS must be the same. It ends with status 1 if two builds differ.
set -eu
cd "$(dirname "$0")/.."
export PYTHONDONTWRITEBYTECODE=1
work=$(mktemp -d)
trap 'rm -rf "$work"' EXIT
first=$work/a second=$work/another-folder-with-a-longer-name/of-a-checkout
status=0

# compare NAME FILE FILE
compare() {
  if cmp -s "$2" "$3"; then
    echo "the same twice: $1 $(sha256sum <"$2" | cut -c 1-64)"
  else
    echo "DIFFERS: $1" >&2
    status=1
  fi
}

# Copies the files of the commit without anything that was built, and git's folder, which has the commit.
copy() {
  mkdir -p "$1"
  git archive --format=tar HEAD | tar -x -C "$1"
  git clone -q --no-checkout . "$1.git" && mv "$1.git/.git" "$1" && rm -rf "$1.git"
  git -C "$1" reset -q
}

programs="ctlog"
crates=$*
if [ $# -eq 0 ]; then
  for name in $programs libwagtenib; do
    [ ! -d "crates/$name/out" ] || crates+=" $name"
  done
  copy "$first"
  copy "$second"
  # (each build compiles everything, Go's own library too, and takes nothing from the other one)
  GOCACHE=$work/go-a PROCESSORS=1 "$first/cmd/build.sh" build
  GOCACHE=$work/go-b PROCESSORS=$(nproc) "$second/cmd/build.sh" build
  for path in "$first"/cmd/out/*; do
    compare "${path##*/}" "$path" "$second/cmd/out/${path##*/}"
  done
fi
if [ -n "$crates" ] && ! command -v rt >/dev/null; then
  echo "the kit isn't on the PATH: of the crates nothing is built"
  crates=
fi

# build CRATE: in both folders, in the first on one processor. The proofs of the crates below, and of the program itself, are copied, and rt checks that they
# are of these sources. No machine code is copied: a crate's library has none, and a program's code is made of all crates below it.
one=$(taskset -cp $$ | sed 's/.*: *\([0-9]*\).*/\1/')
build() {
  local top it on
  for top in "$first" "$second"; do
    on=()
    [ "$top" = "$second" ] || on=(taskset -c "$one")
    [ -d "$top/crates" ] || copy "$top"
    (cd crates && for it in */out; do [ ! -d "$it/rlib" ] || { mkdir -p "$top/crates/$it" && cp -a "$it/rlib" "$top/crates/$it/"; }; done)
    mkdir -p "$top/crates/$1/out"
    [ ! -d "crates/$1/out/incremental" ] || cp -a "crates/$1/out/incremental" "$top/crates/$1/out/"
    if [ "$1" = libwagtenib ]; then
      (cd "$top" && "${on[@]}" examples/build.py libwagtenib >/dev/null && "${on[@]}" examples/link/library.sh)
    else
      (cd "$top/crates/$1" && "${on[@]}" rt run -- --version </dev/null >/dev/null)
    fi
  done
}

for name in $crates; do
  build "$name"
  if [ "$name" = libwagtenib ]; then
    for end in a so; do
      compare "libwagtenib.$end" "$first/crates/$name/out/link/$name.$end" "$second/crates/$name/out/link/$name.$end"
    done
  else
    compare "$name" "$first/crates/$name/out/$name" "$second/crates/$name/out/$name"
  fi
done
lacking=
for name in $programs libwagtenib; do
  [[ " $crates " == *" $name "* ]] || lacking+=" $name"
done
if [ $# -gt 0 ]; then
  exit $status
elif [ -n "$lacking" ]; then
  echo "no release is made, since these aren't proved here:$lacking"
else
  "$first/release/release.py" >/dev/null
  "$second/release/release.py" >/dev/null
  compare SHA256SUMS "$first/release/out/SHA256SUMS" "$second/release/out/SHA256SUMS"
fi
exit $status
