#!/usr/bin/env bash
# Proves ctlog and the crates below it, and shows an audit path as long as that of a real log, and forged ones, checked by libwagtenib; and ctlog on the
# first session of docs/LINES.md and on real certificate chains, through one front and through four at once. Each part is shown as soon as its crates are proved.
# It quotes what is proved, and compares the output with the expected output.
#
#     demo.sh          all parts
#     demo.sh PART     one of them, whose crates are built: path or log
#
# With CTLOG=PATH another program with the same command line is run in place of ctlog, only in its part.
set -eu
export PYTHONDONTWRITEBYTECODE=1
program=${CTLOG:+$(realpath "$CTLOG")}
cd "$(dirname "$0")/.."
program=${program:-crates/ctlog/out/ctlog}
ring=32
open_at=1767225600000
close_at=1767225660000
work=$(mktemp -d)
trap 'rm -rf "$work"' EXIT

fail() {
  echo "demo: $1" >&2
  exit 1
}

# Says what is proved, in words and by a quotation of the sources, whose lines are on standard input. Nothing is proved of another program.
proved() {
  [ -z "${CTLOG:-}" ] || return 0
  echo "Proved, in $1: $2"
  local line
  while IFS= read -r line; do
    grep -qF -- "$line" "$1" || fail "$1 does not say: $line"
    echo "    | $line"
  done
}

# Runs the program on the lines of examples/$2.jsonl with $1 fronts. The replies come to $work/$2, and once more to $work/$2.shown. With several fronts, the
# second file has no numbers of tickets, because these depend on how the threads ran.
run() {
  "$program" --fronts "$1" --ring "$ring" --open-at "$open_at" --close-at "$close_at" \
    <"examples/$2.jsonl" >"$work/$2" || fail "$program ended with status $?"
  if [ "$1" = 1 ]; then
    cp "$work/$2" "$work/$2.shown"
  else
    sed -E 's/"ticket":[0-9]+/"ticket":_/' "$work/$2" >"$work/$2.shown"
  fi
}

# Compares the shown replies with the expected ones, and the numbers of the tickets with 0, 1, 2 and so on.
compare() {
  if ! cmp -s "$work/$2.shown" "examples/$2.expected.jsonl"; then
    diff "$work/$2.shown" "examples/$2.expected.jsonl" >&2 || true
    fail "the replies differ from examples/$2.expected.jsonl"
  fi
  sed -nE 's/^\{"ticket":([0-9]+)\}$/\1/p' "$work/$2" | sort -n >"$work/tickets"
  seq 0 $(($(wc -l <"$work/tickets") - 1)) | cmp -s - "$work/tickets" || fail "the tickets aren't 0, 1, 2 and so on, each once"
}

# Has an independent program compute the same replies.
recompute() {
  python3 tests/expected.py "$1" "$ring" "$open_at" "$close_at" <"examples/$2.jsonl" |
    cmp -s - "$work/$2.shown" || fail "tests/expected.py computes other replies"
  echo "An independent program (tests/expected.py, with only hashlib) computes the same replies."
}

# Shows the next replies, cut short, equal ones once with their number. $1 names who asked, $2 is how many they are.
show() {
  echo "  $1"
  sed -n "$((shown + 1)),$((shown + $2))p" "$work/four-fronts.shown" | uniq -c | cut -c1-120 | sed -E 's/^ *([0-9]+) /    \1 x /; s/^(    )1 x /\1    /'
  shown=$((shown + $2))
}

lines_of() {
  grep -c "^{\"who\":$1," examples/four-fronts.jsonl
}

show_path() {
  echo "== An audit path as long as a real log's, and forged ones, checked by libwagtenib =="
  proved crates/ct_verify/src/inclusion.rt "whatever the hashes and numbers are, the path is accepted exactly where it leads from the leaf to the root, and otherwise refused by a fault that it has" <<'END'
ensures { MatchResult result (λ _. AcceptsInclusion H.digest leaf_hash.now index size path.now root.now)
    (RefusesInclusion H.digest leaf_hash.now index size path.now root.now) }
END
  if command -v "${CC:-cc}" >/dev/null && dist/library.sh "$work/libwagtenib.so"; then
    echo "The library over it was proved elsewhere, and is compiled from dist/ (make link proves it here)."
    python3 examples/link/real_path.py "$work/libwagtenib.so" || fail "examples/link/real_path.py finds other answers"
  else
    echo "It isn't linked and run, because there is no C compiler for a processor of dist/."
  fi
}

show_log() {
  echo "== The first session of docs/LINES.md: $program --fronts 1 --ring 4096 --close-at 7 < examples/first-session.jsonl =="
  proved crates/ctlog/src/main.rt "where the exit status is 0, what is written is what a log replies to all that was read, in some order between its fronts" <<'END'
ensures done { result ≡ 0 → IsDone (asked_of (name_of Program.Ctlog) words.now) (R.remaining input.old) (W.contents output.old) (W.contents output.new) }
END
  "$program" --fronts 1 --ring 4096 --close-at 7 <examples/first-session.jsonl >"$work/first-session" || fail "$program ended with status $?"
  cat "$work/first-session"
  diff "$work/first-session" examples/first-session.expected.jsonl >&2 || fail "the replies differ from examples/first-session.expected.jsonl"
  echo

  echo "One front: $program --fronts 1 --ring $ring --open-at $open_at --close-at $close_at < examples/real-chains.jsonl"
  run 1 real-chains
  compare 1 real-chains
  echo "$(grep -c '"add-chain"' examples/real-chains.jsonl) chains of certificates and $(grep -c '"add-pre-chain"' examples/real-chains.jsonl) of precertificates, some twice, two empty; settled, shut down, and closed. The tree head:"
  tail -n 1 "$work/real-chains"
  echo "Each of the $(grep -c . "$work/real-chains") replies is the expected one."
  recompute 1 real-chains
  echo

  echo "Four fronts in threads: $program --fronts 4 .. < examples/four-fronts.jsonl"
  for _ in 1 2 3; do
    run 4 four-fronts
    compare 4 four-fronts
  done
  shown=0
  for front in 0 1 2 3; do
    show "front $front" "$(lines_of "$front")"
  done
  show "the operator, and a line that is no request" $(($(lines_of '"operator"') + 1))
  show "the frozen log" "$(lines_of '"frozen"')"
  echo "In three runs each of the $(grep -c . "$work/four-fronts") replies is the expected one, and the tickets are those that were to be given, each once."
  recompute 4 four-fronts
  python3 tests/check.py 4 examples/four-fronts.jsonl "$work/four-fronts" || fail "tests/check.py finds a fault"
  echo "Another (tests/check.py) finds that the tickets, the order of the entries, and all receipts and proofs in it are right."
}

case ${1:-all} in
  path | log) "show_$1" ;;
  all)
    if [ -z "${CTLOG:-}" ]; then
      examples/build.py ct_verify
      show_path
      examples/build.py ctlog
    fi
    show_log
    ;;
  *) fail "no part is named $1" ;;
esac
