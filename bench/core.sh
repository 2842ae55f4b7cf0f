#!/bin/sh
# Times the sequencing core at 10^3 to 10^6 entries of 1,500 bytes, or at the numbers given: settle_one of a new entry
# and of a repeat, without the leaf hash, publish, and what answers and records take. The largest size takes some 4 GB.
# The program is proved first, so the first run takes some minutes.
set -eu
command -v rt >/dev/null 2>&1 || { echo "bench/core.sh: the kit's rt is not on the PATH" >&2; exit 1; }
cd "$(dirname "$0")/../crates/bench_work"
[ $# -gt 0 ] || set -- 1000 10000 100000 1000000
for entries; do
    rt run -- core "$entries"
done
