#!/bin/sh
# Times the tree: an append, a root, a path, a proof and a copy at 10^3 to 10^6 leaves, and batches of leaf hashes.
# The program is proved first, so the first run takes some minutes.
set -eu
command -v rt >/dev/null 2>&1 || { echo "bench/tree.sh: the kit's rt is not on the PATH" >&2; exit 1; }
cd "$(dirname "$0")/../crates/bench_work"
for leaves in 1000 10000 100000 1000000; do
    rt run -- tree "$leaves"
done
for leaves in 32 256 8192; do
    for workers in 1 2 4; do
        rt run -- batch "$leaves" "$workers"
    done
done
