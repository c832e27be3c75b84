#!/bin/sh
# Times look-ups and one-cell rebuilds of the proved trees against the same algorithm in C (gcc -O2).
set -e
cd "$(dirname "$0")/../.."
(cd crates/tree_bench && rt lib)
mkdir -p target
gcc -O2 -o target/trees_bench bench/trees/trees.c crates/tree_bench/out/libtree_bench.a
target/trees_bench
