#!/bin/sh
# Times take, get and put on the proved store with a map of bits against the same algorithm in C (gcc -O2).
set -e
cd "$(dirname "$0")/../.."
(cd crates/store_bench && rt lib)
mkdir -p target
gcc -O2 -o target/stores_bench bench/stores/stores.c crates/store_bench/out/libstore_bench.a
target/stores_bench
