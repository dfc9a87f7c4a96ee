#!/usr/bin/env bash
# Two tables, in markdown: the proved library beside a plain Rust and a plain C unit, and in short runs and serves beside the C unit without
# its soundness test. Nanoseconds are the best of many rounds in which the contestants take turns, instructions are callgrind's (no figure
# without valgrind). --only N prints one row of the first table, --runs the second table, --list the rows' numbers. T1MMU_LIB names a
# folder with the archives to measure in place of this repository's.
set -euo pipefail
cd "$(dirname "$0")/.."
source tools/library.bash
need gcc cargo
need_library
mkdir -p target/bench
gcc -O3 -std=c11 -Wall -Wextra -Iinclude -c bench/plain.c -o target/bench/plain.o
ar rcs target/bench/libplain.a target/bench/plain.o
export PLAIN_LIB=$PWD/target/bench CARGO_TARGET_DIR=$PWD/target/bench
cargo build --release --offline --locked --quiet --manifest-path bench/Cargo.toml
target/bench/release/bench "$@"
