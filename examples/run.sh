#!/usr/bin/env bash
# The main job: proves and builds the library and the stream program, and shows document 01's printed run, in which a user's insertion is
# refused, and a run in which a privileged strand's is not, each command and answer in words beside its bytes.
set -euo pipefail
cd "$(dirname "$0")/.."
source tools/library.bash
need rt gcc
need_library mmu_stream
mkdir -p target/examples
gcc -std=c99 -Wall -Wextra -Iinclude -o target/examples/printed_run examples/c/printed_run.c "${library[@]}"
echo "document 01's printed run, from C (> a command, < its answer):"
target/examples/printed_run
echo
echo "the stream program on the bytes of the printed run:"
target/bin/mmu_stream <crates/mmu_stream/stdin
