#!/usr/bin/env bash
# The Rust crate's own tests, linked with the library; no registry is asked.
set -euo pipefail
cd "$(dirname "$0")/.."
source tools/library.bash
need cargo
need_library
mkdir -p target/tests
export CARGO_TARGET_DIR=$PWD/target/cargo
manifest=bindings/rust/Cargo.toml
cargo test --offline --locked --quiet --manifest-path "$manifest" >target/tests/rust.log 2>&1 || { cat target/tests/rust.log >&2; exit 1; }
passed=$(sed -n 's/^test result: ok\. \([0-9]*\) passed.*/\1/p' target/tests/rust.log | awk '{ n += $1 } END { print n + 0 }')
[ "$passed" -gt 0 ] || { cat target/tests/rust.log >&2; exit 1; }
echo "rust_bindings: $passed tests passed, 0 failed"
