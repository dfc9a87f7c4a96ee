#!/usr/bin/env bash
# The second model, the ledger and the stream program beside the proved library, on hand-checked runs and serves, sweeps and random
# streams; then broken copies of the model, each of which has to be caught.
# A longer soak: target/tests/model/release/model --streams 1000000 --seed 7
set -euo pipefail
cd "$(dirname "$0")/.."
source tools/library.bash
need cargo
need_library mmu_stream
export CARGO_TARGET_DIR=$PWD/target/tests/model
cargo build --release --offline --locked --quiet --manifest-path tests/model/Cargo.toml
model=$CARGO_TARGET_DIR/release/model
"$model" --streams 20000 --sweeps --quiet --vectors tests/vectors.txt --misses tests/misses.txt \
    --printed crates/mmu_stream/stdin crates/mmu_stream/stdout --program target/bin/mmu_stream
caught=0
for name in $("$model" --broken-names); do
    said=$("$model" --streams 20000 --quiet --broken "$name" | tail -n 1) || true
    # "0 differ", or no such line, is a broken model that went unseen
    [[ $said =~ \ ([1-9][0-9]*)\ differ$ ]] || { echo "model: broken $name was not caught: $said" >&2; exit 1; }
    caught=$((caught + 1))
done
echo "model: $caught broken models, each caught"
