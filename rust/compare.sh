#!/usr/bin/env bash
# The comparison of the proved library with the independent program, on other inputs and more of them, for nights and
# releases: compare.sh [SEED [TIMES]], by default a seed of the clock and a hundred times the inputs of the gate.
set -eu
cd "$(dirname "$0")/.."
export VOKHSAOT_SEED=${1:-$(date +%s)} VOKHSAOT_TIMES=${2:-100}
export CARGO_TARGET_DIR=$PWD/target/cargo VOKHSAOT_LIB_DIR=$PWD/crates/capi/out
echo "seed $VOKHSAOT_SEED, $VOKHSAOT_TIMES times the inputs"
(cd crates/capi && rt lib --cpu x86-64)
cargo test --release --offline --manifest-path rust/Cargo.toml
