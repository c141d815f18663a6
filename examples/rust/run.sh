#!/bin/sh
# Builds the static library (which proves it first: minutes, from a fresh clone), tests the Rust package, builds the example over it, runs it, and compares what
# it prints with expected.txt.
set -eu
cd "$(dirname "$0")/../.."
examples/library.sh
export CARGO_TARGET_DIR="$PWD/target/examples/rust"
cargo test --offline --quiet --manifest-path rust/Cargo.toml
cargo build --offline --release --quiet --manifest-path examples/rust/Cargo.toml
"$CARGO_TARGET_DIR/release/example" | tee target/examples/rust.out
cmp target/examples/rust.out examples/rust/expected.txt
