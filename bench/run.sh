#!/bin/sh
# Builds the static library and the bench; compares the library with an independent implementation and with a tuned one on many inputs, then prints the speed of all
# three and the library's stack. Fails on any difference. An argument is the number of cases to compare, or 0 for none, a second one the seed.
set -eu
cd "$(dirname "$0")/.."
examples/library.sh
export CARGO_TARGET_DIR="$PWD/target/bench"
(cd bench && cargo build --offline --release --quiet)
"$CARGO_TARGET_DIR/release/bench" "$@"
