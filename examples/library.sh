#!/bin/sh
# Builds target/staticlib/libruqzhemil.a, unless it is newer than every source. From a fresh clone this proves the library first.
set -eu
cd "$(dirname "$0")/.."
library=target/staticlib/libruqzhemil.a
if [ ! -f "$library" ] || [ -n "$(find crates crates.txt -name out -prune -o -newer "$library" -print | head -n 1)" ]; then
    echo "proving and building the static library: some minutes from a fresh clone" >&2
    (cd crates/ruqzhemil_c && rt lib --cpu x86-64) >&2
    mkdir -p target/staticlib
    cp crates/ruqzhemil_c/out/libruqzhemil_c.a "$library"
fi
