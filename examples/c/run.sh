#!/bin/sh
# Builds the static library (which proves it first: minutes, from a fresh clone) and the example, runs it, and compares what it prints with expected.txt.
# Compiles the header by every C and C++ compiler that is there, and holds its numbers to those of the stored cases.
set -eu
cd "$(dirname "$0")/../.."
examples/library.sh
tools/header.py
# what the header says that the archive needs from outside
needed=$(nm -u target/staticlib/libruqzhemil.a | awk '$1 == "U" { print $2 }' | sort -u | xargs)
[ "$needed" = "memcpy memset" ] || { echo "the archive needs $needed" >&2; exit 1; }
examples/c/silent.sh
"${CC:-cc}" -std=c99 -Wall -Wextra -Werror -O2 -I include examples/c/example.c target/staticlib/libruqzhemil.a -o target/examples/c
target/examples/c | tee target/examples/c.out
cmp target/examples/c.out examples/c/expected.txt
