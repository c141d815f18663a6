#!/bin/sh
# Compiles the example, and with it the header, as C and as C++ by every compiler that is there, with warnings as errors. Prints each that was tried.
set -eu
cd "$(dirname "$0")/../.."
mkdir -p target/examples
try() {
    if command -v "$1" > /dev/null; then
        "$@" -Wall -Wextra -Wpedantic -Wconversion -Werror -O2 -I include -c -o target/examples/silent.o examples/c/example.c
        echo "silent: $*"
    fi
}
try gcc -std=c99
try clang -std=c99
try g++ -x c++ -std=c++11
try clang++ -x c++ -std=c++11
