#!/bin/sh
# Installs the static library for C, C++ and Rust: tools/install.sh PREFIX, with DESTDIR before it where that is set.
#
#   PREFIX/lib/libruqzhemil.a, PREFIX/include/ruqzhemil.h
#   PREFIX/lib/pkgconfig/ruqzhemil.pc: cc $(pkg-config --cflags ruqzhemil) program.c $(pkg-config --libs ruqzhemil)
#   PREFIX/share/ruqzhemil: the Rust package, for a path dependency on PREFIX/share/ruqzhemil/rust with RUQZHEMIL_LIB_DIR=PREFIX/lib
set -eu
if [ $# -ne 1 ]; then
    echo "usage: tools/install.sh PREFIX" >&2
    exit 2
fi
case $1 in
/*) prefix=$1 ;;
*) prefix=$PWD/$1 ;;
esac
cd "$(dirname "$0")/.."
examples/library.sh
to=${DESTDIR:-}$prefix
number=$(sed -n 's/^#define RUQZHEMIL_VERSION \(0x[0-9a-f]*\).*/\1/p' include/ruqzhemil.h)
version=$((number / 65536)).$((number / 256 % 256)).$((number % 256))
mkdir -p "$to/lib/pkgconfig" "$to/include" "$to/share/ruqzhemil/include" "$to/share/ruqzhemil/rust/src"
cp target/staticlib/libruqzhemil.a "$to/lib/"
cp include/ruqzhemil.h "$to/include/"
cp include/ruqzhemil.h include/ruqzhemil.rs "$to/share/ruqzhemil/include/"
cp rust/Cargo.toml rust/build.rs "$to/share/ruqzhemil/rust/"
cp rust/src/*.rs "$to/share/ruqzhemil/rust/src/"
cat > "$to/lib/pkgconfig/ruqzhemil.pc" << END
prefix=$prefix
libdir=\${prefix}/lib
includedir=\${prefix}/include

Name: ruqzhemil
Description: A verified checker of plans for relay test sets
Version: $version
Libs: -L\${libdir} -lruqzhemil
Cflags: -I\${includedir}
END
echo "installed version $version below $to"
