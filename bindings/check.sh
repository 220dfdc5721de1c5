#!/bin/sh
# Builds and runs the C examples, the Rust examples and the Rust doc tests over the static library; ends with a status
# above 0 where one fails.
# usage: bindings/check.sh      (from anywhere; needs a C compiler and cargo; some seconds, and some minutes more where ion is not proved yet)
set -eu
cd "$(dirname "$0")/.."
case "${1:-}" in
    "") ;;
    *) sed -n '2,4s/^# //p' "$0"; [ "$1" = --help ] || [ "$1" = -h ]; exit ;;
esac
mkdir -p target
tools/build.sh ion >target/staticlib-ion.log 2>&1 || { cat target/staticlib-ion.log >&2; exit 1; }
for name in read labels send narrow slip board noise; do
    cc -std=c99 -Wall -Wextra -Werror -Iinclude "bindings/c/$name.c" target/staticlib/libion.a -o "target/$name"
    "target/$name"
done
c++ -std=c++11 -Wall -Wextra -Werror -Iinclude -fsyntax-only -x c++ include/ion.h
# a header of another version does not link with this library
sed 's/ion_version_[0-9]*/&0/' include/ion.h >target/other.h
sed 's/"ion.h"/"other.h"/' bindings/c/read.c >target/other.c
if cc -std=c99 -Itarget target/other.c target/staticlib/libion.a -o target/other 2>/dev/null; then
    echo "a header of another version links" >&2
    exit 1
fi
for name in read labels send narrow slip board noise; do
    cargo run --quiet --offline --manifest-path bindings/rust/Cargo.toml --target-dir target/rust --example "$name"
done
cargo test --quiet --offline --manifest-path bindings/rust/Cargo.toml --target-dir target/rust
