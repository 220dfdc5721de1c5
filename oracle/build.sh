#!/bin/sh
# Builds the Rust as it lies in ../shared/docs/src, the static library `ion`, and a program linked with both, each where something is newer.
# usage: oracle/build.sh NAME SOURCE      (for scale.sh, bench.sh and header_times.sh; writes target/oracle/NAME)
set -eu
. "$(dirname "$0")/common.sh"
needs_rust
cd "$root"
our_library ion
rust_library "$out" zero
rust_program "$1" "$2" -L target/staticlib -l static=ion
