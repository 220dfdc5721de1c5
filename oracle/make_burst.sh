#!/bin/sh
# Makes one burst file on standard output, header and data sent by the proved library, and says on standard error what was sent.
# usage: oracle/make_burst.sh [OPTION..] >FILE      (from anywhere; needs rustc and ../shared; writes only below target/; --options lists them)
# The first run proves and builds the library, which takes some minutes.
set -eu
. "$(dirname "$0")/common.sh"
our_library ion
rust_library "$out" zero
rust_program make_burst oracle/make_burst.rs -L "$root/target/staticlib" -l static=ion
exec "$out/make_burst" "$@"
