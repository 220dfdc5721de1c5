#!/bin/sh
# Times the header read of this checkout against another checkout's and the Rust's: the three by turns in one run, on the same headers.
# usage: oracle/against.sh CHECKOUT [HEADERS]
#        (from anywhere; needs rustc, objcopy, ld and ../shared; writes only below target/, and target/ of the other checkout)
# CHECKOUT: a clone of the repository at another commit, with the same C function `ion_read_header`: of version 106 or later, since which it
# tells the ceiling, and with tools/build.sh, which builds it. Outcome and pass are compared where that checkout has version 107 or later, since
# which the ceiling gives them.
# HEADERS: 1,000 of each style unless given, which takes some minutes.
set -eu
. "$(dirname "$0")/common.sh"
[ -f "${1:-}/crates.txt" ] || { echo "against.sh: the other checkout is not there (oracle/against.sh --help)" >&2; exit 2; }
grep -q 'float \*ceiling' "$1/include/ion.h" || { echo "against.sh: the other checkout is older than version 106: its header read tells no ceiling" >&2; exit 2; }
other=$(cd "$1" && pwd -P)
cd "$root"
our_library ion
rust_library "$out" zero

# the other checkout's library as one object, of whose names only the header read's is seen, under another name
(root=$other; our_library ion)
mkdir -p "$out/against"
ld -r -o "$out/against/other.o" --whole-archive "$other/target/staticlib/libion.a"
objcopy --keep-global-symbol=ion_read_header "$out/against/other.o"
objcopy --redefine-sym ion_read_header=other_read_header "$out/against/other.o"
rm -f "$out/against/libother.a" "$out/against/against"
ar rcs "$out/against/libother.a" "$out/against/other.o"

rust_program against/against oracle/against.rs -L target/staticlib -l static=ion -L "$out/against" -l static=other
rule=another-rule
if grep -q ION_LIKELY "$other/include/ion.h"; then rule=one-rule; fi
exec "$out/against/against" "${2:-1000}" $rule
