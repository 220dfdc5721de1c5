#!/bin/sh
# Holds target/bin/roots, its recorded output and the table's text in crates/root_table to f32::sqrt, by which the Rust takes its roots, and
# to squares of whole numbers; and the program to leaving its standard input unread and its arguments without effect. Ends with status 1
# where something differs.
# usage: oracle/roots_check.sh      (after `tools/build.sh roots`; needs rustc; writes only below target/)
set -eu
. "$(dirname "$0")/common.sh"
cd "$root"
mkdir -p "$out"
if older "$out/roots_check" oracle/roots_check.rs; then rustc --edition 2024 -C opt-level=3 oracle/roots_check.rs -o "$out/roots_check"; fi
[ -x target/bin/roots ] || { echo 'roots_check.sh: there is no target/bin/roots: run `tools/build.sh roots` first' >&2; exit 2; }
# what stands on its standard input is all there when it has ended, and what it is called with is not looked at
left=$(printf 'not read' | { target/bin/roots 53 --help >"$out/roots" 2>"$out/told"; cat; })
[ "$left" = 'not read' ] || { echo "roots_check.sh: roots read from its standard input: '$left' was left" >&2; exit 1; }
target/bin/roots <&- >"$out/roots-closed" 2>>"$out/told"
cmp "$out/roots" "$out/roots-closed"
[ ! -s "$out/told" ] || { echo 'roots_check.sh: roots told something on standard error' >&2; exit 1; }
# output that cannot be written is told on standard error
target/bin/roots 2>"$out/told" >/dev/full
echo 'roots: standard output: No space left on device' | cmp - "$out/told"
exec "$out/roots_check" "$out/roots" crates/roots/stdout crates/root_table/src/lib.rt
