#!/bin/sh
# Holds target/bin/burst to the Rust over made bursts, damaged ones among them, and over the recorded ones in bursts/, and the example in
# docs/BURST-FORMAT.md to what the gate has it print; ends with status 1 where something differs.
# usage: oracle/burst_check.sh [BURSTS | FILE [soft] [metrics] [slip START SEGMENT]]      (after `tools/build.sh burst`; needs rustc and ../shared; writes only below target/)
# BURSTS: 200 unless given. FILE: prints what the Rust says of it, in the program's lines.
set -eu
. "$(dirname "$0")/common.sh"
rust_library "$out" zero
rust_program burst_check oracle/burst_check.rs
case "${1:-200}" in *[!0-9]*) exec "$out/burst_check" "$@" ;; esac
cd "$root"
[ -x target/bin/burst ] || { echo "burst_check.sh: there is no target/bin/burst: run \`tools/build.sh burst\` first" >&2; exit 2; }
for file in bursts/*.ionb; do
    "$out/burst_check" "$file" soft metrics slip 48000 7 >"$out/theirs"
    target/bin/burst "$file" soft metrics slip 48000 7 >"$out/ours"
    cmp "$out/theirs" "$out/ours"
done
# the example: what stands before two blanks or more is a line of the program's
sed -n '/^    /{s/^    //;s/   *.*//;p;}' docs/BURST-FORMAT.md | while read -r line; do
    grep -qxF -- "$line" crates/burst/stdout || { echo "docs/BURST-FORMAT.md: '$line' is no line of crates/burst/stdout" >&2; exit 1; }
done
exec "$out/burst_check" "$@"
