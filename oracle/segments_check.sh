#!/bin/sh
# Holds target/bin/segments to a second board from document 02 over random series of slips, broken ones and full boards among them, and the
# example in docs/SEGMENTS.md to what it prints and tells; ends with status 1 where something differs.
# usage: oracle/segments_check.sh [SERIES]      (after `tools/build.sh segments burst`; needs rustc and ../shared; writes only below target/)
# SERIES: 400 unless given.
set -eu
. "$(dirname "$0")/common.sh"
rust_library "$out" zero
rust_program segments_check oracle/segments_check.rs
cd "$root"
for name in segments burst; do
    [ -x target/bin/$name ] || { echo "segments_check.sh: there is no target/bin/$name: run \`tools/build.sh segments burst\` first" >&2; exit 2; }
done
# the example: every line of both outputs, in their order
target/bin/segments <crates/segments/stdin >"$out/board" 2>"$out/told"
sed -n '/^    segment /{s/^    //;p;}' docs/SEGMENTS.md | cmp - "$out/board"
sed -n '/^    segments: /{s/^    //;p;}' docs/SEGMENTS.md | cmp - "$out/told"
# both programs together: the slip that `burst` prints, on a board
target/bin/burst bursts/fading.ionb slip 48000 7 | sed -n 's/^slip //p' | "$out/segments_check" --bytes | target/bin/segments >"$out/board"
echo 'segment 7, word 43789800584d6b87, Sure, pass 1, score 16481.039 (4680c214), start 48000' | cmp - "$out/board"
exec "$out/segments_check" "$@"
