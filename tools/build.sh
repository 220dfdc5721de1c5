#!/bin/sh
# Proves and builds what is used outside Rattle: the static library for C (ion, as target/staticlib/libion.a), the doors of the comparison
# (probe, likewise), and the programs burst, segments and roots (as target/bin/NAME).
# usage: tools/build.sh NAME..      (from anywhere; some minutes the first time, then seconds)
set -eu
cd "$(dirname "$0")/.."
case "${1:---help}" in --help | -h) sed -n '2,4s/^# //p' tools/build.sh; exit ;; esac
mkdir -p target/staticlib target/bin
for name; do
    case $name in
        ion | probe)
            (cd "crates/${name}_c" && rt lib)
            cp "crates/${name}_c/out/lib${name}_c.a" "target/staticlib/lib$name.a"
            ;;
        *)
            # `rt run` is what builds a program: it is run once, on no input, for its usage
            (cd "crates/$name" && rt run -- --help </dev/null >/dev/null)
            cp "crates/$name/out/$name" "target/bin/$name"
            ;;
    esac
done
