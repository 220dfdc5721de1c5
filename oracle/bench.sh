#!/bin/sh
# Times the header read, soft values, the tracker, data sent and local noise (by the number of rows) against the Rust's, by turns
# in one run, slips by themselves and puts on a segment board against a map's, and plots soft values by the number of symbols.
# usage: oracle/bench.sh [REPEATS]      (from anywhere; needs rustc and ../shared; writes only below target/: the plot is target/bench.svg)
#        oracle/bench.sh once SYMBOLS   one burst of soft values in each form, for valgrind to count its instructions in target/oracle/bench
#        oracle/bench.sh once noise MODE ROWS      local noise of one burst, for the same
# REPEATS: 100 unless given, which takes some minutes.
set -eu
. "$(dirname "$0")/common.sh"
"$root/oracle/build.sh" bench oracle/bench.rs
cd "$root"
exec target/oracle/bench "$@"
