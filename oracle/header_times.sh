#!/bin/sh
# Times the header read with labels filled in advance and by parity against the Rust's decode_tb, on the same headers of 64 in one run: clean, noisy
# and random apart, then three together (in a row, and in three threads at once), then a table's filling and its test.
# usage: oracle/header_times.sh [HEADERS]      (from anywhere; needs rustc and ../shared; writes only below target/)
# HEADERS of each style: 1,000 unless given, which takes some minutes.
set -eu
. "$(dirname "$0")/common.sh"
"$root/oracle/build.sh" header_times oracle/header_times.rs
cd "$root"
exec target/oracle/header_times "$@"
