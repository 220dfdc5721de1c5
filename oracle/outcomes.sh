#!/bin/sh
# Counts the outcomes of header reads on bursts made by the channel, from good levels to hopeless ones: how many of each, how many of their words are
# the one sent, and how many outcomes of late reads are given by rounding alone, by a search without rounding beside ours. Ends with status 1 where ours
# and the second search at f32 differ.
# usage: oracle/outcomes.sh [BURSTS]      (from anywhere; needs rustc and ../shared; writes only below target/)
# BURSTS: 5,400 unless given, which takes some minutes.
set -eu
. "$(dirname "$0")/common.sh"
"$root/oracle/build.sh" outcomes oracle/outcomes.rs
exec "$out/outcomes" "$@"
