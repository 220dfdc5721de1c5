#!/bin/sh
# Builds the Rust as it lies in ../shared/docs/src and the static library `ion`, and runs all thirteen entries side by side
# on bursts made by a channel or by terms, random input and damaged input. Under 20 minutes on two cores. Ends with a
# table; 1 on any difference.
# usage: oracle/scale.sh [SEED] [OPTION..]      (from anywhere; needs rustc and ../shared; writes only below target/)
#   SEED             1 unless given; the same seed gives the same inputs whatever the threads
#   --threads N      as many as there are cores unless given
#   --share PERCENT  that part of each job's inputs (what must be met in a whole run is then not asked for)
#   --only JOB       one job, such as 'header read/random'; with --at INDEX its one input, told
#   --plant JOB:INDEX[:COMPARISON]   turns one bit on our side in memory before that comparison of that input (the first is 0): it must
#                    be found, and the run end with 1. Every run plants some in each job beforehand, and must find them all
#   --replay FOLDER  instead: every burst file of the folder (docs/BURST-FORMAT.md), header read and soft values by both sides;
#                    --plant x:FILE:COMPARISON turns a bit there, files counted from 0, comparisons of the soft values from 100
set -eu
. "$(dirname "$0")/common.sh"
"$root/oracle/build.sh" scale oracle/scale/main.rs
exec "$out/scale" "$@"
