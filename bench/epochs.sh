#!/usr/bin/env bash
# Measures a directory of 1,000, 10,000, 100,000 and 1,000,000 names of 16 bytes with keys of 32:
# registrations, changes, the closing of 1,000 changes, look-ups at the head and at an old epoch, and rotations.
#
#   bench/epochs.sh
#
# Needs the kit (`rt` on the PATH) and Python 3, on Linux. Proves and builds the program first.
# docs/SPEED.md says what the columns mean. The status is 0 unless something could not be measured.
set -euo pipefail
cd "$(dirname "$0")/.."
. bench/build.sh

build measure
python3 bench/bench.py epochs
if build_avx2 measure; then
    echo
    MEASURE=crates/measure/out/measure-v3 BUILD=x86-64-v3 python3 bench/bench.py epochs
fi
