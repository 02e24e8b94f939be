#!/usr/bin/env bash
# Measures digests one by one and all at once; and many changes to a tree of 1,000, 10,000, 100,000
# and 1,000,000 items: all put in at once, and one by one.
#
#   bench/changes.sh
#
# Needs the kit (`rt` on the PATH) and Python 3, on Linux. Takes about one and a half minutes once
# the program is proved and built, which it does first. docs/SPEED.md says what the columns mean.
# The status is 0 unless something could not be measured.
set -euo pipefail
cd "$(dirname "$0")/.."
. bench/build.sh

build measure
python3 bench/bench.py changes
if build_avx2 measure; then
    echo
    MEASURE=crates/measure/out/measure-v3 BUILD=x86-64-v3 python3 bench/bench.py changes
fi
