#!/usr/bin/env bash
# Measures journals: how fast directoryd serve answers registrations without one, with one in memory and with one
# on the disk of this folder, where each piece is synced; and, in memory, one of 10,000, 100,000 and 1,000,000
# registrations and one closing: how fast names are registered without it and with it, and how long it takes to
# open.
#
#   bench/journal.sh
#
# Needs the kit (`rt` on the PATH) and Python 3, on Linux. Proves and builds the programs first.
# docs/SPEED.md says what the columns mean. The status is 0 unless something could not be measured.
set -euo pipefail
cd "$(dirname "$0")/.."
. bench/build.sh

build measure directoryd
python3 bench/bench.py journal
if build_avx2 measure; then
    echo
    MEASURE=crates/measure/out/measure-v3 BUILD=x86-64-v3 python3 bench/bench.py journal
fi
