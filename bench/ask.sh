#!/usr/bin/env bash
# Measures `directoryd ask` over loopback: runs of 100, 1,000 and 4,000 registrations without a state, with a state
# whose syncs are free, and with one on the disk of this folder. Without a state and with one whose syncs are free also
# runs of 1,000 and 2,000 lines with a closing behind each registration; runs in which 100 and 500 names get other keys,
# an epoch ends, and they are watched; and runs of as many `watch` lines.
#
#   bench/ask.sh
#
# Needs the kit (`rt` on the PATH) and Python 3.10, on Linux. Takes half a minute once both programs are proved and
# built, which it does first. docs/SPEED.md says what the columns mean. The status is 0 unless something could not be
# measured.
set -euo pipefail
cd "$(dirname "$0")/.."
. bench/build.sh
. scripts/drive/library.sh

build directoryd measure
mkdir -p bench/out
library scripts/drive/fail_disk.c bench/out/fail_disk.so
python3 bench/bench.py ask
