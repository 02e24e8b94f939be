#!/usr/bin/env bash
# Measures replies to look-ups with 10, 20 and 256 siblings: how they are made, and how they are
# read and checked.
#
#   bench/replies.sh
#
# Needs the kit (`rt` on the PATH) and Python 3, on Linux. Takes about half a minute once the
# program is proved and built, which it does first. docs/SPEED.md says what the columns mean. The
# status is 0 unless something could not be measured.
set -euo pipefail
cd "$(dirname "$0")/.."
. bench/build.sh

build measure
python3 bench/bench.py replies
