#!/usr/bin/env bash
# Measures a client with 1,000, 10,000, 100,000 and 1,000,000 kept looks: looks beside the reading and
# check of the same replies, the memory of a kept look, and finality; finality with 1,000, 10,000 and
# 100,000 looks of one name, of one index and of many; updates by 64 roots, whole and in pieces; and a
# monitor's steps.
#
#   bench/client.sh
#
# Needs the kit (`rt` on the PATH) and Python 3, on Linux, and 2 GB of memory. Takes about four minutes
# once the program is proved and built, which it does first. docs/SPEED.md says what the columns mean.
# The status is 0 unless something could not be measured.
set -euo pipefail
cd "$(dirname "$0")/.."
. bench/build.sh

build measure
python3 bench/bench.py client
