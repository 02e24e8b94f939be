#!/usr/bin/env bash
# Measures sessions that ask a directory of 100,000 names through a hub, with their streams in pieces
# of 4,096 bytes and of 16, beside the same calls of the directory; and how long it takes to take a
# frame out of a piece of 64, 1,024 and 16,384 frames.
#
#   bench/hub.sh
#   BEFORE=CLONE bench/hub.sh
#
# The second also times the program of another clone, in which measure is built.
#
# Needs the kit (`rt` on the PATH) and Python 3, on Linux. Takes about two minutes once the program
# is proved and built, which it does first. docs/SPEED.md says what the columns mean. The status is 0
# unless something could not be measured.
set -euo pipefail
cd "$(dirname "$0")/.."
. bench/build.sh

build measure
python3 bench/bench.py hub
