#!/usr/bin/env bash
# Measures `directoryd play` on a script of 10,000 registrations, 100 closings, 10 monitors and 10,000 look-ups,
# beside the digests that its directory, its client, its auditor and its monitors take.
#
#   bench/play.sh
#
# Needs the kit (`rt` on the PATH) and Python 3.10, on Linux. Takes about ten seconds once both programs are proved
# and built, which it does first. docs/SPEED.md says what the columns mean. The status is 0 unless something could
# not be measured.
set -euo pipefail
cd "$(dirname "$0")/.."
. bench/build.sh

build directoryd measure
python3 bench/bench.py play
