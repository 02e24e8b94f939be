#!/usr/bin/env bash
# Measures how two chains of 10,000 and of 100,000 roots are compared that agree, or part at the end, in
# the middle or at the first epoch; and how two clients of 1,000, 10,000 and 100,000 looks are reconciled
# that looked up the same names, or have few or none in common.
#
#   bench/reconcile.sh
#
# Needs the kit (`rt` on the PATH) and Python 3, on Linux. Takes about two minutes once the program is
# proved and built, which it does first. docs/SPEED.md says what the columns mean. The status is 0
# unless something could not be measured.
set -euo pipefail
cd "$(dirname "$0")/.."
. bench/build.sh

build measure
python3 bench/bench.py reconcile
