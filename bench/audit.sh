#!/usr/bin/env bash
# Measures an auditor: signed roots observed on chains of 1,000, 10,000 and 100,000 roots, and evidence
# of each kind judged.
#
#   bench/audit.sh
#
# Needs the kit (`rt` on the PATH) and Python 3, on Linux. Takes about a minute once the program is
# proved and built, which it does first. docs/SPEED.md says what the columns mean. The status is 0
# unless something could not be measured.
set -euo pipefail
cd "$(dirname "$0")/.."
. bench/build.sh

build measure
python3 bench/bench.py audit
