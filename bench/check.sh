#!/usr/bin/env bash
# Measures the check of a reply with 20 siblings by the library for C, beside the same check in the crate `measure`.
#
#   bench/check.sh
#
# Needs the kit (`rt` on the PATH), a C compiler, `cc`, and Python 3.10, on Linux. Takes about half a minute once the
# program and the library are proved and built, which it does first. docs/SPEED.md says what the columns mean. The status
# is 0 unless something could not be measured.
set -euo pipefail
cd "$(dirname "$0")/.."
. bench/build.sh

build measure
(cd crates/coniks && rt lib >&2)
mkdir -p bench/out
cc -O2 -I include -o bench/out/check bench/check.c crates/coniks/out/libconiks.a
python3 bench/bench.py check
