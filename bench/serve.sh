#!/usr/bin/env bash
# Measures `directoryd listen` over loopback with a directory of 100,000 names: look-ups,
# registrations and requests for the head, one at a time and 64 in flight, beside the same through a
# hub, and beside a bare exchange of as many bytes; look-ups by 1, 16, 256 and 1,000 connections at
# once, and by 256 with 4 and 64 in flight each, beside a bare exchange by as many; and the server's
# memory, also for an idle connection.
#
#   bench/serve.sh
#
# Needs the kit (`rt` on the PATH), `rustc` and Python 3, on Linux. Listens on 127.0.0.1 alone, on ports that
# the system chooses. Takes about a minute once both programs are proved and built, which it does
# first, and is ended after ten. docs/SPEED.md says what the columns mean. The status is 0 unless
# something could not be measured.
set -euo pipefail
cd "$(dirname "$0")/.."
. bench/build.sh

build directoryd measure
build_load
timeout --kill-after=10 600 python3 bench/bench.py serve
