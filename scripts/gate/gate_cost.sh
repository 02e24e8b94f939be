#!/usr/bin/env bash
# Measures what the gate costs from nothing, and prints it in tables by parts and by crates: processor time for
# proofs, edits, and programs that are built and run. docs/ARCHITECTURE.md, "The gate", has the targets. It
# changes nothing.
#
#   scripts/gate/gate_cost.sh                  # rt ci: proves all, whatever earlier runs kept
#   scripts/gate/gate_cost.sh COMMAND WORD..   # another command, as .ci/run
#   scripts/gate/gate_cost.sh --watch PID      # a command that runs already, from now on
#
# What the command prints goes to standard error, and the tables to standard output. Needs Python 3.9 and
# Linux. Other processes on the machine lengthen the time by the clock, and hardly the rest.
set -euo pipefail
cd "$(dirname "$0")/../.."
exec python3 scripts/gate/gate_cost.py "$@"
