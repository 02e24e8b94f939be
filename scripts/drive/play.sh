#!/usr/bin/env bash
# Runs `directoryd play` as a process over the stored scripts and over drawn ones, and compares what it prints and
# its status with what the model computes. The contract of `play` says what is written; this shows that the
# definition means what the model does, and that the process passes it on.
#
#   scripts/drive/play.sh [--drawn N] [--cuts N] [--seed N]
#
# 300 scripts are drawn unless given otherwise, and each is also cut at 20 places. Takes the built program, or the
# one that DIRECTORYD names. The last line is `N passed, M failed`, and the status is 0 where none failed. It takes
# about a minute on 4 cores, and ends after five whatever happens.
set -uo pipefail
cd "$(dirname "$0")/../.." || exit 1

program=${DIRECTORYD:-crates/directoryd/out/directoryd}
if [ ! -x "$program" ]; then
    echo "there is no program $program: build it with (cd crates/directoryd && rt run)"
    echo "0 passed, 1 failed"
    exit 1
fi
timeout --kill-after=10 300 scripts/drive/play.py "$program" "$@"
status=$?
if [ $status = 124 ]; then
    echo "out of time"
    echo "0 passed, 1 failed"
fi
exit $status
