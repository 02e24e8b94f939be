#!/usr/bin/env bash
# Measures `directoryd root` on 1,000, 100,000 and 1,000,000 random items, and trees that are made
# of 10, 100 and 1,000 items. Then compares it with its peer, the same program in plain Rust, on
# random items and on the worst shapes: pairs of indices that differ in the last bit alone, and
# indices with one prefix.
#
#   bench/root.sh
#   BEFORE=CLONE bench/root.sh
#   DIRECTORYD=PROGRAM bench/root.sh
#
# The second also times the programs of another clone, in which directoryd and measure are built.
# The third builds neither, and only compares this program with the peer. With
# DIRECTORYD_V3=PROGRAM it also compares one that is built for x86-64-v3 with the peer built so,
# as the first does where the processor has AVX2.
#
# Needs the kit (`rt` on the PATH) and Python 3, on Linux, and 300 MB for temporary files; and
# `rustc` for the peer, without which directoryd is measured alone. Takes about four minutes once both
# programs are proved and built, which it does first. docs/SPEED.md and root_peer.py say what the
# columns mean. The status is 0 unless something could not be measured, or the programs print
# different roots.
set -euo pipefail
for program in DIRECTORYD DIRECTORYD_V3; do
    if [[ -n ${!program:-} ]]; then
        path=$(realpath -e "${!program}")
        export "$program=$path"
    fi
done
cd "$(dirname "$0")/.."
. bench/build.sh

if [[ -z ${DIRECTORYD:-} ]]; then
    build directoryd measure
    python3 bench/bench.py root
    echo
    if build_avx2 directoryd measure; then
        export DIRECTORYD_V3=crates/directoryd/out/directoryd-v3 MEASURE_V3=crates/measure/out/measure-v3
    fi
fi
peers=()
if ! command -v rustc >/dev/null; then
    echo "there is no rustc: directoryd root is not compared with its peer"
else
    peers=(x86-64-v2)
    if grep -q avx2 /proc/cpuinfo; then
        peers+=(x86-64-v3)
    fi
    build_root_peer "${peers[@]}"
fi
python3 bench/root_peer.py "${peers[@]}"
