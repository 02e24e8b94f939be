#!/usr/bin/env bash
# Builds directoryd for x86-64-v3 over the libraries that `rt ci` left in the crates' folders, which proves directoryd once
# more, and compares what it prints with what the program of `rt ci` prints, and with the model. Does nothing on a processor
# without AVX2.
#
#   scripts/drive/avx2.sh
set -eu
cd "$(dirname "$0")/../.."
. scripts/drive/library.sh
if ! grep -q avx2 /proc/cpuinfo; then
    echo "this processor has no AVX2, so no program is built for it"
    exit
fi
out=crates/directoryd/out
build_v3 directoryd $out/directoryd-v3
scripts/drive/avx2.py $out/directoryd-v3 $out/directoryd
