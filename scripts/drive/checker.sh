#!/usr/bin/env bash
# Builds the library for C over the libraries that `rt ci` left in the crates' folders, which takes seconds, and compares
# it with the model. Where they are not there, `rt lib` proves them first.
#
#   scripts/drive/checker.sh
set -eu
cd "$(dirname "$0")/../.."
. scripts/drive/library.sh
out=crates/coniks/out
mkdir -p $out
if find_libraries coniks; then
    (cd crates/coniks && "$kit/bin/rattle" build --crate-name coniks --crate-type staticlib src/lib.rt "${libraries[@]}" \
        --toolchain "$kit/toolchain" -o out/libconiks.a) > $out/build.txt 2>&1 || { cat $out/build.txt; exit 1; }
else
    (cd crates/coniks && rt lib)
fi
scripts/drive/checker.py $out/libconiks.a
