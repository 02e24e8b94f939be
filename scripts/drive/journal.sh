#!/usr/bin/env bash
# Runs `directoryd serve` and `directoryd listen` with a journal as processes: what they say of its file, what
# they keep through kills, and what they do with a full disk. What a file holds is in no clause, so it is shown
# here.
#
#   scripts/drive/journal.sh
#
# Takes the built program, or the one that DIRECTORYD names. The last line is `N passed, M failed`, and the
# status is 0 where none failed. It ends after five minutes whatever happens.
set -uo pipefail
cd "$(dirname "$0")/../.." || exit 1
. scripts/drive/library.sh
begin

program=${DIRECTORYD:-crates/directoryd/out/directoryd}

# Runs the program over a file to its end, and compares status, output in hex and errors: ends WHAT STATUS
# OUTPUT ERRORS INPUT WORD..
ends() {
    local what=$1 status=$2 output=$3 errors=$4 input=$5 got=0
    shift 5
    timeout --foreground 60 "$program" "$@" <"$input" >"$folder/out" 2>"$folder/err" || got=$?
    same "$what, status" "$status" "$got"
    same "$what, output" "$output" "$(od -An -v -tx1 "$folder/out" | tr -d ' \n')"
    same "$what, errors" "$errors" "$(cat "$folder/err")"
}

# Runs a command that has to end with status 0: well WHAT WORD..
well() {
    well_in 290 "$@"
}

needs directoryd "$program"
keys=$(scripts/questions/worked.py --keys)
zeros=$(printf '0%.0s' {1..64})
scripts/questions/worked.py --requests >"$folder/requests"
scripts/questions/worked.py --replies >"$folder/replies"
all=$(od -An -v -tx1 "$folder/replies" | tr -d ' \n')
head=$(head -c 185 "$folder/replies" | od -An -v -tx1 | tr -d ' \n')
last=$(tail -c 185 "$folder/replies" | od -An -v -tx1 | tr -d ' \n')
printf '\0\0\0\1\6' >"$folder/head"
journal=$folder/journal

# A new directory answers as without a journal, and goes on from it. Its first epoch and nonce stay.
ends "a new journal" 0 "$all" "journal: 0 records taken" "$folder/requests" serve $keys --journal "$journal"
count=$(python3 -B -c 'import sys; sys.path.insert(0, "scripts"); from model.formats import count_records
print(count_records(open(sys.argv[1], "rb").read()))' "$journal")
size=$(stat -c %s "$journal")
cp "$journal" "$folder/whole"
ends "a journal" 0 "$last" "journal: $count records taken" "$folder/head" serve $keys --journal "$journal"
ends "a journal, another epoch" 0 "$last" "journal: $count records taken" "$folder/head" \
    serve $keys --journal "$journal" --epoch 9 --nonce "${zeros//0/1}"
same "a journal that was only read" "" "$(cmp "$journal" "$folder/whole" 2>&1)"

# It is made for its owner alone, and one that is there keeps its mode.
for mask in 000 022 077; do
    (umask $mask && exec "$program" serve $keys --journal "$folder/of $mask" <"$folder/head" >/dev/null 2>&1)
    same "the mode of a journal under the mask $mask" 600 "$(stat -c %a "$folder/of $mask")"
done
for mode in 604 640 666; do
    chmod $mode "$folder/of 022"
    printf 'C\0\0' >>"$folder/of 022"
    ends "a journal of the mode $mode" 0 "$head" "journal: 1 records taken, 3 bytes cut off" "$folder/head" \
        serve $keys --journal "$folder/of 022"
    same "the mode $mode of a journal" $mode "$(stat -c %a "$folder/of 022")"
done
rm "$folder"/of*

# What follows the whole records is cut off.
printf 'C\0\0' >>"$journal"
ends "three bytes too many" 0 "$last" "journal: $count records taken, 3 bytes cut off" "$folder/head" \
    serve $keys --journal "$journal"
same "the bytes are cut off" "" "$(cmp "$journal" "$folder/whole" 2>&1)"
head -c 105 "$folder/whole" >"$folder/cut"
ends "a start that was cut short" 0 "$all" "journal: 0 records taken, 105 bytes cut off" "$folder/requests" \
    serve $keys --journal "$folder/cut"
same "the same journal" "" "$(cmp "$folder/cut" "$folder/whole" 2>&1)"

# Refused files stay as they are.
cp "$folder/whole" "$folder/bad"
printf X >>"$folder/bad"
cp "$folder/bad" "$folder/kept"
ends "a bad record" 1 "" "journal: bad record" "$folder/head" serve $keys --journal "$folder/bad"
ends "a bad record, listening" 1 "" "journal: bad record" /dev/null listen $keys --journal "$folder/bad" nowhere
same "a bad journal stays" "" "$(cmp "$folder/bad" "$folder/kept" 2>&1)"
other="--sign-key $zeros ${keys#* * }"
ends "other keys" 1 "" "journal: other keys" "$folder/head" serve $other --journal "$journal"
same "a journal of other keys stays" "" "$(cmp "$journal" "$folder/whole" 2>&1)"

# The keys come before the file, and the file before the address.
ends "a bad nonce" 1 "" "nonce is not 64 hexadecimal digits
bad hex" "$folder/head" serve $keys --nonce 00 --journal "$folder/bad"
none="journal: $folder/none/journal: No such file or directory (os error 2)
cannot write"
ends "a folder that is not there" 1 "" "$none" "$folder/head" serve $keys --journal "$folder/none/journal"
ends "a folder that is not there, listening" 1 "" "$none" /dev/null listen $keys --journal "$folder/none/journal" nowhere
ends "a folder" 1 "" "journal: $folder: Is a directory (os error 21)
cannot read" "$folder/head" serve $keys --journal "$folder"
said=$(trap "" XFSZ; ulimit -f 0; "$program" serve $keys --journal "$folder/tight" <"$folder/head" 2>&1)
same "a start record without room, status" 1 $?
same "a start record without room" "journal: $folder/tight: File too large (os error 27)
cannot write" "$said"
ends "no address" 1 "" "journal: $count records taken
cannot listen" /dev/null listen $keys --journal "$journal" nowhere
got=0
flock "$journal" "$program" serve $keys --journal "$journal" <"$folder/head" >"$folder/out" 2>"$folder/err" || got=$?
same "a file that another holds, status" 1 "$got"
same "a file that another holds" "journal: $journal: another process has it
cannot write" "$(cat "$folder/err")"

# It is locked before it is read and cut.
head -c $((size - 1)) "$folder/whole" >"$folder/held"
cp "$folder/held" "$folder/kept"
got=0
flock "$folder/held" "$program" serve $keys --journal "$folder/held" <"$folder/head" >"$folder/out" 2>&1 || got=$?
same "a cut file that another holds, status" 1 "$got"
same "a cut file that another holds stays" "" "$(cmp "$folder/held" "$folder/kept" 2>&1)"
got=0
"$program" serve $keys --journal "$journal" <"$folder/head" >"$folder/out" 2>/dev/full || got=$?
same "a line that cannot be written, status" 1 "$got"
same "a line that cannot be written, output" "" "$(od -An -v -tx1 "$folder/out")"

# An output that cannot be written is no fault of the journal, also once no record could be written.
printf '\0\0\0\11\1\0\3zed\0\1k' >"$folder/edit"
unheard="journal: $count records taken
cannot write"
for input in head edit; do
    cp "$folder/whole" "$folder/unheard"
    said=$("$program" serve $keys --journal "$folder/unheard" <"$folder/$input" 2>&1 >/dev/full)
    same "an output that is full, $input, status" 1 $?
    same "an output that is full, $input" "$unheard" "$said"
done
cp "$folder/whole" "$folder/unkept"
said=$(trap "" XFSZ; ulimit -f 0; "$program" serve $keys --journal "$folder/unkept" <"$folder/edit" 2>&1 >/dev/full)
same "a journal and an output that are full, status" 1 $?
same "a journal and an output that are full" "$unheard" "$said"
said=$(trap "" XFSZ; ulimit -f 0
    "$program" serve $keys --journal "$folder/unkept" <"$folder/edit" 2>/dev/null | od -An -v -tx1 | tr -d ' \n')
same "a journal that is full" 00000002ff13 "$said"
same "a journal that is full stays" "" "$(cmp "$folder/unkept" "$folder/whole" 2>&1)"

# Starts on the journal, where the allocation of this number fails: starts NUMBER COUNT
starts() {
    FAIL_NTH=$1 LD_PRELOAD=$folder/fail_nth.so \
        "$program" serve $keys --journal "$journal" </dev/null 2>"$folder/err" 3>"$2"
}

# Each allocation of a start fails in turn. A start that can do without one is well.
starves() {
    local number all
    starts 0 "$folder/count"
    all=$(cat "$folder/count")
    for ((number = 1; number <= all; number++)); do
        if ! starts $number /dev/null && [ "$(tail -n 1 "$folder/err")" != "out of memory" ]; then
            fails "allocation $number fails: '$(cat "$folder/err")'"
        fi
    done
    same "a start that lacks memory" "1" "$((all > 20))"
    same "a journal for which memory was wanting" "" "$(cmp "$journal" "$folder/whole" 2>&1)"
}

if library scripts/drive/fail_nth.c "$folder/fail_nth.so"; then
    starves
else
    fails "fail_nth.c is not built"
fi
well "a file that may not grow" scripts/drive/restarts.py "$program" "$folder" full
well "three lives of a file" scripts/drive/restarts.py "$program" "$folder" lives
well "journals of version 1" scripts/drive/old_files.py "$program" journals
if library scripts/drive/sync_order.c "$folder/sync_order.so"; then
    well "records on the disk before their answers" scripts/drive/restarts.py "$program" "$folder" synced "$folder/sync_order.so"
else
    fails "sync_order.c is not built"
fi
# On a slow machine there is no time for all kills, but for 100. Some of it is left for what follows the last one.
well "kills at 200 moments, or at as many as there is time for" \
    scripts/drive/restarts.py "$program" "$folder" kills 200 $((250 - SECONDS))
tail -n 1 "$folder/printed"
finish
