#!/usr/bin/env bash
# Makes the allocations of the test programs fail, one a run, and compares what is written.
#
#   scripts/drive/fail_alloc.sh [--seconds N] [--most N] [PROGRAM..]
#
# The programs are vectors, session_vectors and faults, as they were built last. Each answers a question once more
# where a call lacked memory. So a run passes if it writes the stored answers, or if it ends with status 1 before its
# first answer. Of many connections at once it may also close the one for which memory was wanting (others_go_on.py);
# three Heads in one piece may be answered in two calls; and where room for roots comes first, the refusal for want of
# it may be told, with what it left, before the answer (room_first.py). Each of those questions must be answered so in
# some run. Any other end is a wrong answer in place of a refusal, or shows that a refused call has changed something.
# A program that is not built counts as failed.
#
# The questions of each subject, which stand between empty lines, are a run of their own. First each allocation of
# the short subjects fails, whose notes begin with `in a few lines`; then every 4,096th one of the others, and the
# distance is halved. It ends where all were tried, or the most that is given, or where the seconds are over (300
# unless given); those of the short subjects that were not tried count as failed. It takes as many processors as
# there are. The last line is `N passed, N failed`, and the status is 0 where none failed.
#
# `rt try --fail-alloc` makes an allocation fail too, but builds for a minute each time, and what it builds is
# hundreds of times slower. So a library in front of the C library's counts allocations in the built program.
set -uo pipefail
cd "$(dirname "$0")/../.." || exit 1
. scripts/drive/library.sh
crates=$PWD/crates

seconds=300
most=1000000000
while [ $# -gt 0 ]; do
    case $1 in
    --seconds) seconds=${2:?--seconds takes a number} ;;
    --most) most=${2:?--most takes a number} ;;
    *) break ;;
    esac
    shift 2
done
programs=("$@")
[ $# -gt 0 ] || programs=(vectors session_vectors faults)
workers=$(nproc)

folder=$(mktemp -d)
trap 'rm -rf "$folder"' EXIT

library=$folder/fail_nth.so
library scripts/drive/fail_nth.c "$library" || exit 1

# Answers the questions of a subject, where the allocation of this number fails, in the folder that has the
# program's files: run PROGRAM SUBJECT NUMBER OUTPUT COUNT
run() (
    cd "$crates/$1/data" 2>/dev/null || cd "$folder" || exit
    ulimit -t 120
    FAIL_NTH=$3 LD_PRELOAD=$library exec "$crates/$1/out/$1" \
        <"$folder/$1/$2.questions" >"$4" 2>/dev/null 3>"$5"
)

# Splits the questions of a program into subjects, answers them, and counts the allocations of each: a line
# PROGRAM SUBJECT COUNT WHEN, where WHEN is `first` for a short subject. Fails if the program does not write the
# stored answers.
count() {
    local part subject when
    mkdir "$folder/$1"
    cp "$crates/$1/stdin" "$folder/$1/all.questions"
    run "$1" all 0 "$folder/$1/all.answers" /dev/null &&
        cmp "$folder/$1/all.answers" "$crates/$1/stdout" >&2 || return 1
    awk -v RS= -v folder="$folder/$1" '{ print > (folder "/" NR ".questions") }' "$crates/$1/stdin"
    for part in "$folder/$1"/[0-9]*.questions; do
        subject=$(basename "$part" .questions)
        run "$1" "$subject" 0 "$folder/$1/$subject.answers" "$folder/count" || return 1
        when=then
        head -n 1 "$part" | grep -q '^# in a few lines: ' && when=first
        echo "$1 $subject $(cat "$folder/count") $when"
    done
}

# The allocations of the subjects that come at this time: a line PROGRAM SUBJECT NUMBER each.
numbers() {
    awk -v when="$1" '$4 == when { for (number = 1; number <= $3; number++) print $1, $2, number }' "$folder/counts"
}

# All allocations in the order in which they are tried.
order() {
    numbers first
    numbers then |
        awk '{ line[NR] = $0 }
            END {
                for (step = 4096; step >= 1; step /= 2)
                    for (place = 1; place <= NR; place += step)
                        if (step == 4096 || (place - 1) / step % 2 == 1)
                            print line[place]
            }'
}

# Whether a run with many connections answered as it should. Where memory is wanting for one of them, the others go
# on, and the answer tells of it: others_go_on PROGRAM SUBJECT OUTPUT
others_go_on() {
    grep -m 1 '^#' "$folder/$1/$2.questions" | grep -q '^# many connections at once' &&
        python3 scripts/drive/others_go_on.py "$folder/$1/$2.questions" "$3" "$folder/$1/$2.answers"
}

# Whether a piece of three frames was answered in two calls, each by whole replies, where the first one lacked memory:
# in_two_calls PROGRAM SUBJECT OUTPUT
in_two_calls() {
    grep -m 1 '^#' "$folder/$1/$2.questions" | grep -q ': three Heads in one piece$' &&
        awk 'NR == FNR { whole = $1; next }
            { good = NF == 3 && $2 == 14 && $1 + $3 == whole && $1 % (whole / 3) == 0 }
            END { exit !good }' "$folder/$1/$2.answers" "$3"
}

# Whether one list was refused for want of room, which changed nothing, before it was answered. Tells which one:
# room_first PROGRAM SUBJECT OUTPUT
room_first() {
    grep -m 1 '^#' "$folder/$1/$2.questions" | grep -q ': room comes first' &&
        python3 scripts/drive/room_first.py "$folder/$1/$2.questions" "$3" "$folder/$1/$2.answers" | sed "s/^/$1 /"
}

# The questions that must be refused so in some run.
room_questions() {
    local program
    for program in "${programs[@]}"; do
        grep -l -m 1 '^# .*: room comes first' "$folder/$program"/[0-9]*.questions 2>/dev/null |
            xargs -r grep -h '^[a-z]* room' | sed "s/^/$program /"
    done
}

# Tries a part of the allocations until the time is over: a line PROGRAM END each, END `passed`, `early` or
# `failed`.
try_part() {
    local program subject number status output=$folder/output.$1
    awk -v workers="$workers" -v worker="$1" 'NR % workers == worker' "$folder/order" |
        while [ $SECONDS -lt "$seconds" ] && read -r program subject number; do
            run "$program" "$subject" "$number" "$output" /dev/null
            status=$?
            if [ $status = 0 ] && cmp -s "$output" "$folder/$program/$subject.answers"; then
                echo "$program passed"
            elif [ $status = 1 ] && [ ! -s "$output" ]; then
                echo "$program early"
            elif [ $status = 0 ] && others_go_on "$program" "$subject" "$output"; then
                echo "$program passed"
            elif [ $status = 0 ] && in_two_calls "$program" "$subject" "$output"; then
                echo "$program passed"
                cat "$output" >>"$folder/calls.$1"
            elif [ $status = 0 ] && room_first "$program" "$subject" "$output" >>"$folder/rooms.$1"; then
                echo "$program passed"
            else
                echo "$program failed"
                tell "$program" "$subject" "$number" $status "$output" >&2
            fi
        done
}

# How many allocations of the short subjects were not tried. They come first, and each part takes its share in order.
untried() {
    local worker left=0 share tried
    for ((worker = 0; worker < workers; worker++)); do
        share=$(numbers first | awk -v workers="$workers" -v worker=$worker 'NR % workers == worker' | wc -l)
        tried=$(wc -l <"$folder/ends.$worker")
        [ "$tried" -ge "$share" ] || left=$((left + share - tried))
    done
    echo $left
}

# Tells of a wrong run: the first line of the answers that differs.
tell() {
    local note
    note=$(grep -m 1 '^#' "$folder/$1/$2.questions")
    echo "$1, ${note#\# }: allocation $3 fails: status $4:" \
        "$(diff "$5" "$folder/$1/$2.answers" | head -n 2 | cut -c 1-200 | tr '\n' ' ')"
}

failed=0
for program in "${programs[@]}"; do
    if [ -x "crates/$program/out/$program" ] && count "$program" >"$folder/counted"; then
        cat "$folder/counted" >>"$folder/counts"
    else
        echo "$program: not built, or it does not write the stored answers"
        failed=$((failed + 1))
    fi
done
touch "$folder/counts"
order >"$folder/all"
head -n "$most" "$folder/all" >"$folder/order"
for ((worker = 0; worker < workers; worker++)); do
    try_part $worker >"$folder/ends.$worker" &
done
wait

cat "$folder"/ends.* >"$folder/ends"
for program in "${programs[@]}"; do
    all=$(grep -c "^$program " "$folder/all")
    tried=$(grep -c "^$program " "$folder/ends")
    early=$(grep -c "^$program early$" "$folder/ends")
    echo "$program: $tried of $all allocations failed in turn, $early of them before the first answer"
done
failed=$((failed + $(grep -c " failed$" "$folder/ends")))
short=$(numbers first | wc -l)
left=$(untried)
echo "$((short - left)) of $short allocations of the short subjects were tried"
failed=$((failed + left))
# Where the second reservation of output fails, the call has one reply, and the next one two.
if grep -q '^faults .* first$' "$folder/counts" && ! cat "$folder"/calls.* | awk '2 * $1 == $3' | grep -q .; then
    echo "three Heads: no run answered one of them, and then two"
    failed=$((failed + 1))
fi
# Where the reservation of room fails, the call is refused before its roots are looked at.
without=$(comm -23 <(room_questions | sort -u) <(cat "$folder"/rooms.* 2>/dev/null | sort -u))
if [ -n "$without" ]; then
    echo "no run refused this for want of room:"
    echo "$without"
    failed=$((failed + $(wc -l <<<"$without")))
fi
echo "$(grep -vc " failed$" "$folder/ends") passed, $failed failed"
[ $failed = 0 ]
