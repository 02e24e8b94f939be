#!/usr/bin/env bash
# Runs `directoryd serve` and `directoryd listen` as processes, asks them over loopback, and compares
# what they answer with what the model computes; then the example of a client, whose lines
# are compared with those of the model. What goes over a socket is in no clause, so it is shown here.
#
#   scripts/drive/listen.sh
#
# Takes the built programs, or those that DIRECTORYD and EXAMPLE_CLIENT name. The last line is
# `N passed, M failed`, and the status is 0 where none failed. It takes about a minute, and ends
# after five minutes whatever happens.
set -uo pipefail
cd "$(dirname "$0")/../.." || exit 1
. scripts/drive/library.sh
begin

program=${DIRECTORYD:-crates/directoryd/out/directoryd}
example=${EXAMPLE_CLIENT:-crates/example_client/out/example_client}

# Runs a command that has to end with status 0: well WHAT WORD..
well() {
    well_in 60 "$@"
}

# Runs the program over an input to its end, and compares status, output in hex and the first line of the
# errors: ends WHAT STATUS OUTPUT LINE INPUT WORD..
ends() {
    local what=$1 status=$2 output=$3 line=$4 input=$5 got=0
    shift 5
    timeout --foreground 60 "$program" "$@" <"$input" >"$folder/out" 2>"$folder/err" || got=$?
    same "$what, status" "$status" "$got"
    same "$what, output" "$output" "$(od -An -v -tx1 "$folder/out" | tr -d ' \n')"
    same "$what, errors" "$line" "$(head -n 1 "$folder/err")"
}

# Sends bytes in hex over a connection, and compares the frames that come back: told WHAT HEX FRAMES
told() {
    same "$1" "$3" "$(timeout --foreground 60 scripts/drive/send_frames.py "$address" $2 2>&1)"
}

# The address that the server tells.
hears_address() {
    address=
    for _ in {1..600}; do
        address=$(sed -n 's/^listening on \(127\.0\.0\.1:[1-9][0-9]*\)$/\1/p' "$folder/server_err")
        [ -z "$address" ] || return 0
        sleep 0.05
    done
    fails "the server does not tell its address: $(cat "$folder/server_err")"
    finish
}

# Starts a server on a port that the system chooses, with these options: starts WORD..
starts() {
    : >"$folder/server_err"
    "$program" listen $keys "$@" 127.0.0.1:0 >"$folder/server_out" 2>"$folder/server_err" &
    server=$!
    hears_address
}

# The server has to end by itself now, with this status and nothing but its line: stops WHAT STATUS
stops() {
    local status=0 ended=no
    for _ in {1..100}; do
        if ! kill -0 "$server" 2>/dev/null; then
            ended=yes
            break
        fi
        sleep 0.05
    done
    same "$1: the server ended" yes "$ended"
    [ $ended = yes ] || kill "$server"
    wait "$server" || status=$?
    server=
    [ $ended = no ] || same "$1: status" "$2" "$status"
    same "$1: errors" "listening on $address" "$(cat "$folder/server_err")"
    same "$1: output" "" "$(cat "$folder/server_out")"
}

needs directoryd "$program"
needs example_client "$example"
keys=$(scripts/questions/worked.py --keys)
well "the document has the frames that are computed" scripts/questions/worked.py --in docs/FORMATS.md

# Over the standard streams.
scripts/questions/worked.py --requests >"$folder/requests"
scripts/questions/worked.py --replies >"$folder/replies"
head=$(head -c 185 "$folder/replies" | od -An -v -tx1 | tr -d ' \n')
all=$(od -An -v -tx1 "$folder/replies" | tr -d ' \n')
printf '\0\0\0\1\6\0\0\0\1\6\0\0\0\1\6' >"$folder/heads"
ends "three heads" 0 "$head$head$head" "" "$folder/heads" serve $keys
ends "all requests" 0 "$all" "" "$folder/requests" serve $keys

# A reply comes while the client waits to ask again.
mkfifo "$folder/asked" "$folder/told"
"$program" serve $keys <"$folder/asked" >"$folder/told" 2>"$folder/err" &
server=$!
exec 8>"$folder/asked" 9<"$folder/told"
for number in 1 2; do
    printf '\0\0\0\1\6' >&8
    same "reply $number to a client that waits" "$head" \
        "$(timeout --foreground 10 head -c 185 <&9 | od -An -v -tx1 | tr -d ' \n')"
done
exec 8>&-
status=0
wait "$server" || status=$?
exec 9<&-
server=
same "a client that waits, status" 0 "$status"
same "a client that waits, errors" "" "$(cat "$folder/err")"

# Connections with one directory, whatever a client sends: all requests, and twice those that change
# nothing; two bad streams; 3 connections that fail or follow; 2 beside each other; and 300.
starts --count 310

# The keys come before the address, and the words before both.
ends "an address in use" 1 "" "cannot listen" /dev/null listen $keys "$address"
ends "no address" 1 "" "cannot listen" /dev/null listen $keys nowhere
ends "a bad token and an address in use" 1 "" "token is not 64 hexadecimal digits" /dev/null listen ${keys% *} 00 "$address"
ends "a bad nonce and an address in use" 1 "" "nonce is not 64 hexadecimal digits" /dev/null listen $keys --nonce 00 "$address"
ends "a bad token and epoch 0" 2 "" \
    "error: invalid value '0' for '--epoch <E>': 0 is not in 1..18446744073709551615" \
    /dev/null listen ${keys% *} 00 --epoch 0 "$address"
status=0
timeout --foreground 60 "$program" listen $keys --count 1 127.0.0.1:0 </dev/null 2>/dev/full || status=$?
same "a line that cannot be written" 1 "$status"

well "all requests over a connection" scripts/drive/replies.py "$address"
well "the same directory over the next" scripts/drive/replies.py "$address" --again
told "half a frame" "00000029 07 04040404" ""
told "a length that no frame has" "ffffffff ffffffff" 00000002ff01
well "connections that fail, and the next" scripts/drive/connections.py "$address" fails
well "one client beside another" scripts/drive/connections.py "$address" beside
well "the same directory after these" scripts/drive/replies.py "$address" --again
well "three hundred clients" scripts/drive/connections.py "$address" heads 300
stops "after all connections" 0

# Exactly so many connections, of more that wait; and no end of them, until it is killed.
for count in 1 2 3; do
    starts --count $count
    well "$count connections" scripts/drive/connections.py "$address" exactly $count
    stops "after $count connections" 0
done

# Many connections at once.
ends_now() {
    kill "$server" 2>/dev/null
    wait "$server" 2>/dev/null
    server=
}

starts
well "500 clients at once beside 100 that are silent" scripts/drive/crowds.py "$address" checked 500 100
well "a slow client" scripts/drive/crowds.py "$address" slow
well "a client that takes no reply" scripts/drive/crowds.py "$address" deaf
well "clients that reset their connections" scripts/drive/crowds.py "$address" resets 50
same "no line about these" "listening on $address" "$(cat "$folder/server_err")"
ends_now

starts --idle 1
well "silent clients are closed" scripts/drive/crowds.py "$address" idle 1
well "a server that is suspended" scripts/drive/crowds.py "$address" suspended 1 "$server"
ends_now

# A round that lasts longer than that, since its sync is slow, closes nobody who is answered in it, or asks.
if library scripts/drive/sync_order.c "$folder/sync_order.so"; then
    SLOW_SYNC=1500 LD_PRELOAD=$folder/sync_order.so starts --idle 1 --journal "$folder/slow_journal"
    well "clients of a long round ask again" scripts/drive/crowds.py "$address" late 1
    ends_now
else
    fails "sync_order.c is not built"
fi

starts --sessions 3
well "no free place" scripts/drive/crowds.py "$address" full 3
ends_now

ends "no place at all" 2 "" "error: invalid value '0' for '--sessions <N>': 0 is not in 1..=1024" \
    /dev/null listen $keys --sessions 0 127.0.0.1:0

# File handles run out, and the server goes on.
limit=$(ulimit -S -n)
ulimit -S -n 64
starts
ulimit -S -n "$limit"
well "more clients than file handles" scripts/drive/crowds.py "$address" many 120
same "no line about file handles" "listening on $address" "$(cat "$folder/server_err")"
ends_now

# What many clients were answered is in the journal of a server that was killed.
starts --journal "$folder/journal"
well "a journal of many clients" scripts/drive/crowds.py "$address" checked 100 10
{ kill -KILL "$server" && wait "$server"; } 2>/dev/null
starts --journal "$folder/journal"
same "the records of many clients" "journal: 269 records taken" "$(head -n 1 "$folder/server_err")"
well "the names of many clients" scripts/drive/crowds.py "$address" kept 100
ends_now

# The end of standard input is an order to stop: of a pipe, with and without something before it, and of a file.
for before in 0 60000; do
    mkfifo "$folder/order"
    : >"$folder/server_err"
    "$program" listen $keys --until-eof 127.0.0.1:0 <"$folder/order" >"$folder/server_out" 2>"$folder/server_err" &
    server=$!
    exec 8>"$folder/order"
    hears_address
    head -c $before /dev/zero >&8
    well "a server with an order to come" scripts/drive/connections.py "$address" heads 3
    same "it goes on" yes "$(sleep 0.2; kill -0 "$server" 2>/dev/null && echo yes)"
    exec 8>&-
    stops "after the end of its input, $before bytes" 0
    rm "$folder/order"
done
mkfifo "$folder/order"
: >"$folder/server_err"
"$program" listen $keys --until-eof 127.0.0.1:0 <"$folder/order" >"$folder/server_out" 2>"$folder/server_err" &
server=$!
exec 8>"$folder/order"
hears_address
: >"$folder/seen"
scripts/drive/crowds.py "$address" stopped >"$folder/seen" 2>&1 8>&- &
clients=$!
for _ in {1..600}; do
    ! grep -q ready "$folder/seen" || break
    sleep 0.05
done
exec 8>&-
wait $clients
same "clients of a server that stops" "0 ready" "$? $(cat "$folder/seen")"
stops "with clients that are still there" 0
status=0
timeout --foreground 60 "$program" listen $keys --until-eof 127.0.0.1:0 <"$folder/requests" 2>/dev/null || status=$?
same "a file as the order to stop" 0 "$status"

for option in "" "--count 0" "--count 00"; do
    starts $option
    well "connections without an end" scripts/drive/connections.py "$address" heads 5
    same "a server without an end goes on" yes "$(sleep 0.2; kill -0 "$server" 2>/dev/null && echo yes)"
    kill "$server" 2>/dev/null
    wait "$server" 2>/dev/null
    server=
done

# Reports: every second, and each has what was asked until then. One connection stays open and is silent.
asks() {
    scripts/drive/send_frames.py "$address" "$@" >"$folder/seen" 2>&1
}

# Soon a report has to be this line, behind its first word: reports WHAT LINE
reports() {
    local got=
    for _ in {1..100}; do
        got=$(sed -n 's/^report: //p' "$folder/server_err" | tail -n 1)
        [ "$got" != "$2" ] || break
        sleep 0.05
    done
    same "$1" "$2" "$got"
}

# How many bytes the journal of the reports has.
size() {
    stat -c %s "$folder/reported"
}

register="00000009 01 0003 7a6564 0001 6b"
close="00000029 07 ${keys##* } 0000000000000007"
begun=$SECONDS
starts --report 1 --journal "$folder/reported"
exec 7<>"/dev/tcp/${address/:/\/}"
reports "a report before anything" "epoch=1 names=0 waiting=0 requests=0 refused=0 connections=1 journal=$(size)"
asks $register
reports "a report on a name that waits" "epoch=1 names=1 waiting=1 requests=1 refused=0 connections=1 journal=$(size)"
asks $close
reports "a report on an epoch" "epoch=7 names=1 waiting=0 requests=2 refused=0 connections=1 journal=$(size)"
asks 0000000a 02 0003 7a6564 0002 6b32 $close
reports "a report on a change, and a refusal" "epoch=7 names=1 waiting=1 requests=4 refused=1 connections=1 journal=$(size)"
asks 00000001 06 00000001 06 00000002 05 00
reports "a report on a refused message" "epoch=7 names=1 waiting=1 requests=7 refused=2 connections=1 journal=$(size)"
exec 7>&-
reports "a report on the end of a connection" "epoch=7 names=1 waiting=1 requests=7 refused=2 connections=0 journal=$(size)"
count=$(grep -c '^report: ' "$folder/server_err")
most=$((SECONDS - begun + 1))
same "a report a second: $count in $most" yes "$([ "$count" -ge 6 ] && [ "$count" -le $most ] && echo yes)"
same "nothing but reports" "" "$(grep -v '^report: \|^journal: 0 records taken$\|^listening on ' "$folder/server_err")"
ends_now

starts --report 1
reports "a report without a journal" "epoch=1 names=0 waiting=0 requests=0 refused=0 connections=0"
ends_now

# No record can be written, and standard error is a pipe, which nobody reads once a report says so: the server goes on.
read_errors() {
    local line
    while IFS= read -r line; do
        printf '%s\n' "$line"
        [[ $line != *" edits=refused" ]] || return
    done
}
mkfifo "$folder/errors"
: >"$folder/server_err"
read_errors <"$folder/errors" >"$folder/server_err" &
reader=$!
(trap "" XFSZ; ulimit -f 0; exec "$program" listen $keys --report 1 --journal "$folder/reported" 127.0.0.1:0) \
    >"$folder/server_out" 2>"$folder/errors" &
server=$!
hears_address
told "a record that cannot be written" "${close/%7/8}" 00000002ff13
reports "a report on refused edits" \
    "epoch=7 names=1 waiting=1 requests=1 refused=1 connections=0 journal=$(size) edits=refused"
same "a line on the journal" 1 "$(grep -c '^journal: cannot write, edits are refused until a restart$' "$folder/server_err")"
kill $reader 2>/dev/null
wait $reader 2>/dev/null
sleep 2.1
well "clients of a server whose errors nobody reads" scripts/drive/connections.py "$address" heads 3
same "a server whose errors nobody reads goes on" yes "$(kill -0 "$server" 2>/dev/null && echo yes)"
ends_now

# A client that follows the directory and watches a name.
starts
well "the example of a client" scripts/drive/example.py "$address" "$example"
finish
