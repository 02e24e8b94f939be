#!/usr/bin/env bash
# Runs directoryd as a process, and compares its status and what it writes with the table of statuses in
# docs/OPERATING.md and with clap's words. No clause can speak of the process's own streams or of clap's texts,
# so they are shown here.
#
#   scripts/drive/statuses.sh
#
# Takes the built program, or the one that DIRECTORYD names. The last line is `N passed, M failed`, and
# the status is 0 where none failed. It takes some ten seconds, and ends after five minutes whatever
# happens.
set -uo pipefail
cd "$(dirname "$0")/../.." || exit 1
. scripts/drive/library.sh
begin

program=${DIRECTORYD:-crates/directoryd/out/directoryd}
needs directoryd "$program"

# clap's texts have the program's name as it is called.
ln -s "$(realpath "$program")" "$folder/directoryd"

# A program of `rt try` has an address sanitizer, which wants more memory than the limits here allow.
is_limited=yes
! grep -q __asan_init "$program" || is_limited=no

# Runs the program over a file with what is written in the files out and err, and its status: over FILE WORD..
over() {
    local input=$1
    shift
    words="$*"
    status=0
    "$folder/directoryd" "$@" <"$input" >"$folder/out" 2>"$folder/err" || status=$?
}

# The same over this text: given TEXT WORD..
given() {
    printf '%b' "$1" >"$folder/in"
    shift
    over "$folder/in" "$@"
}

# The same with one of the streams full: full out WORD.., full err WORD..
full() {
    local stream=$1
    shift
    words="$* ($stream full)"
    status=0
    : >"$folder/out"
    : >"$folder/err"
    if [ "$stream" = out ]; then
        "$folder/directoryd" "$@" <"$folder/in" 2>"$folder/err" >/dev/full || status=$?
    else
        "$folder/directoryd" "$@" <"$folder/in" 2>/dev/full >"$folder/out" || status=$?
    fi
}

# The same with little memory, in KiB: within KIB FILE WORD..
within() {
    local most=$1 input=$2
    shift 2
    words="$* (memory of $most KiB)"
    status=0
    (
        ulimit -v "$most"
        exec "$folder/directoryd" "$@" <"$input" >"$folder/out" 2>"$folder/err"
    ) || status=$?
}

# Compares the last run with a status and whole texts: ends STATUS OUTPUT ERRORS
ends() {
    local out err
    out=$(<"$folder/out")
    err=$(<"$folder/err")
    if [ "$status" = "$1" ] && [ "$out" = "$2" ] && [ "$err" = "$3" ]; then
        passed=$((passed + 1))
    else
        fails "${words:0:100}: wanted status $1, '${2:0:200}' and '${3:0:200}', got $status, '${out:0:200}' and '${err:0:200}'"
    fi
}

# The words are refused: status 2, no output, and errors of clap with this first line: refused LINE WORD..
refused() {
    local line=$1 lines first last
    shift
    given "x\n" "$@"
    mapfile -t lines <"$folder/err"
    first=${lines[0]-}
    last=
    [ ${#lines[@]} = 0 ] || last=${lines[-1]}
    if [ "$status" = 2 ] && [ "$first" = "error: $line" ] && [ ! -s "$folder/out" ] &&
        [ "$last" = "For more information, try '--help'." ]; then
        passed=$((passed + 1))
    else
        fails "${words:0:100}: wanted status 2 and 'error: $line', got $status, '$first' and '$last'"
    fi
}

# The words ask for help: status 0, no errors, and an output with these parts: helps WORD.. -- PART..
helps() {
    local asked=() part out
    while [ "$1" != -- ]; do
        asked+=("$1")
        shift
    done
    shift
    given "x\n" "${asked[@]}"
    out=$(<"$folder/out")
    for part in "$@"; do
        if [ "$status" = 0 ] && [ ! -s "$folder/err" ] && [[ "$out" == *"$part"* ]]; then
            passed=$((passed + 1))
        else
            fails "${words:0:100}: status $status, without '$part'"
        fi
    done
}

zeros=$(printf '0%.0s' {1..64})
ones=$(printf '01%.0s' {1..32})
item="$zeros $zeros"
keys="--sign-key $zeros --vuf-key $zeros --salt-key $zeros --token $zeros"

# What the program's help has to show: its commands, that it protects nobody, its statuses, and where the documents
# are. And its version, behind which stands the kit that it was proved with.
helps --help -- "A CONIKS key directory" "Usage: directoryd <COMMAND>" \
    "  root " "  prove " "  audit " "  judge " "  play " "  serve " "  listen " "  ask " "-V, --version" "protects
nobody yet" "Status 0: " "Status 1: " "Status 2: " "Status 3: " "README.md" "docs/OPERATING.md" "docs/FORMATS.md" \
    "Example: directoryd "
for word in --version -V; do
    given "x\n" $word
    ends 0 "directoryd 0.1.0
rattle-kit-13f logic dac8208d650f15bf" ""
done

# What each subcommand's help has to show: its options with the names of their values, and an example.
helps root --help -- "Usage: directoryd root [OPTIONS]" "--hash <" "sha256, sum" "default: sha256" \
    "--nonce <HEX>" "INDEX COMMITMENT, each 64 hexadecimal digits" "Example: directoryd root "
helps prove --help -- "Usage: directoryd prove [OPTIONS] --index <HEX>" "--index <HEX>" "--hash <" \
    "sha256, sum" "--nonce <HEX>" "INDEX COMMITMENT, each 64 hexadecimal digits" "Example: directoryd prove "
helps audit --help -- "Usage: directoryd audit --key <HEX>" "--key <HEX>" "refused 1" "Example: directoryd audit "
helps judge --help -- "Usage: directoryd judge --key <HEX> <FILE>" "--key <HEX>" "<FILE>" "The file of evidence" \
    "Example: directoryd judge "
helps play --help -- "Usage: directoryd play" "Example: directoryd play "
for name in serve listen; do
    helps $name --help -- "--keys <FILE>" "--sign-key <HEX>" "--vuf-key <HEX>" "--salt-key <HEX>" "--token <HEX>" "--epoch <E>" \
        "The key that gives names their indices, 64 hexadecimal digits" \
        "The first epoch, a number from 1 on [default: 1]" "--nonce <HEX>" "Example: directoryd $name "
done
helps listen --help -- "--count <N>" "How many connections are answered; 0 for no end [default: 0]" \
    "--sessions <N>" "How many connections are open at once, 1 to 1024 [default: 1000]" \
    "--idle <SECONDS>" "After how many idle seconds a connection is closed; 0 for never [default: 60]" \
    "--until-eof" "Take the end of standard input as an order to stop" \
    "<ADDR>" "The address to listen on"
helps ask --help -- "Usage: directoryd ask [OPTIONS] <ADDR> [COMMAND] [WORD] [WORD] [WORD]" "--provider <FILE>" "--token <HEX>" \
    "The file of the provider's public keys, which everybody may read" "A file of secret keys: lines of " \
    "--keys <FILE>" "--state <FILE>" "register NAME KEY" "--text " "Take NAME of the words as text, such as alice" "--after <EPOCH>" \
    "NAME and KEY are hexadecimal digits, here and in what is printed" "--text without words is refused" \
    "Status 3: the provider was caught" "Status 1: nothing can be said today" \
    "Example: directoryd ask "
given "" root --help
cp "$folder/out" "$folder/help"
given "" root -h
ends 0 "$(<"$folder/help")" ""
given "" help root
ends 0 "$(<"$folder/help")" ""

# Words that order nothing. Of one the whole text is compared.
given "x\n" root --salt
ends 2 "" "error: unexpected argument '--salt' found

Usage: directoryd root [OPTIONS]

For more information, try '--help'."
refused "'directoryd' requires a subcommand but one was not provided"
refused "unrecognized subcommand 'roots'" roots
refused "unrecognized subcommand 'ROOT'" ROOT
refused "unexpected argument '--hash' found" --hash sum root
refused "unexpected argument '--version' found" root --version
refused "unexpected argument 'root' found" root root
refused "unexpected argument '--has' found" root --has sum
refused "unexpected argument '-n' found" root -n
refused "unexpected argument '--index' found" root --index c0
refused "a value is required for '--hash <hash>' but none was supplied" root --hash
refused "a value is required for '--nonce <HEX>' but none was supplied" root --nonce
refused "invalid value 'SUM' for '--hash <hash>'" root --hash SUM
refused "a value is required for '--hash <hash>' but none was supplied" root --hash=
refused "the argument '--hash <hash>' cannot be used multiple times" root --hash sum --hash sum
refused "the argument '--nonce <HEX>' cannot be used multiple times" root --nonce a0 --nonce a0
refused "the following required arguments were not provided:" prove
refused "a value is required for '--index <HEX>' but none was supplied" prove --index
refused "unexpected argument '--inde' found" prove --inde $zeros
refused "the argument '--index <HEX>' cannot be used multiple times" prove --index $zeros --index=$zeros
refused "the following required arguments were not provided:" audit
refused "unexpected argument 'file' found" audit --key 5e file
refused "the following required arguments were not provided:" judge --key 5e
refused "the following required arguments were not provided:" judge file
refused "unexpected argument 'another' found" judge --key 5e file another
refused "unexpected argument 'file' found" play file
refused "unexpected argument '--key' found" play --key 5e
for name in serve listen; do
    address=
    [ $name = serve ] || address=here:1
    for key in sign-key vuf-key salt-key token; do
        some=${keys/--$key $zeros/}
        given "" $name $some $address
        ends 1 "" "$key is missing
bad hex"
        refused "the argument '--$key <HEX>' cannot be used multiple times" $name $keys --$key $zeros $address
        refused "unexpected argument '--${key%?}' found" $name $some --${key%?} $zeros $address
    done
    refused "invalid value '0' for '--epoch <E>': 0 is not in 1..18446744073709551615" $name $keys --epoch 0 $address
    refused "invalid value '00' for '--epoch <E>': 0 is not in 1..18446744073709551615" $name $keys --epoch=00 $address
    refused "invalid value '-1' for '--epoch <E>': invalid digit found in string" $name $keys --epoch=-1 $address
    refused "unexpected argument '-1' found" $name $keys --epoch -1 $address
    refused "invalid value 'two' for '--epoch <E>': invalid digit found in string" $name $keys --epoch two $address
    refused "invalid value '18446744073709551616' for '--epoch <E>': number too large to fit in target type" \
        $name $keys --epoch 18446744073709551616 $address
    refused "a value is required for '--epoch <E>' but none was supplied" $name $keys $address --epoch
    refused "the argument '--epoch <E>' cannot be used multiple times" $name $keys --epoch 1 --epoch 1 $address
done
refused "unexpected argument '--count' found" serve $keys --count 1
refused "unexpected argument 'here:1' found" serve $keys here:1
refused "the following required arguments were not provided:" listen $keys
refused "the following required arguments were not provided:" ask --provider file
refused "unexpected argument 'more' found" ask --provider file here:1 change2 61 6b open more
refused "unexpected argument '--journal' found" ask --journal file here:1
refused "unexpected argument 'here:2' found" listen $keys here:1 here:2
refused "invalid value 'few' for '--count <N>': invalid digit found in string" listen $keys --count few here:1
refused "invalid value '18446744073709551616' for '--count <N>': number too large to fit in target type" \
    listen $keys --count 18446744073709551616 here:1
refused "invalid value '0' for '--sessions <N>': 0 is not in 1..=1024" listen $keys --sessions 0 here:1
refused "invalid value '1025' for '--sessions <N>': 1025 is not in 1..=1024" listen $keys --sessions 1025 here:1
refused "invalid value '-1' for '--idle <SECONDS>': invalid digit found in string" listen $keys --idle=-1 here:1
refused "unexpected argument '--until-eof' found" serve $keys --until-eof
given "x\n" $'\xff'
ends 2 "" "error: invalid UTF-8 was detected in one or more arguments"
given "x\n" root --nonce $'\xff'
ends 2 "" "error: invalid UTF-8 was detected in one or more arguments"

# The words' values, in any order. A first epoch is the epoch of the root that a directory answers with.
given "$item\n" root --hash sum
ends 0 "root ${zeros:4}004c" ""
given "$item\n" root --nonce $ones --hash=sum
ends 0 "root ${zeros:4}006c" ""
given "$item" root --hash=sum --nonce=${ones^^}
ends 0 "root ${zeros:4}006c" ""
given "" root --hash sum
ends 0 "root ${zeros:4}0045" ""
given "" root
cp "$folder/out" "$folder/sha256"
given "" root --hash sha256 --nonce $zeros
ends 0 "$(<"$folder/sha256")" ""
given "" prove --hash sum --index $zeros
ends 0 "level 0
empty
root ${zeros:4}0045" ""
over examples/items.txt prove --index=$zeros --hash sum
ends 0 "level 2
present $zeros
sibling ${zeros:4}00cd
sibling ${zeros:4}008e
root ${zeros:4}01a9" ""

# The epoch of the first root, in hex, as the reply to a Head frame has it: begins EPOCH WORD..
begins() {
    local epoch=$1 found
    shift
    given '\0\0\0\1\6' serve $keys "$@"
    found=$(od -An -v -tx1 "$folder/out" | tr -d ' \n')
    if [ "$status" = 0 ] && [ ! -s "$folder/err" ] && [ ${#found} = 370 ] && [ "${found:14:16}" = "$epoch" ]; then
        passed=$((passed + 1))
    else
        fails "${words:0:100}: wanted a root of epoch $epoch, got status $status and '${found:0:40}'"
    fi
}

begins 0000000000000001
begins 0000000000000005 --epoch 5

# Keys that stand in a file, and one of them also on the command line. Before the address comes the file, and before
# that the words.
for key in sign-key vuf-key salt-key token nonce provider other; do echo $key $zeros; done >"$folder/keys"
own=$keys keys="--keys $folder/keys"
begins 0000000000000001
begins 0000000000000001 --sign-key $ones
begins 0000000000000001 --token= --nonce=
keys=$own
head -n 3 "$folder/keys" >"$folder/some"
given "" serve --keys "$folder/some"
ends 1 "" "token is missing
bad hex"
given "" listen --keys "$folder/some" --nonce 00 nowhere
ends 1 "" "token is missing
bad hex"
given "" ask --keys "$folder/some" nowhere
ends 1 "" "provider is missing
bad hex"
given "" ask nowhere head
ends 1 "" "provider is missing
bad hex"
given "" serve --keys "$folder/some" --token=
ends 1 "" "token is missing
bad hex"
given "" ask --keys "$folder/keys" --token= nowhere
ends 1 "" "cannot connect"
for line in "token $zeros " "token ${zeros%0}" "token  $zeros" "token" "" "token-$zeros"; do
    { cat "$folder/keys"; echo "$line"; } >"$folder/others"
    given "" serve --keys "$folder/others"
    ends 1 "" "bad hex"
    given "" ask --keys "$folder/others" nowhere
    ends 1 "" "bad hex"
done
echo "provider $ones" >"$folder/public"
none="No such file or directory (os error 2)"
given "" serve $keys --keys "$folder/none"
ends 1 "" "keys: $folder/none: $none
cannot read"
given "" listen $keys --keys "$folder/none" nowhere
ends 1 "" "keys: $folder/none: $none
cannot read"
given "" ask --provider "$folder/public" --keys "$folder" nowhere
ends 1 "" "keys: $folder: Is a directory (os error 21)
cannot read"
for file in "$folder/none" "$ones" ""; do
    given "" ask --provider="$file" nowhere
    ends 1 "" "provider: $file: $none
cannot read"
done
given "" ask --provider "$folder/public" --token 00 nowhere
ends 1 "" "token is not 64 hexadecimal digits
bad hex"
given "" ask --provider "$folder/public" --after 7 --token= nowhere head
ends 1 "" "token is missing
bad hex"
for address in nowhere 127.0.0.1:1; do
    for words in "--keys $folder/keys" "--provider $folder/public" "--provider $folder/public --keys $folder/some"; do
        given "" ask $words $address head
        ends 1 "" "cannot connect"
    done
done

# A file of the wrong kind: with secret keys where the public ones are wanted, with none of these, and the other way
# round. The first of two files counts.
echo "nonce $zeros" >"$folder/neither"
for key in sign-key vuf-key salt-key token; do
    { cat "$folder/public"; echo "$key $zeros"; } >"$folder/secret"
    given "" ask --provider "$folder/secret" --keys "$folder/public" nowhere head
    ends 1 "" "provider: $folder/secret: has secret keys
bad hex"
    given "" ask --keys "$folder/secret" nowhere head
    ends 1 "" "cannot connect"
done
for file in neither /dev/null; do
    [ $file != neither ] || file=$folder/neither
    given "" ask --provider "$file" --token $zeros nowhere head
    ends 1 "" "provider: $file: has no public key
bad hex"
done
for words in "serve $keys" "listen $keys nowhere" "ask --provider $folder/public nowhere head"; do
    given "" $words --keys "$folder/public"
    ends 1 "" "keys: $folder/public: has public keys alone
bad hex"
done
given "" serve $keys --keys "$folder/neither"
ends 0 "" ""
{ cat "$folder/public"; echo "nonce"; } >"$folder/others"
given "" ask --provider "$folder/others" nowhere head
ends 1 "" "bad hex"

# `--text` is for words.
given "head\n" ask --provider "$folder/secret" --text nowhere
ends 2 "" "error: '--text' is for a COMMAND of the words; names in the lines of the input are hexadecimal digits"
given "" ask --provider "$folder/public" --text nowhere watch alice -
ends 1 "" "cannot connect"
# `--after` is for words that have a last epoch.
for words in "" "lookup 61 0" "history 1 1" "settle 61" "register 61 62"; do
    given "head\n" ask --provider "$folder/secret" --after 7 nowhere $words
    ends 2 "" "error: '--after' is for the COMMAND 'watch', 'watch2' or 'head' of the words"
done
given "" ask --provider "$folder/public" --after 0 127.0.0.1:1 watch 61 -
ends 3 "stale 0" "cannot connect"
given "" ask --provider "$folder/public" --after 0 127.0.0.1:1 watch2 61 62 final
ends 3 "stale 0" "cannot connect"
given "" ask --provider "$folder/public" --after 7 127.0.0.1:1 watch2 61 - final
ends 1 "" "cannot connect"
given "" ask --provider "$folder/public" --after 18446744073709551615 127.0.0.1:1 head
ends 3 "stale 0" "cannot connect"
given "" ask --provider "$folder/public" --after 7 127.0.0.1:1 watch 6 -
ends 1 "" "cannot connect"
refused "invalid value '-1' for '--after <EPOCH>': invalid digit found in string" ask --after=-1 nowhere
refused "invalid value 'soon' for '--after <EPOCH>': invalid digit found in string" ask --after soon nowhere
refused "the argument '--after <EPOCH>' cannot be used multiple times" ask --after 1 --after 2 nowhere
refused "unexpected argument '--after' found" listen $keys --after 1 nowhere
refused "the argument '--text' cannot be used multiple times" ask --text --text nowhere
refused "unexpected value 'alice' for '--text' found; no more were expected" ask --text=alice nowhere
refused "unexpected argument '--text' found" listen $keys --text nowhere
begins 0000000000000005 --epoch +5
begins 0000000000000005 --epoch 005 --nonce $ones
begins 0000000000000005 --epoch=+05
begins ffffffffffffffff --epoch 18446744073709551615

# Faults of the words' values, before the input's.
for input in "x\n" ""; do
    given "$input" root --nonce 00
    ends 1 "" "bad hex"
    given "$input" root --nonce=
    ends 1 "" "bad hex"
    given "$input" root --nonce "${zeros}0"
    ends 1 "" "bad hex"
    given "$input" prove --index "${zeros%?}g"
    ends 1 "" "bad hex"
    given "$input" prove --index $zeros --nonce 00
    ends 1 "" "bad hex"
    given "$input" audit --key "${zeros:2}"
    ends 1 "" "bad hex"
    given "$input" judge --key= -- --key
    ends 1 "" "bad hex"
    given "$input" judge none "--key=${zeros}0"
    ends 1 "" "bad hex"
    for key in sign-key vuf-key salt-key token; do
        given "$input" serve ${keys/--$key $zeros/--$key=${zeros:2}}
        ends 1 "" "$key is not 64 hexadecimal digits
bad hex"
    done
    given "$input" serve $keys --nonce a0
    ends 1 "" "nonce is not 64 hexadecimal digits
bad hex"
    given "$input" serve $keys --nonce=
    ends 1 "" "nonce is missing
bad hex"
done
# The first of them that cannot be used is named.
given "" serve
ends 1 "" "sign-key is missing
bad hex"
given "" serve --nonce 00 --token 00 --salt-key $zeros --vuf-key $zeros --sign-key $zeros
ends 1 "" "token is not 64 hexadecimal digits
bad hex"

# Faults of the items.
given "x\n" root
ends 1 "" "line 1: bad item"
given "$item\n\n" prove --index $zeros
ends 1 "" "line 2: bad item"
given "$item\r\n" root
ends 1 "" "line 1: bad item"
given "$item\n$item\n" root
ends 1 "" "line 2: index repeated"
given "$item\n$item\nx\n" prove --index $zeros
ends 1 "" "line 2: index repeated"

# The script in the help of `play` prints what stands below it. scripts/drive/play.sh plays many others.
given "" play --help
awk '/^In this script/ { part = "script" } /^It prints:/ { part = "printed" } sub(/^    /, "") && part { print > (folder "/help." part) }' \
    folder="$folder" "$folder/out"
over "$folder/help.script" play
ends 0 "$(<"$folder/help.printed")" ""
[ "$(wc -l <"$folder/help.printed")" = 6 ] || fails "the help of play has no whole script"
over examples/day.script play
ends 0 "$(<examples/day.script.stdout)" ""
given "" play
ends 0 "" ""
given "# a note\n\nhead\nx\nhead\n" play
ends 1 "root 1 after 0" "line 4: not a command"
given "head" play
ends 0 "root 1 after 0" ""

# Streams that fail, and want of memory.
for words in root "prove --index $zeros" "audit --key $ones" play "serve $keys"; do
    over "$folder" $words
    ends 1 "" "cannot read"
done
given '\0\0\0\1\6' serve $keys
for words in --help --version "serve $keys" "audit --key $ones"; do
    full out $words
    ends 1 "" "cannot write"
done
given "head\n" play
full out play
ends 1 "" "cannot write"
given "" root
for words in root "prove --index $zeros"; do
    full out $words
    ends 1 "" "cannot write"
done
full err root --salt
ends 1 "" ""
given "x\n" root
full err root
ends 1 "" ""
full err root --nonce 00
ends 1 "" ""
for words in "ask --text nowhere" "ask --provider $folder/secret nowhere" "ask --keys $folder/public nowhere" \
    serve "serve --keys $folder/none" "serve $keys --journal $folder" "judge --key $ones $folder/none"; do
    full err $words
    ends 1 "" ""
done
if [ $is_limited = yes ]; then
    python3 -c 'for k in range(200000): print(f"{k:064x} {0:064x}")' >"$folder/items"
    within 20000 "$folder/items" root
    ends 1 "" "out of memory"
    within 20000 "$folder/items" prove --index $zeros
    ends 1 "" "out of memory"
    within 40000 /dev/null judge --key $ones /dev/zero
    ends 1 "" "/dev/zero: out of memory
out of memory"
    python3 -c 'for k in range(200000): print(f"register {k:064x} 6b")' >"$folder/script"
    within 40000 "$folder/script" play
    sort -u -o "$folder/out" "$folder/out"
    ends 1 "promise 1" "out of memory"
fi

# `audit`, over lines whose answers Python computed, in lower case, in upper case, and with a last line
# that has no end.
scripts/questions/worked.py --audited >"$folder/audited"
cut -d ' ' -f 1 "$folder/audited" >"$folder/roots"
cut -d ' ' -f 2- "$folder/audited" >"$folder/answers"
tr a-f A-F <"$folder/roots" | head -c -1 >"$folder/upper"
for lines in roots upper; do
    over "$folder/$lines" audit --key $ones
    ends 0 "$(<"$folder/answers")" ""
done
given "" audit --key=$ones
ends 0 "" ""
given "x\n" audit --key $ones
ends 0 "refused 1" ""

# A line of 400 MB without an end, of which little is kept.
if [ $is_limited = yes ]; then
    within 100000 <(head -c 400000000 /dev/zero | tr '\0' 0) audit --key $ones
    ends 0 "refused 1" ""
fi

# The same as a note of a script, which is kept whole until it ends.
if [ $is_limited = yes ]; then
    within 100000 <(head -c 400000000 /dev/zero | tr '\0' '#') play
    ends 1 "" "out of memory"
fi

# 400 MB of frames of the greatest length and of no kind that there is, of which no more than one is kept.
if [ $is_limited = yes ]; then
    frames='import sys
for number in range(6100): sys.stdout.buffer.write(b"\0\1\0\0\x63" + bytes(65535))'
    within 100000 <(python3 -c "$frames") serve $keys
    printf '\0\0\0\2\377\2%.0s' {1..6100} >"$folder/refusals"
    if [ "$status" = 0 ] && [ ! -s "$folder/err" ] && cmp -s "$folder/refusals" "$folder/out"; then
        passed=$((passed + 1))
    else
        fails "${words:0:100}: status $status, '$(<"$folder/err")', or other replies"
    fi
fi

# `judge`, of the evidence that Python computed, which holds or not.
scripts/questions/worked.py --evidence >"$folder/evidence"
for kind in fork link skip broken-promise broken-final; do
    sed -n "s/^0 $kind //p" "$folder/evidence" >"$folder/$kind.json"
    given "" judge --key $ones "$folder/$kind.json"
    ends 0 "evidence" ""
    given "" judge "$folder/$kind.json" --key=$zeros
    ends 3 "no evidence" ""
    sed -n "s/^3 $kind //p" "$folder/evidence" >"$folder/false.json"
    given "" judge --key $ones "$folder/false.json"
    ends 3 "no evidence" ""
done

well_in 60 "evidence and roots of version 1" scripts/drive/old_files.py "$program" evidence

# `ask` tells evidence of an earlier run again, also where nothing is asked.
sed 's/.*"first": *"\([0-9a-f]*\)".*/\1/' "$folder/fork.json" >"$folder/state"
cp "$folder/fork.json" "$folder/state.kept"
given "" ask --provider "$folder/public" --state "$folder/state" nowhere settle 61
ends 3 "$(<"$folder/fork.json")
settled 61 0" "state: $folder/state.kept: evidence of an earlier run"
given "" ask --provider "$folder/public" --state "$folder/state" nowhere head
ends 3 "$(cat "$folder/state.kept")" "state: $folder/state.kept: evidence of an earlier run
cannot connect"

# Other spellings of one file: spelled SCRIPT, where SCRIPT changes the parts, a dict.
spelled() {
    python3 - "$folder/fork.json" "$1" >"$folder/spelled.json" <<'END'
import json, sys
with open(sys.argv[1], encoding="ascii") as file:
    parts = json.load(file)
exec(sys.argv[2])
print(json.dumps(parts, indent="\t"), end=" \r\n")
END
    given "" judge --key $ones "$folder/spelled.json"
}

spelled 'parts = {key: parts[key] for key in ("second", "kind", "first")}'
ends 0 "evidence" ""
spelled 'parts["first"] = parts["first"].upper()'
ends 0 "evidence" ""
spelled 'parts["third"] = ""'
ends 1 "" "not an evidence file"
spelled 'parts["first"] += "00"'
ends 1 "" "not an evidence file"
spelled 'parts["kind"] = "FORK"'
ends 1 "" "not an evidence file"

# A file of more than 64 KiB.
{
    printf '%100000s' ""
    cat "$folder/fork.json"
} >"$folder/wide.json"
given "" judge --key $ones "$folder/wide.json"
ends 0 "evidence" ""

given "" judge --key $ones "$folder/none"
ends 1 "" "$folder/none: $none
cannot read"
given "" judge --key $ones "$folder"
ends 1 "" "$folder: Is a directory (os error 21)
cannot read"
given "" judge --key $ones /dev/null
ends 1 "" "not an evidence file"
full out judge --key $ones "$folder/fork.json"
ends 1 "" "cannot write"
finish
