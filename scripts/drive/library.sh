# What the scripts beside this one share.

# The folder of the kit.
kit_folder() {
    dirname "$(dirname "$(readlink -f "$(command -v rt)")")"
}

# Builds a library that is loaded before the C library, with the kit's compiler or another one: library SOURCE OUTPUT
library() {
    local compiler
    compiler=$(kit_folder)/toolchain/bin/clang
    [ -x "$compiler" ] || compiler=cc
    "$compiler" -O1 -fPIC -shared -nostdlib -o "$2" "$1"
}

# Finds the kit, and the libraries on which a crate stands by crates.txt, as `rt` left them: find_libraries CRATE
# They are then in `kit` and `libraries`. The status is 1 if one is not there.
find_libraries() {
    local folder name library
    kit=$(kit_folder)
    libraries=(--extern "std=$kit/rlibs/std.rlib" -L "dependency=$kit/rlibs")
    libraries+=(--antt-project "$kit/rattle/logic/antt-project.json" --logic-built "$kit/logic_built")
    for folder in crates/*/out/rlib; do
        libraries+=(-L "dependency=$PWD/$folder")
    done
    for name in $(sed -n "s/^$1\( staticlib\)\{0,1\}: //p" crates.txt); do
        library=$kit/rlibs/$name.rlib
        if [ -d "crates/$name" ]; then library=$PWD/crates/$name/out/rlib/$name.rlib; fi
        [ -d "$library" ] || return 1
        libraries+=(--extern "$name=$library")
    done
}

# Proves and builds the program of a crate for x86-64-v3, over the libraries that `rt` left: build_v3 CRATE OUTPUT
build_v3() {
    local kit libraries
    if ! find_libraries "$1"; then
        echo "some libraries of $1 are not there: rt ci makes them"
        return 1
    fi
    (cd "crates/$1" && "$kit/bin/rattle" build --crate-name "$1" --cpu x86-64-v3 src/main.rt "${libraries[@]}" --jobs "$(nproc)" \
        --toolchain "$kit/toolchain" --backend llvm -o out/v3.o) >"crates/$1/out/v3.txt" 2>&1 || { cat "crates/$1/out/v3.txt"; return 1; }
    "$kit/bin/rattle-link" --target x86_64-unknown-linux-gnu --toolchain "$kit/toolchain" -o "$2" "crates/$1/out/v3.o" \
        "$kit/c/libos_c.a" "$kit/c/liblibc_c.a"
}

# Begins a script that counts what passes and fails: runs it anew, so that it ends after five minutes whatever
# happens, and makes a folder for it.
begin() {
    if [ -z "${IN_TIME:-}" ]; then
        IN_TIME=yes exec timeout --kill-after=10 300 "scripts/drive/$(basename "$0")"
    fi
    folder=$(mktemp -d)
    server=
    passed=0
    failed=0
    trap 'fails "out of time"; finish' TERM
}

# Ends it, and the server if one runs.
finish() {
    [ -z "$server" ] || kill "$server" 2>/dev/null
    rm -rf "$folder"
    echo "$passed passed, $failed failed"
    [ "$failed" = 0 ]
    exit
}

fails() {
    failed=$((failed + 1))
    echo "$1"
}

# Ends it unless the program of a crate is built: needs CRATE PROGRAM
needs() {
    if [ ! -x "$2" ]; then
        fails "there is no program $2: build it with (cd crates/$1 && rt run)"
        finish
    fi
}

# Compares what was got with what is wanted: same WHAT WANTED GOT
same() {
    if [ "$3" = "$2" ]; then
        passed=$((passed + 1))
    else
        fails "$1: wanted '${2:0:80}', got '${3:0:80}'"
    fi
}

# Runs a command that has to end with status 0 in so many seconds, and shows what it prints where it does not:
# well_in SECONDS WHAT WORD..
well_in() {
    local most=$1 what=$2
    shift 2
    if timeout --foreground "$most" "$@" >"$folder/printed" 2>&1; then
        passed=$((passed + 1))
    else
        fails "$what: status $?"
        cat "$folder/printed"
    fi
}
