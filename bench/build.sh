# For the scripts beside this one.

# Proves and builds the programs of these crates, each where it has changed: build CRATE..
build() {
    local crate log
    log=$(mktemp)
    for crate in "$@"; do
        echo "building $crate" >&2
        # Where `--help` is no option, the program ends with another status. It has to have run.
        (cd "crates/$crate" && rt run -- --help </dev/null >"$log" 2>&1) || true
        if ! grep -q "^rt: running" "$log"; then
            cat "$log" >&2
            rm -f "$log"
            echo "$crate was not built" >&2
            exit 1
        fi
    done
    rm -f "$log"
}

# Builds the programs of these crates for x86-64-v3, too, each as PROGRAM-v3, where the processor has AVX2. The status is 1
# where it has not: build_avx2 CRATE..
build_avx2() {
    local crate
    grep -q avx2 /proc/cpuinfo || return 1
    . scripts/drive/library.sh
    for crate in "$@"; do
        echo "building $crate for x86-64-v3" >&2
        build_v3 "$crate" "crates/$crate/out/$crate-v3" || exit 1
    done
}

# Builds the clients of a server, plain Rust with its std alone.
build_load() {
    mkdir -p bench/out
    rustc -O --edition 2021 -o bench/out/load bench/load.rs
}

# Builds the peer of `directoryd root`, plain Rust with its std alone, for each of these processors.
build_root_peer() {
    local cpu
    mkdir -p bench/out
    for cpu in "$@"; do
        rustc -O --edition 2021 -C "target-cpu=$cpu" -o "bench/out/root_peer-$cpu" bench/root_peer.rs
    done
}
