# Sourced by oracle/build and bench/build: compiles the Rust.
# shellcheck shell=bash

# into OUT: makes the folder that all is compiled into, and goes to the root of the repository.
into() {
    mkdir -p "$1"
    out=$(cd "$1" && pwd)
    cd "$(dirname "${BASH_SOURCE[0]}")/.." || return
}

# compile WORDS..: one call of the compiler.
compile() { "${RUSTC:-rustc}" --edition 2021 -O --out-dir "$out" -L "$out" "$@"; }

# cdp_types SOURCE CEA708 [WORDS..]: checks the carried-over files, then compiles the crate whose root is SOURCE over its
# stand-ins, that for cea708_types from the file CEA708. WORDS go to the compiler for all but the derive macro, which the
# compiler itself runs.
cdp_types() {
    local source=$1 cea708=$2
    shift 2
    (cd oracle/cdp-types && sha256sum --check --strict --quiet SHA256SUMS) || return
    compile --crate-name thiserror --crate-type proc-macro oracle/stand-in/thiserror.rs &&
        compile "$@" --crate-name log --crate-type rlib oracle/stand-in/log.rs &&
        compile "$@" --crate-name cea708_types --crate-type rlib "$cea708" &&
        compile "$@" --crate-name cdp_types --crate-type rlib --cap-lints allow \
            --extern "log=$out/liblog.rlib" --extern "thiserror=$(echo "$out"/libthiserror.*)" \
            --extern "cea708_types=$out/libcea708_types.rlib" "$source"
}

# over_cdp_types NAME SOURCE [WORDS..]: compiles a program over that crate.
over_cdp_types() {
    local name=$1 source=$2
    shift 2
    compile "$@" --crate-name "$name" --extern "cdp_types=$out/libcdp_types.rlib" "$source"
}
