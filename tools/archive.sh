#!/usr/bin/env bash
# Builds target/staticlib/liblitmus.a, the archive for C and Rust, from the crate litmus_c.
# With a file as argument it takes the libraries that `rt ci` proved since that file was written, if each of them is that new:
# `rt ci` proves a static library and doesn't build it, and `rt lib` would prove all libraries below once more.
set -euo pipefail
cd "$(dirname "$0")/.."

libraries=()
for line in crates/*/src/lib.rt; do
    name=$(basename "${line%/src/lib.rt}")
    if [ "$name" != litmus_c ]; then
        libraries+=("$name")
    fi
done

# Whether `rt ci` made each library since the file was written.
are_new() {
    local name
    for name in "${libraries[@]}"; do
        [ "crates/$name/out/rlib/$name.rlib" -nt "$1" ] || return 1
    done
}

# Builds the static library as `rt lib` does, over the libraries as they stand.
build() {
    local kit name words
    kit=$(dirname "$(rt doc)")
    words=(--crate-name litmus_c src/lib.rt --crate-type staticlib --extern "std=$kit/rlibs/std.rlib")
    for name in $(sed -n 's/^litmus_c staticlib: *//p' crates.txt); do
        words+=(--extern "$name=../$name/out/rlib/$name.rlib")
    done
    words+=(-L "dependency=$kit/rlibs")
    for name in "${libraries[@]}"; do
        words+=(-L "dependency=../$name/out/rlib")
    done
    words+=(--antt-project "$kit/rattle/logic/antt-project.json" --logic-built "$kit/logic_built")
    words+=(--toolchain "$kit/toolchain" --backend llvm --jobs 2 -o out/liblitmus_c.a)
    mkdir -p crates/litmus_c/out
    (cd crates/litmus_c && "$kit/bin/rattle" build "${words[@]}")
}

if [ $# -eq 0 ] || ! are_new "$1" || ! build; then
    (cd crates/litmus_c && rt lib)
fi
mkdir -p target/staticlib
cp crates/litmus_c/out/liblitmus_c.a target/staticlib/liblitmus.a
