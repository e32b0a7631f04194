#!/usr/bin/env bash
# Makes the library for C and the timed kernels, both proved, and a Rust program that times the
# library beside the kernels alone and beside plain Rust. Where rt ci has run, what it proved is
# compiled; else all is proved first. Arguments: numbers of rows. LEVEL=v3 times the code for
# x86-64-v3, in place of x86-64-v2.
set -euo pipefail
here="$(cd "$(dirname "$0")" && pwd)"
top="$here/../.."
level="${LEVEL:-v2}"
built="$top/bench/out/bindings/$level"
archive="$top/crates/bench_kernels/out/libbench_kernels"
mkdir -p "$built"
for crate in dunkelva_c bench_kernels; do
    "$top/packaging/build_archive" "$crate" || {
        (cd "$top/crates/$crate" && rt lib | tail -n 1)
        "$top/packaging/build_archive" "$crate"
    }
done
"$top/packaging/make_library" "$top"/crates/dunkelva_c/out/libdunkelva_c{,.v3}.a
[ "$level" = v2 ] || archive+=".$level"
cp "$archive.a" "$built/libbench_kernels.a"
cp "$top/out/library/libdunkelva.a" "$built"
rustc --edition 2024 -O -C "target-cpu=x86-64-$level" \
    -C llvm-args=--x86-branches-within-32B-boundaries "$here/main.rs" -L "$built" \
    -l static=bench_kernels -l static=dunkelva \
    -C link-arg="$(dirname "$(rt doc)")/c/liblibc_c.a" -o "$built/bindings"
DUNKELVA_LEVEL="$level" "$built/bindings" "$@"
