#!/usr/bin/env bash
# Builds the kernels as a static library and a Rust program that times them beside plain Rust, both
# for one level of processors, and runs it. `run.sh --help` says how to call it.
set -euo pipefail
here="$(cd "$(dirname "$0")" && pwd)"
crates="$here/../crates"
# What a processor of x86-64-v3 has, as /proc/cpuinfo names it.
v3=(avx avx2 bmi1 bmi2 f16c fma abm movbe)

# Prints how to call this.
usage() {
    cat << 'END'
usage: bench/run.sh [--json FILE] [WORD..]

Times the kernels whose names hold one of the words, or all, beside plain Rust. Lines of earlier
rounds go to standard error, and those of the last round, which are final, to standard output.

  --json FILE  writes the final figures to FILE too, an object of JSON a line

Variables:
  QUICK=1      rough figures, in about a minute
  ROUNDS=N     in how many rounds all but arithmetic are timed (4, and with QUICK=1 1)
  LEVEL=v3     for x86-64-v3, in place of x86-64-v2
END
}

# Ends with what is wrong with the call.
refuse() {
    printf 'run.sh: %s\nrun.sh --help says how to call it\n' "$1" >&2
    exit 2
}

# Reads the arguments.
read_arguments() {
    while [ $# -gt 0 ]; do
        case "$1" in
            -h | --help) usage && exit ;;
            --json=?*) JSON="${1#*=}" ;;
            --json)
                [ -n "${2:-}" ] || refuse "--json needs a file"
                JSON="$2"
                shift
                ;;
            -*) refuse "there is no option $1" ;;
            *) words+=("$1") ;;
        esac
        shift
    done
}

# Refuses variables that have no meaning, a level that this processor does not have, and a file that
# cannot be written.
check_variables() {
    [[ "${QUICK:-}" =~ ^[01]?$ ]] || refuse "QUICK is 1 or 0, not $QUICK"
    [[ "${ROUNDS:-1}" =~ ^[1-9][0-9]{0,3}$ ]] || refuse "ROUNDS is a number from 1 on, not $ROUNDS"
    [[ "$level" =~ ^v[23]$ ]] || refuse "LEVEL is v2 or v3, not $level"
    if [ "$level" = v3 ]; then
        local has flag
        has=" $(sed -n 's/^flags[^:]*: //p;/^flags/q' /proc/cpuinfo) "
        for flag in "${v3[@]}"; do
            [[ "$has" = *" $flag "* ]] || refuse "LEVEL=v3: this processor has no $flag"
        done
    fi
    [ -z "$JSON" ] || { : >> "$JSON"; } 2> /dev/null || refuse "$JSON cannot be written"
}

# Prints a file of the others, or below them, that is newer than the first one, if there is one.
newer() {
    find "${@:2}" -name out -prune -o -type f -newer "$1" -print -quit
}

# Returns whether each crate is as it was when it was proved.
is_proved() {
    local proved
    for proved in "$crates"/*/out/rlib; do
        [ -d "$proved" ] && [ -z "$(newer "$proved" "${proved%/out/rlib}")" ] || return 1
    done
}

# Builds the library where a source has changed. Where rt ci has run, what it proved is compiled;
# else all is proved first. What was proved for one level is compiled for the other one.
build_library() {
    local archive="$built/libbench_kernels.a" made="$crates/bench_kernels/out/libbench_kernels"
    local build=("$here/../packaging/build_archive" bench_kernels "$level")
    [ -f "$archive" ] && [ -z "$(newer "$archive" "$crates" "$crates.txt")" ] && return
    echo "building the library, for x86-64-$level" >&2
    if ! is_proved || ! "${build[@]}"; then
        echo "proving what it is made of first, which takes half an hour or more" >&2
        (cd "$crates/bench_kernels" && rt lib | tail -n 1) >&2
        "${build[@]}"
    fi
    [ "$level" = v2 ] || made+=".$level"
    mv "$made.a" "$archive"
}

# Builds the program where a file has changed. The plain Rust is at its best: none of its jumps
# crosses a boundary of 32 bytes, which costs a short loop up to a fifth.
build_program() {
    local program="$built/bench"
    [ -f "$program" ] && [ -z "$(newer "$program" "$here"/*.rs "$0" "$built")" ] && return
    echo "building the program" >&2
    rustc --edition 2024 -O -C "target-cpu=x86-64-$level" \
        -C llvm-args=--x86-branches-within-32B-boundaries "$here/main.rs" -L "$built" \
        -l static=bench_kernels -C link-arg="$(dirname "$(rt doc)")/c/liblibc_c.a" -o "$program"
}

level="${LEVEL:-v2}"
built="$here/out/$level"
JSON=""
words=()
read_arguments "$@"
check_variables
for tool in rt rustc; do
    command -v "$tool" > /dev/null || { echo "run.sh: $tool is missing" >&2; exit 1; }
done
mkdir -p "$built"
build_library
build_program
export JSON
exec "$built/bench" "${words[@]}"
