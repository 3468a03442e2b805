#!/usr/bin/env bash
# Counts the instructions of the crate rust/uart_16550 with callgrind, body by body. Run it at the top of a checkout:
# bench/measure-rust.sh [ORIGINAL [BACKEND..]]; BODIES has the names of bodies, if not all are to be counted
#
# ORIGINAL is a folder with the sources of the original crate, uart_16550 0.9: then the same bodies over that crate are built with the
# same compiler and options, and each body is counted over both, one after the other. Prints a table for each backend: the body, what
# the original takes, what this crate takes, and the ratio. Without ORIGINAL, or with '-' in its place, it prints what this crate takes.
#
# For a trial ORIGINAL may be rust/uart_16550: its feature `compat` has the original's signatures.
set -uo pipefail

fail() {
    echo "$0: $*" >&2
    exit 1
}

[[ -f bench/rust/Cargo.toml ]] || fail "run it at the top of a checkout"
for program in cargo valgrind; do
    command -v $program > /dev/null || fail "there is no $program: install Debian's package $program"
done
original=${1:--}
[[ $original == - || -f $original/Cargo.toml ]] || fail "'$original' is no folder of a crate"

work=$(mktemp -d)
trap 'rm -rf "$work"' EXIT

# Builds the program over this crate, or over another one with the original's signatures. Prints where it is.
build() {
    local folder=$work/$1 dependency=$2
    mkdir -p "$folder" && cp -r bench/rust/src "$folder" &&
        awk -v line="uart_16550 = $dependency" '/^uart_16550 = / { $0 = line } { print }' bench/rust/Cargo.toml > "$folder/Cargo.toml" &&
        (cd "$folder" && cargo build --quiet --release --target-dir target "${@:3}") || return
    echo "$folder/target/release/measure_rust"
}

# The name of a crate's package.
package_of() {
    awk -F '"' '/^\[/ { on = $0 == "[package]" } on && /^name *=/ { print $2 }' "$1/Cargo.toml"
}

here=$(build here "{ path = \"$PWD/rust/uart_16550\", package = \"geesetrunk-uart_16550\" }" --offline) ||
    fail "the program cannot be built"
programs=("$here")
if [[ $original != - ]]; then
    package=$(package_of "$original")
    features=
    [[ $package == geesetrunk-uart_16550 ]] && features=', features = ["compat"]'
    there=$(build original "{ path = \"$(realpath "$original")\", package = \"$package\"$features }" --features original) ||
        fail "the program cannot be built over $original"
    programs=("$there" "$here")
fi

# Instructions of a program inside a function, for so many calls of it.
count() {
    valgrind --tool=callgrind --callgrind-out-file=/dev/null --toggle-collect="measure_rust::bodies::$2*" \
        "$1" "$3" "$4" "$5" 2>&1 > /dev/null | sed -n 's/.*Collected : //p'
}

# For each program the difference between more calls and one call, for each of the units between; and the ratio of the second to the first.
each() {
    local body=$1 function=$2 calls=$3 units=$4 backend=$5 program counts=()
    for program in "${programs[@]}"; do
        counts+=("$(count "$program" "$function" "$body" "$backend" 1)" "$(count "$program" "$function" "$body" "$backend" "$calls")")
    done
    echo "$body $units ${counts[*]}" | awk '{
        first = ($4 - $3) / $2
        printf "%-12s %8.2f", $1, first
        if (NF > 4) { second = ($6 - $5) / $2; printf " %8.2f  %.2f", second, second / first }
        print ""
    }'
}

shift $(($# < 1 ? $# : 1))
for backend in ${@:-folding folding-called volatile volatile-called}; do
    if [[ $original == - ]]; then echo "$backend: body, here"; else echo "$backend: body, original, here, ratio"; fi
    for body in ${BODIES:-send-fifo send-single receive init-fifo init-single lsr msr dump text}; do
        case $body in
            send-* | receive | text) each $body "${body%-*}" 3 2097152 "$backend" ;;
            *) each $body "${body%-*}" 257 256 "$backend" ;;
        esac
    done
done
