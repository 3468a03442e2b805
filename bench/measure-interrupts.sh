#!/bin/sh
# Counts how many interrupts the rings take for a megabyte over the chip in software, with FIFOs of each size, and prints the rows of the
# table in bench/README.md. Run it at the top of a checkout. It needs cargo, and no network.
fail() {
    echo "$0: $*" >&2
    exit 1
}

[ -f bench/interrupts/Cargo.toml ] || fail "run it at the top of a checkout"
command -v cargo > /dev/null || fail "there is no cargo: install Debian's package cargo"

work=$(mktemp -d)
trap 'rm -rf "$work"' EXIT
cargo run --quiet --release --offline --manifest-path bench/interrupts/Cargo.toml --target-dir "$work" ||
    fail "the program cannot be built"
