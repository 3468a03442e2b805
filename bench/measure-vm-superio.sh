#!/bin/sh
# Counts the instructions of the chip of rust/uart_16550_chip and of vm-superio's serial device with callgrind, as tools/c/measure --speed
# does those of c/uart_port.c. Run it at the top of a checkout. Prints whose code it is, what is called, how many instructions a call takes
# inside the functions that are counted, and these functions; then how often each device triggers the interrupt under Linux's driver.
# Without Debian's package librust-vm-superio-dev only the chip is counted.
fail() {
    echo "$0: $*" >&2
    exit 1
}

[ -f bench/vm-superio/Cargo.toml ] || fail "run it at the top of a checkout"
for program in cargo valgrind; do
    command -v $program > /dev/null || fail "there is no $program: install Debian's package $program"
done

work=$(mktemp -d)
trap 'rm -rf "$work"' EXIT

# Instructions inside some functions, for so many rounds of a body.
count() {
    program=$work/$1/release/$2
    body=$3
    rounds=$4
    shift 4
    toggles=
    for function in "$@"; do toggles="$toggles --toggle-collect=$function"; done
    valgrind --tool=callgrind --callgrind-out-file=/dev/null $toggles "$program" "$body" "$rounds" 2>&1 > /dev/null |
        sed -n 's/.*Collected : //p'
}

# The difference between 257 rounds and one, for each of the 4,096 calls between.
each() {
    project=$1
    program=$2
    body=$3
    shift 3
    first=$(count "$project" "$program" "$body" 1 "$@")
    last=$(count "$project" "$program" "$body" 257 "$@")
    echo "$body $first $last" |
        awk -v project="$project" -v functions="$*" '{ printf "%-10s %-31s %7.2f  %s\n", project, $1, ($3 - $2) / 4096, functions }'
}

# What both have.
count_all() {
    each "$1" called "$2lsr" "called_$3read"
    each "$1" called "$2lsr-full" "called_$3read"
    each "$1" called "$2data-write" "called_$3write"
    each "$1" called "$2byte-in-and-read" "called_$3arrive" "called_$3read"
    each "$1" inlined "$2lsr" "inlined_$3lsr"
    each "$1" inlined "$2lsr-full" "inlined_$3lsr"
    each "$1" inlined "$2data-write" "inlined_$3data_write"
    each "$1" inlined "$2byte-in-and-read" "inlined_$3byte_in_and_read"
}

# What a guest with interrupts does, as Linux: for each of 16 characters, or of 16 writes.
count_interrupted() {
    each "$1" interrupted fifo-in interrupted_receive interrupted_read
    each "$1" interrupted fifo-out interrupted_write interrupted_read
    each "$1" interrupted data-write-enabled interrupted_write
    each "$1" interrupted isr interrupted_read
    each "$1" interrupted ier interrupted_write
    each "$1" interrupted mcr interrupted_write interrupted_read
}

cargo build --quiet --release --offline --manifest-path bench/chip/Cargo.toml --target-dir "$work/chip" ||
    fail "the programs of the chip cannot be built"
count_all chip "" ""
each chip called take-wire called_take_wire
each chip called take-wire-full called_take_wire
each chip called interrupt called_is_interrupting
each chip called interrupt-enabled called_is_interrupting
each chip inlined interrupt inlined_interrupt
count_all chip device- device_
each chip called device-byte-in-and-read-enabled called_device_arrive called_device_read
count_interrupted chip
"$work/chip/release/triggers"

[ -d /usr/share/cargo/registry/vm-superio-0.7.0 ] ||
    fail "there is no vm-superio 0.7.0: install Debian's package librust-vm-superio-dev"
# A copy, so that cargo leaves nothing in the checkout. It reads .cargo/config.toml in the folder where it is called.
cp -r bench/vm-superio "$work/project"
cp bench/linux.rs "$work"
(cd "$work/project" && cargo build --quiet --release --offline --target-dir "$work/vm-superio") ||
    fail "the programs of vm-superio cannot be built"
count_all vm-superio "" ""
count_interrupted vm-superio
each vm-superio called save called_save
each vm-superio called restore called_restore
each vm-superio inlined save inlined_save
each vm-superio inlined restore inlined_restore
"$work/vm-superio/release/triggers"
