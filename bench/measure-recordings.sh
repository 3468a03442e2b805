#!/usr/bin/env bash
# Measures geesetrunk audit and replay on recordings of 100 MB: of reads that repeat, of single lines, of QEMU's log, and of KVM's events.
# Then counts the instructions that 3 MB of single lines take, which needs valgrind.
#
# The program is that which cargo builds, unless another one is named.
set -euo pipefail
if (($# > 0)); then
    program=$(realpath "$1")
else
    cd "$(dirname "$0")/.."
    cargo build --quiet --release -p geesetrunk
    program=$(realpath "${CARGO_TARGET_DIR:-target}/release/geesetrunk")
fi
folder=$(mktemp -d)
trap 'rm -rf "$folder"' EXIT

# Writes a recording of 100 MB that repeats these lines, behind a first line. The end of the pipe stops `yes`.
recording() {
    { echo 'r 5 60'; yes "$2" || true; } | head -c 100000000 | sed '$d' > "$folder/$1"
}

recording repeats-only 'x 9'
recording repeats-few $'r 5 60\nx 3'
recording repeats-many $'r 5 63\nr 0 41\nx 100000000\nr 2 c4\nx 99999999'
recording single-lines $'r 5 60\nw 0 41'
recording log-of-qemu $'serial_read read addr 0x05 val 0x60\nserial_write write addr 0x00 val 0x41'
event=' qemu-system-x86  1373 [001]  1045.095010:     kvm:kvm_pio: pio_'
recording events-of-kvm "${event}read at 0x3fd size 1 count 1 val 0x60"$'\n'"${event}write at 0x3f8 size 1 count 1 val 0x41"
sed -i 1d "$folder/events-of-kvm"
for judge in audit replay; do
    for name in repeats-only repeats-few repeats-many single-lines log-of-qemu events-of-kvm; do
        # What is found is thrown away, and so is the exit status, which says whether there is anything.
        /usr/bin/time -f "$judge of $name: %e s, %M kB" "$program" "$judge" "$folder/$name" > /dev/null || true
    done
done

head -c 3000000 "$folder/single-lines" | sed '$d' > "$folder/counted"
for judge in audit replay; do
    valgrind --tool=callgrind --callgrind-out-file=/dev/null "$program" "$judge" "$folder/counted" 2>&1 > /dev/null |
        awk -v judge="$judge" '/Collected/ { print judge " of 3 MB: " $NF " instructions" }' || true
done
