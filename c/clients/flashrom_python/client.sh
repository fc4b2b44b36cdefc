#!/bin/sh
# Writes 64 KiB of a chip of 1 MiB, twice, so that they are erased between, and compares the chip: client.sh FLASHROM LAYOUT WORK. Each
# time has a trace of its own.
set -u
flashrom=$1 layout=$2 work=$3
# erased COUNT: so many bytes FF
erased() { head -c "$1" /dev/zero | tr '\0' '\377'; }
for begin in 1 50001; do
    export TIRNOUCH_TRACE="$work/trace.$begin"
    { seq $begin 99999 | head -c 65536; erased 983040; } > "$work/image"
    "$flashrom" -p ch341a_spi -c W25Q80.V -l "$layout" -i piece -N -w "$work/image" | grep -E '^(Using region|Found|Reading|Erasing|Verifying)'
    cmp "$work/image" "$work/chip" && echo "the chip is as it was to be"
done
