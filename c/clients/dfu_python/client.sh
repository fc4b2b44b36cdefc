#!/bin/sh
# Writes a firmware, reads it again and compares: client.sh DFU-UTIL WORK.
set -u
dfu=$1 work=$2
seq 1 2500 > "$work/firmware"
"$dfu" -d 1209:0006 -D "$work/firmware" | tr '\r' '\n'
"$dfu" -d 1209:0006 -U "$work/read" | tr '\r' '\n'
cmp "$work/firmware" "$work/memory" && cmp "$work/firmware" "$work/read" && echo "both are the firmware"
