#!/bin/sh
# A counter: each packet that is written to 02 is counted, and the count is read from 81. Vendor request c0 01 sets it back.
count=0
while read -r kind first second; do
    case $kind in
    hello)
        echo "device $first 0902200001010080320904000002ff0000000705810240000007050202400000"
        echo "ids $first 1209 000a"
        echo ok
        ;;
    out) count=$((count + 1)) && echo a ;;
    in) printf 'd:%02x\n' $((count % 256)) ;;
    control) case $first in c001*) count=0 && echo d: ;; *) echo t ;; esac ;;
    esac
done
