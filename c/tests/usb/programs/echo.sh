#!/bin/sh
# A device in shell: what is sent to it is read from it, packet by packet. Vendor request 1 reads how many packets it took, 2 what it was told.
kept='' told='' count=0
while read -r kind first second; do
    case $kind in
    hello)
        echo "device $first 0902300002010080320904000002ff00000007058102080000070502020800000904010001ff0000000705830308000a"
        echo "ids $first 04a9 31c0"
        echo ok
        ;;
    out) kept="$kept $second" count=$((count + 1)) && echo a ;;
    in)
        # shellcheck disable=SC2086
        set -- $kept
        if [ $# -gt 0 ]; then echo "d:$1" && shift && kept=$*; else echo n; fi
        ;;
    control)
        case $first in
        c001*) printf 'd:%02x\n' $count ;;
        c002*) printf 'd:%s\n' "$(printf %s "$told" | od -An -tx1 | tr -d ' \n')" ;;
        c003*) echo gone ;;
        c004*) echo later 300 ;;
        *) echo t ;;
        esac
        ;;
    *) told="$told$kind${first:+ }$first;" ;;
    esac
done
