#!/bin/sh
# A device that answers $1 where it is asked first, and a packet behind that, and so on.
count=0
while read -r kind first second; do
    case $kind in
    hello)
        echo "device $first 0902300002010080320904000002ff00000007058102080000070502020800000904010001ff0000000705830308000a"
        echo "ids $first 04a9 31c0"
        echo ok
        ;;
    in)
        count=$((count + 1))
        if [ $((count % 2)) = 1 ]; then echo "$1"; else echo d:2a; fi
        ;;
    control) echo t ;;
    esac
done
