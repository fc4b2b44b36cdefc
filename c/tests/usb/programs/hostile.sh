#!/bin/sh
# A device that does one thing wrong, which its word names: behind the second packet that is read from it, or as it begins.
wrong=$1 asked=0
while read -r kind first; do
    case $kind in
    hello)
        case $wrong in
        'ends at once') exit 3 ;;
        "another's line") printf 'ids 3 1209 0001\n' ;;
        'starts another') printf 'program %s true\n' "$first" ;;
        'bad line') printf 'device %s 00\n' "$first" ;;
        'never ok') sleep 20 ;;
        'never at an end') while echo '# still starting'; do sleep 0.02; done ;;
        esac
        case $wrong in
        unasked) printf 'ok\nd:99\n' ;;
        flood) printf 'ok\nd:99\n' && yes d:99 2>/dev/null ;;
        *) echo ok ;;
        esac
        ;;
    in)
        asked=$((asked + 1))
        if [ $asked -ne 2 ]; then
            echo "d:0$asked"
            continue
        fi
        case $wrong in
        nonsense) echo 'huh?' ;;
        'digits of another case') echo d:AA ;;
        'too much') printf 'd:%04100d\n' 0 ;;
        'a zero') printf 'd:02\000\n' ;;
        'half a line') printf 'd:0' && sleep 20 ;;
        'long line') printf 'd:%020000d\n' 0 ;;
        silent) sleep 20 ;;
        'ends amid') printf 'd:0' && exit 0 ;;
        ends) exit 0 ;;
        forks) sleep 20 & exit 0 ;;
        esac
        ;;
    control) echo t ;;
    esac
done
