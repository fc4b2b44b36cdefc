#!/bin/sh
# build.sh FOLDER OUT WORD..: builds libgusb and its self-test from their sources in FOLDER as the program OUT; WORDs are the compiler's.
set -eu
folder=$1 out=$2
shift 2
set -- "$@" -o "$out"
for source in "$folder"/*.c; do
    case $source in
    *-umockdev-test.c) ;;
    *) set -- "$source" "$@" ;;
    esac
done
exec gcc -w -O1 "$@"
