#!/bin/sh
# Makes a stick's file with a file system and a file, runs a guest that mounts it, and lists what the guest left there: client.sh MFORMAT
# MCOPY MTYPE WORK COMMAND .., where COMMAND is QEMU's.
set -u
mformat=$1 mcopy=$2 mtype=$3 work=$4
shift 4
head -c 1474560 /dev/zero > "$work/disk.img"
"$mformat" -i "$work/disk.img" -f 1440 :: || exit 1
echo "a file of the host's" > "$work/hello.txt"
"$mcopy" -i "$work/disk.img" "$work/hello.txt" ::HELLO.TXT || exit 1
"$@"
"$mtype" -i "$work/disk.img" ::NUMBERS.TXT | md5sum
