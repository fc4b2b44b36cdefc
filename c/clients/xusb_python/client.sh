#!/bin/sh
# Makes a stick's file of 2,048 blocks, and lets xusb ask the stick: client.sh WORK. xusb takes no path that begins with a slash.
set -u
cd "$1" || exit 1
{ yes 'A sector of 512 bytes.' | tr '\n' ' ' | head -c 510; printf '\125\252'; head -c 1048064 /dev/zero; } > disk.img
./xusb -i -b sector 1209:0007 && cmp -n 512 sector disk.img && echo "the block is the file's"
