#!/bin/sh
# client.sh PROGRAM WORD..: runs python-libusb1's tests, and prints the same of each version: an older one says of some that they are running,
# and done.
set -u
exec 3>&1
status=$({ { "$@" 4>&-; echo $? >&4; } | sed -u -e '/^running$/d' -e '/^done$/d' >&3; } 4>&1)
exit "$status"
