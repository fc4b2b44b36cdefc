#!/bin/sh
# client.sh PROGRAM WORD..: runs libgusb's self-test, and prints the same of each GLib: a newer one names TAP's version first, and writes "# "
# before what the test prints, which an older one writes before its own remarks alone.
set -u
status=0
exec 3>&1
status=$({ { "$@" 4>&-; echo $? >&4; } | sed -u -e '/^TAP version [0-9]*$/d' -e 's/^# \{0,1\}//' >&3; } 4>&1)
exit "$status"
