#!/bin/sh
# Lists the printers that CUPS' backend for USB finds, and prints a file on the first one: client.sh BACKEND FILE WORK. The backend is
# copied into the folder WORK, as Debian lets root alone run it. Each run of it has a trace of its own, where TIRNOUCH_TRACE asks for one.
set -eu
file=$2 work=$3
backend=$work/usb
cp "$1" "$backend"
chmod 755 "$backend"
"$backend"
if [ -n "${TIRNOUCH_TRACE:-}" ]; then
    export TIRNOUCH_TRACE="$TIRNOUCH_TRACE.2"
fi
DEVICE_URI='usb://Works/Printer%201?serial=P1' exec "$backend" 1 user title 1 '' "$file"
