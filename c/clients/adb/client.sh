#!/bin/sh
# Starts a server of adb, which asks libusb for devices, waits for one, and asks it something: client.sh ADB WORK. Its socket and its key
# are files in the folder WORK; no port is used.
set -u
adb=$1 work=$2
export ADB_LIBUSB=1 HOME="$work" ADB_LOCAL_TRANSPORT_MAX_PORT=0
"$adb" -L "localfilesystem:$work/socket" nodaemon server > "$work/log" 2>&1 &
server=$!
trap 'kill $server 2>/dev/null' EXIT
count=0
until [ -e "$work/socket" ]; do
    count=$((count + 1))
    [ $count -le 200 ] || { echo "client.sh: the server of adb doesn't start" >&2; cat "$work/log" >&2; exit 1; }
    sleep 0.05
done
"$adb" -L "localfilesystem:$work/socket" wait-for-usb-device
"$adb" -L "localfilesystem:$work/socket" devices -l
"$adb" -L "localfilesystem:$work/socket" shell getprop ro.product.model < /dev/null
"$adb" -L "localfilesystem:$work/socket" kill-server
wait $server
