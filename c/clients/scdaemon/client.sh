#!/bin/sh
# Asks scdaemon, and by it a card: client.sh SCDAEMON WORK. Behind the words of the protocol, `D` has data, with %0A for a line feed and %25
# for a percent sign: it is printed as hexadecimal digits where it is a card's.
set -u
scdaemon=$1 work=$2
mkdir -m 700 "$work/home"
asked='GETINFO reader_list
SERIALNO undefined
APDU --dump-atr
APDU 00A4040009F07469726E6F756368
APDU 00B0000000
APDU 0020000106303030303030
APDU 0020000106313233343536
APDU 0088000008414243444546474820
APDU 00FF0000
BYE'
echo "$asked" | "$scdaemon" --server --homedir "$work/home" > "$work/told"
python3 - "$work/told" <<'END'
import re, sys
for line in open(sys.argv[1], "rb").read().split(b"\n")[:-1]:
    data = re.sub(rb"%([0-9A-F]{2})", lambda it: bytes([int(it.group(1), 16)]), line[2:]) if line[:2] == b"D " else None
    if data is None or data[:-1].isascii() and data.endswith((b"\n", b":0")):
        print((data or line).decode().rstrip("\n"))
    else:
        print(data[:-2].hex(), "status", data[-2:].hex())
END
