"""Writes all blocks of a memory stick and reads them again; a command that it doesn't have; lengths that differ. Its file is the word."""
import itertools
import pathlib
import struct
import sys

import usb.core

BLOCKS, AT_ONCE = 2880, 64
path = pathlib.Path(sys.argv[1])
path.write_bytes(bytes(512 * BLOCKS))
device = usb.core.find(idVendor=0x1209, idProduct=0x0007)
tags = itertools.count(1)


def command(block, length=0, data=b""):
    """A command: what is read, its status and the residue."""
    tag = next(tags)
    wrapper = struct.pack("<4sIIBBB16s", b"USBC", tag, len(data) or length, 0 if data else 0x80, 0, len(block), block)
    assert device.write(0x02, wrapper) == 31
    got = b""
    try:
        if data:
            device.write(0x02, data)
        elif length:
            got = bytes(device.read(0x81, length))
    except usb.core.USBError as error:
        print("stalled", error.errno)
        device.clear_halt(0x02 if data else 0x81)
    try:
        status = bytes(device.read(0x81, 13))
    except usb.core.USBError as error:
        print("stalled", error.errno)
        device.clear_halt(0x81)
        status = bytes(device.read(0x81, 13))
    signature, found, residue, code = struct.unpack("<4sIIB", status)
    assert (signature, found) == (b"USBS", tag)
    return got, code, residue


def ten(code, at=0, count=0):
    """A command of 10 bytes."""
    return struct.pack(">BBIBHB", code, 0, at, 0, count, 0)


last, size = struct.unpack(">II", command(ten(0x25), 8)[0])
print("blocks", last + 1, "of", size)
image = b"".join(struct.pack(">I", at) * 128 for at in range(BLOCKS))
for at in range(0, BLOCKS, AT_ONCE):
    assert command(ten(0x2A, at, AT_ONCE), data=image[512 * at : 512 * (at + AT_ONCE)]) == (b"", 0, 0)
print("written", path.read_bytes() == image)
read = b"".join(command(ten(0x28, at, AT_ONCE), 512 * AT_ONCE)[0] for at in range(0, BLOCKS, AT_ONCE))
print("read", read == image)
print("unknown", *command(ten(0xFF), 8)[1:])
print("sense", command(bytes((3, 0, 0, 0, 18, 0)), 18)[0].hex())
print("behind the last", *command(ten(0x2A, BLOCKS, 1), data=bytes(512))[1:])
print("sense", command(bytes((3, 0, 0, 0, 18, 0)), 18)[0].hex())
print("longer", *command(ten(0x25), 512)[1:])
print("shorter", *command(ten(0x28, 0, 2), 512)[1:])
