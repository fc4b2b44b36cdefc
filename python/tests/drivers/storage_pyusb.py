"""A memory stick by pyusb, as a driver of bulk-only transport uses it (BOT 1.0, 5 and 6.7), and sense by SPC-4, 4.5."""
import struct
from typing import Tuple

import usb.core
import usb.util

from tirnouch import plug
from worn import Worn


def command(block: bytes, length: int = 0, data: bytes = b"") -> Tuple[bytes, int, int]:
    """A command: what is read, its status and the residue. A stall is cleared (figures 1 and 2)."""
    inward = 0 if data else 0x80
    stick.write(0x02, struct.pack("<4sIIBBB16s", b"USBC", 7, len(data) or length, inward, 0, len(block), block))
    got = b""
    try:
        if data:
            stick.write(0x02, data)
        elif length:
            got = bytes(stick.read(0x81, length))
    except usb.core.USBError as error:
        assert error.errno == 32
        stick.clear_halt(0x02 if data else 0x81)
    signature, tag, residue, status = struct.unpack("<4sIIB", bytes(stick.read(0x81, 13)))
    assert (signature, tag) == (b"USBS", 7)
    return got, status, residue


def ten(code: int, at: int, count: int) -> bytes:
    """A command of 10 bytes."""
    return struct.pack(">BBIBHB", code, 0, at, 0, count, 0)


def sense() -> "tuple[int, int]":
    """The key, and the code."""
    data, status, _ = command(bytes((3, 0, 0, 0, 18, 0)), 18)
    assert status == 0
    return data[2], data[12]


device = Worn()
with plug(device):
    stick = usb.core.find(idVendor=0x1209, idProduct=0x0035)
    assert command(ten(0x25, 0, 0), 8) == (struct.pack(">II", 63, 512), 0, 0)
    assert command(ten(0x2A, 3, 2), data=b"new" * 341 + b"!") == (b"", 0, 0)
    assert command(ten(0x28, 3, 2), 1024) == (b"new" * 341 + b"!", 0, 0)
    assert command(ten(0x28, 6, 2), 1024) == (b"", 1, 1024) and sense() == (3, 0x11)
    assert command(ten(0x2A, 9, 1), data=bytes(512)) == (b"", 1, 0) and sense() == (3, 0x0C)
    device.eject()
    assert command(bytes(6)) == (b"", 1, 0) and sense() == (2, 0x3A)
    device.insert(b"\xee" * 1024)
    assert command(bytes(6)) == (b"", 1, 0) and sense() == (6, 0x28)
    assert command(ten(0x28, 1, 1), 512) == (b"\xee" * 512, 0, 0)
    usb.util.dispose_resources(stick)
print("done")
