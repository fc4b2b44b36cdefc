"""An instrument by pyusb, as a driver of USBTMC uses it: headers by USBTMC 1.0, 3.2, and 4.2.1.6 for INITIATE_CLEAR."""
import struct

import usb.core
import usb.util

from tirnouch import plug
from tirnouch.usbtmc import Usbtmc


class Meter(Usbtmc):
    """It answers one question, and a long one."""

    product, speed = 0x0103, "full"
    answers = {"*IDN?": "ACME,PM-2,0,1.0", "LONG?": "0123456789" * 20}


with plug(Meter()):
    meter = usb.core.find(idVendor=0x1209, idProduct=0x0103)

    def tell(tag: int, text: bytes) -> None:
        """DEV_DEP_MSG_OUT with EOM, filled up to a multiple of 4 bytes."""
        data = struct.pack("<BBBxIB3x", 1, tag, tag ^ 0xFF, len(text), 1) + text
        assert meter.write(0x02, data.ljust(-(-len(data) // 4) * 4, b"\0")) == -(-len(data) // 4) * 4

    def fetch(tag: int, size: int) -> "tuple[bytes, int]":
        """REQUEST_DEV_DEP_MSG_IN, and what comes: its data and EOM."""
        assert meter.write(0x02, struct.pack("<BBBxIB3x", 2, tag, tag ^ 0xFF, size, 0)) == 12
        data = bytes(meter.read(0x81, 512))
        kind, got, inverse, length, attributes = struct.unpack_from("<BBBxIB", data)
        assert (kind, got, inverse) == (2, tag, tag ^ 0xFF) and len(data) == -(-(12 + length) // 4) * 4
        return data[12 : 12 + length], attributes & 1

    tell(1, b"*IDN?\n")
    assert fetch(2, 256) == (b"ACME,PM-2,0,1.0\n", 1)
    tell(3, b"LONG?")
    assert fetch(4, 150) == (b"0123456789" * 15, 0)
    assert fetch(5, 150) == (b"0123456789" * 5 + b"\n", 1)
    # A clear forgets the answer, and halts 02 until that is cleared.
    tell(6, b"*IDN?")
    assert bytes(meter.ctrl_transfer(0xA1, 5, 0, 0, 1)) == b"\1" and bytes(meter.ctrl_transfer(0xA1, 6, 0, 0, 2)) == b"\1\0"
    try:
        tell(7, b"*IDN?")
        raise AssertionError("02 isn't halted")
    except usb.core.USBError as error:
        assert error.errno == 32
    meter.clear_halt(0x02)
    tell(8, b"*IDN?")
    assert fetch(9, 256) == (b"ACME,PM-2,0,1.0\n", 1)
    # Where it is cleared at once, no packet stalls.
    assert bytes(meter.ctrl_transfer(0xA1, 5, 0, 0, 1)) == b"\1"
    meter.clear_halt(0x02)
    tell(10, b"*IDN?")
    assert fetch(11, 256) == (b"ACME,PM-2,0,1.0\n", 1)
    usb.util.dispose_resources(meter)
print("done")
