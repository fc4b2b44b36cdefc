"""The devices of c/example/devices by pyusb. What they are sent and what comes is by CDC's PSTN 1.20 and by Bulk-Only Transport 1.0."""
import pathlib
import struct

import pytest
import tirnouch as t
import usb.core

EXAMPLES = pathlib.Path(__file__).resolve().parents[1] / "devices"


@pytest.mark.tirnouch(t.file(EXAMPLES / "serial.txt"))
def test_a_serial_port_says_ok(bus):
    port = usb.core.find(idVendor=0x1209, idProduct=0x0006)
    coding = struct.pack("<IBBB", 9600, 0, 0, 8)
    assert port.ctrl_transfer(0x21, 0x20, 0, 0, coding) == len(coding)
    assert bytes(port.ctrl_transfer(0xA1, 0x21, 0, 0, len(coding))) == coding
    port.write(0x02, b"AT\r")
    assert bytes(port.read(0x81, 64)) == b"\r\nOK\r\n"
    assert bus.took(0x02) == b"AT\r"


@pytest.mark.tirnouch(t.file(EXAMPLES / "disk.txt"))
def test_a_disk_tells_its_name(bus):
    disk = usb.core.find(idVendor=0x1209, idProduct=0x0007)
    assert bytes(disk.ctrl_transfer(0xA1, 0xFE, 0, 0, 1)) == b"\0"
    inquiry = bytes([0x12, 0, 0, 0, 36, 0])
    disk.write(0x02, struct.pack("<4sIIBBB16s", b"USBC", 1, 36, 0x80, 0, len(inquiry), inquiry))
    assert bytes(disk.read(0x81, 36))[8:32] == b"Works   Scripted Stick  "
    assert struct.unpack("<4sIIB", disk.read(0x81, 13)) == (b"USBS", 1, 0, 0)
