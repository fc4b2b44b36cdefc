"""A serial port by pyusb, as a driver of CDC ACM uses it: requests by PSTN 1.2, 6.3, a notification by 6.5.4."""
import struct

import usb.core
import usb.util

from modem import Modem
from tirnouch import plug

with plug(Modem()):
    port = usb.core.find(idVendor=0x1209, idProduct=0x0032)
    control, data = (usb.util.find_descriptor(port.get_active_configuration(), bInterfaceClass=it) for it in (0x02, 0x0A))
    # CDC 1.2, 5.2.3.2: the union names the control interface, and the interface of its data.
    assert bytes(control.extra_descriptors)[-5:] == bytes((5, 0x24, 6, control.bInterfaceNumber, data.bInterfaceNumber))
    assert port.ctrl_transfer(0x21, 0x20, 0, 0, struct.pack("<IBBB", 115200, 0, 2, 7)) == 7
    assert bytes(port.ctrl_transfer(0xA1, 0x21, 0, 0, 7)) == struct.pack("<IBBB", 115200, 0, 2, 7)
    assert port.ctrl_transfer(0x21, 0x22, 3, 0) == 0
    assert bytes(port.read(0x83, 16)) == bytes((0xA1, 0x20, 0, 0, 0, 0, 2, 0, 3, 0))
    assert port.write(0x02, b"AT") == 2
    try:
        raise AssertionError(port.read(0x81, 64, 100))
    except usb.core.USBTimeoutError:
        pass
    assert port.write(0x02, b"\r\nhello\n") == 8
    assert bytes(port.read(0x81, 64)) + bytes(port.read(0x81, 64)) == b"OK\r\nERROR\r\n"
    usb.util.dispose_resources(port)
print("done")
