"""Requests and reports of HID devices by pyusb: each by its section of HID 1.11."""
import usb.core

from tirnouch import interrupt_in, interrupt_out, plug
from tirnouch.hid import Hid, keyboard, vendor


class Keys(Hid):
    """A boot keyboard, whose lights come by SET_REPORT."""

    product, speed = 0x0101, "low"
    report_descriptor, boot = keyboard(), "keyboard"
    reports = interrupt_in(0x81, 8)
    lights = 0

    def on_output(self, _report_id: int, data: bytes) -> None:
        """A key is pressed where the lights change."""
        self.lights = data[0]
        self.report(bytes((0, 0, 4 + self.lights, 0, 0, 0, 0, 0)))


class Pairs(Hid):
    """Reports with ids, and longer than a packet, at two endpoints."""

    product = 0x0102
    report_descriptor = vendor(input=100, output=100, report_id=1) + vendor(feature=4, report_id=2)
    outputs = interrupt_out(0x02)

    def on_output(self, report_id: int, data: bytes) -> None:
        """It comes back turned round."""
        self.report(data[::-1], report_id)


with plug(Keys(), Pairs()):
    keys, pairs = (usb.core.find(idVendor=0x1209, idProduct=product) for product in (0x0101, 0x0102))
    # 7.1.1: the descriptors; 6.2.1: the report descriptor's length stands at 7 of the HID descriptor.
    own = bytes(keys.ctrl_transfer(0x81, 6, 0x2100, 0, 9))
    assert own == bytes(keys.get_active_configuration()[0, 0].extra_descriptors), own
    assert bytes(keys.ctrl_transfer(0x81, 6, 0x2200, 0, 255)) == keyboard() and own[7] == len(keyboard())
    # 7.2.2: an output report by SET_REPORT; what comes of it at the interrupt endpoint.
    assert keys.ctrl_transfer(0x21, 9, 0x0200, 0, b"\x02") == 1
    assert bytes(keys.read(0x81, 8)) == bytes((0, 0, 6, 0, 0, 0, 0, 0))
    assert bytes(keys.ctrl_transfer(0xA1, 1, 0x0100, 0, 8)) == bytes((0, 0, 6, 0, 0, 0, 0, 0))
    try:
        keys.ctrl_transfer(0x21, 9, 0x0200, 0, b"\x02\x02")
    except usb.core.USBError as error:
        assert error.errno == 32
    else:
        raise AssertionError("a report of two bytes was taken")
    assert pairs.write(0x02, b"\x01" + bytes(range(100))) == 101
    assert bytes(pairs.read(0x81, 101)) == b"\x01" + bytes(range(99, -1, -1))
    usb.util.dispose_resources(keys)
    usb.util.dispose_resources(pairs)
print("done")
