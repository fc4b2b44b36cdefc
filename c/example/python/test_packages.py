"""usb1 (python-libusb1) and hid (cython-hidapi). What comes of a cancel is by libusb's manual, `libusb_cancel_transfer`: NOT_FOUND where the
transfer is complete already; what hid returns is by hidapi.h, and a report has the modifiers, a zero, and the keys that are down, 4 for "a"
(HID 1.11, B.1; HID Usage Tables, 10)."""
import contextlib
import pathlib

import pytest
import tirnouch as t

EXAMPLES = pathlib.Path(__file__).resolve().parents[1] / "devices"
METER = t.text("device 0 0902200001010080320904000002ff0000000705810240000007050202400000\nids 0 1209 0002\nscript 0 81 d:2a\n")


@pytest.mark.tirnouch(METER, seeds=range(0, 21))
def test_a_cancelled_read_ends_once(bus):
    usb1 = pytest.importorskip("usb1")
    ended = []
    with usb1.USBContext() as context:
        meter = context.openByVendorIDAndProductID(0x1209, 0x0002)
        with meter.claimInterface(0):
            read = meter.getTransfer()
            read.setBulk(0x81, 8, lambda it: ended.append((it.getStatus(), it.getActualLength())))
            read.submit()
            with contextlib.suppress(usb1.USBErrorNotFound):
                read.cancel()
            while read.isSubmitted():
                context.handleEvents()
        meter.close()
    assert ended in ([(usb1.TRANSFER_CANCELLED, 0)], [(usb1.TRANSFER_COMPLETED, 1)])


@pytest.mark.parametrize("turn", range(2))
@pytest.mark.tirnouch(t.file(EXAMPLES / "keyboard.txt"))
def test_a_key_goes_down_and_up(bus, turn):
    hid = pytest.importorskip("hid")
    keyboard = hid.device()
    keyboard.open(0x1209, 0x0005)
    assert keyboard.get_product_string() == "Keyboard"
    assert keyboard.read(8, 1000) == [0, 0, 4, 0, 0, 0, 0, 0]
    assert keyboard.read(8, 1000) == [0] * 8
    keyboard.close()
