"""A test of the meter of devices.txt by pyusb: tools/tirnouch-run c/example/devices.txt -- python3 -m pytest c/example/test_meter.py"""
import usb.core


def test_reading() -> None:
    meter = usb.core.find(idVendor=0x1209, idProduct=0x0002)
    meter.write(0x02, [0x10])
    assert meter.read(0x81, 8)[0] == 42
