"""Firmware is renewed by pyusb, as a driver does it by DFU 1.1: the application leaves for its loader, and the loader for another one."""
import usb.core
import usb.util

from loader import Loader
from tests.drivers.application import Application
from tirnouch import plug
from tirnouch.dfu import Status, chain

DETACH, DNLOAD, GETSTATUS, CLRSTATUS = 0, 1, 3, 4


def status(device: usb.core.Device) -> "tuple[int, int, int]":
    """bStatus, bwPollTimeout and bState (6.1.2)."""
    data = bytes(device.ctrl_transfer(0xA1, GETSTATUS, 0, 0, 6))
    return data[0], int.from_bytes(data[1:4], "little"), data[4]


def detach(device: usb.core.Device, interface: int) -> None:
    """It leaves at once."""
    try:
        device.ctrl_transfer(0x21, DETACH, 1000, interface)
    except usb.core.USBError as error:
        assert error.errno == 19, error
    else:
        raise AssertionError("it's still there")
    usb.util.dispose_resources(device)


def write(device: usb.core.Device, firmware: bytes) -> "tuple[int, int, int]":
    """A download, and its last status."""
    for block, at in enumerate(range(0, len(firmware), 1024)):
        assert device.ctrl_transfer(0x21, DNLOAD, block, 0, firmware[at : at + 1024]) == len(firmware[at : at + 1024])
        assert (status(device), status(device)) == ((0, 20, 4), (0, 0, 5))
    device.ctrl_transfer(0x21, DNLOAD, 9, 0, b"")
    assert status(device) == (0, 50, 7)
    return status(device)


loader = Loader()
with plug(*chain(Application(), loader, Application("0106"))) as bus:
    application = usb.core.find(idVendor=0x1209, idProduct=0x0105)
    assert usb.core.find(idProduct=0x0033) is None and usb.core.find(idProduct=0x0106) is None
    # 4.2: the run-time interface, and its functional descriptor, in which bit 3 of bmAttributes is bitWillDetach.
    own = usb.util.find_descriptor(application.get_active_configuration(), bInterfaceClass=0xFE, bInterfaceSubClass=1)
    assert (own.bInterfaceNumber, own.bInterfaceProtocol, bytes(own.extra_descriptors)[2] & 8) == (1, 1, 8)
    application.write(0x02, b"*IDN?\n")
    assert bytes(application.read(0x81, 64)) == b"ACME,PM-1,0,1.0\n"
    detach(application, own.bInterfaceNumber)
    device = usb.core.find(idProduct=0x0033)
    begin = bus.now()
    assert write(device, b"x" * 2000) == (Status.ERR_FIRMWARE, 0, 10)
    assert bus.now() >= begin + 2 * 20 + 50 and loader.firmware == b""
    device.ctrl_transfer(0x21, CLRSTATUS, 0, 0)
    sound = bytes(range(250)) * 5 + bytes((sum(range(250)) * 5 & 255,))
    assert write(device, sound) == (0, 0, 2) and loader.firmware == sound
    detach(device, 0)
    assert usb.core.find(idProduct=0x0105) is None and usb.core.find(idProduct=0x0106) is not None
print("done")
