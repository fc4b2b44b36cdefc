"""Faults of a device, by pyusb. What pyusb raises is by its usb/core.py and usb/backend/libusb1.py."""
import errno

import driver
import pytest
import tirnouch as t
import usb.core
from meters import Meter


@pytest.mark.tirnouch(Meter, time="virtual")
def test_a_fault_has_its_place(bus):
    meter = driver.open()
    bus[0].at(0x81, 0).delay(900)                       # the first packet that is read, in virtual time
    bus[0].at(0x02, 1).fail(t.BROKEN)                   # the second that is written
    bus[0].at_control(0xC0, 1, n=0).fail(t.STALL)       # the first request of vendor and device, number 1
    assert meter.read(3) == [230]
    assert bus.now() == 900
    with pytest.raises(driver.Error):
        meter.read(3)
    with pytest.raises(usb.core.USBError) as refused:
        meter.device.ctrl_transfer(0xC0, 1, 0, 0, 4)
    assert refused.value.errno == errno.EPIPE


@pytest.mark.tirnouch(Meter, seeds=range(1, 21), time="virtual")
def test_what_is_written_fails_by_dice(bus):
    meter, values, errors = driver.open(), [], 0
    bus[0].rate(0x02, 0.2).fail(t.BROKEN)               # one packet in five, by the dice of the seed
    while len(values) < 10:
        try:
            values += meter.read(3)
        except driver.Error:
            errors += 1
    assert values == [230] * 10 and errors < 30


@pytest.mark.tirnouch(Meter)
def test_comes_and_goes(bus):
    bus[0].unplug()
    with pytest.raises(driver.Error, match="there is no meter"):
        driver.open()
    bus[0].plug()
    assert driver.open().read(3) == [230]


class Loader(t.Device):
    ids = (0x1209, 0x0008)
    config = t.config(t.bulk_out(0x02))

    def out_02(self, packet):
        return t.GONE if packet == b"start" else t.ACK


@pytest.mark.tirnouch(t.becomes(Loader, Meter))
def test_a_loader_comes_back_as_a_meter(bus):
    loader = usb.core.find(idVendor=0x1209, idProduct=0x0008)
    loader.write(0x02, b"firmware")
    with pytest.raises(usb.core.USBError):
        loader.write(0x02, b"start")
    assert driver.open().read(3) == [230]
