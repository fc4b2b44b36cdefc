"""Programs of other processes, unchanged, over devices of the test's."""
import shutil

import pytest
import tirnouch as t


class Meter(t.Device):
    ids = (0x1209, 0x4D31)
    manufacturer, product_name, serial = "Works", "Meter", "PM-1"
    config = t.config(t.interface(t.bulk_out(0x02), t.bulk_in(0x81), class_=0xFF, name="values"),
                      t.interface(t.interrupt_in(0x83, 8), class_=3, functional=bytes.fromhex("092111010001221500")), milliamperes=200)


@pytest.mark.skipif(not shutil.which("lsusb"), reason="there is no lsusb (apt-get install usbutils)")
def test_lsusb_shows_the_meter():
    ran = t.run(["lsusb", "-v", "-d", "1209:4d31"], devices=[Meter()], limit="20s")
    assert (ran.status, ran.report) == (0, [])
    for line in ("idProduct          0x4d31", "MaxPower              200mA", "iInterface              4 values"):
        assert line in ran.output


def test_without_the_fixture():
    with t.bus(Meter(), seed=3, time="virtual", limit="10s") as bus:
        assert len(bus) == 1
        bus.advance(1000)
        assert bus.now() == 1000
