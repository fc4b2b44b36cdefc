"""A recording that judges: meter.pcap was recorded of a driver that writes 10 and reads 2a (docs/CAPTURES.md)."""
import pathlib

import pytest
import tirnouch as t
import usb.core
from tirnouch.sources import USBTRACE, place_of

CAPTURE = pathlib.Path(__file__).with_name("meter.pcap")
if not place_of(USBTRACE):
    pytest.skip("there is no bin/usbtrace: build it by `make run`", allow_module_level=True)


@pytest.mark.tirnouch(t.recorded(CAPTURE, device="1209:0002"), limit="10s")
def test_writes_what_was_recorded(bus):
    meter = usb.core.find(idVendor=0x1209, idProduct=0x0002)
    meter.write(0x02, b"\x10")
    assert bytes(meter.read(0x81, 64)) == b"\x2a"
