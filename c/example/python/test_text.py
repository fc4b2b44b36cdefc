"""Devices of texts, by pyusb."""
import errno
import pathlib

import pytest
import tirnouch as t
import usb.core
from meters import Meter

# Bulk endpoints 81 (IN) and 02 (OUT), packets of 64 bytes.
HEAD = """\
device 0 0902200001010080320904000002ff0000000705810240000007050202400000
ids 0 1209 0002
"""
EXAMPLES = pathlib.Path(__file__).resolve().parents[1] / "devices"
TEXT = t.text(HEAD + "script 0 02 a:10\nscript 0 81 d:2a00000000000000\nafter 0 81 0 02 1\n")


def ask(value=0x10):
    meter = usb.core.find(idVendor=0x1209, idProduct=0x0002)
    meter.write(0x02, bytes([value]))
    return meter.read(0x81, 8)[0]


@pytest.mark.tirnouch(Meter, TEXT, t.file(EXAMPLES / "serial.txt"))
def test_three_devices_of_two_kinds(bus):
    assert ask() == 42
    assert bus[1].took(0x02) == b"\x10"
    assert [it.device is None for it in bus] == [False, True, True]


@pytest.mark.tirnouch(TEXT.at(0x81, 0).fail(t.STALL))
def test_a_fault_of_a_text(bus):
    with pytest.raises(usb.core.USBError) as stalled:
        ask()
    assert stalled.value.errno == errno.EPIPE


@pytest.mark.tirnouch(t.text(HEAD + "script 0 02 a\n"), time="virtual")
def test_an_hour_passes_at_once(bus):
    meter = usb.core.find(idVendor=0x1209, idProduct=0x0002)
    with pytest.raises(usb.core.USBTimeoutError):
        meter.read(0x81, 8, 3_600_000)
    assert bus.now() == 3_600_000


@pytest.mark.tirnouch(t.text(HEAD + "script 0 02 n a\nscript 0 81 n d:0100000000000000\nafter 0 81 0 02 1\n"), seeds=range(1, 21))
def test_reads_in_any_order_of_steps(bus):
    assert ask() == 1


def test_there_is_no_meter(bus):
    assert usb.core.find(idVendor=0x1209, idProduct=0x0002) is None
