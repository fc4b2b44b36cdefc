"""Tests of the plugin, by pytest's own pytester: each runs pytest over files of its own, in this process."""
from typing import Any, Callable, List

import pytest

# A meter, and a driver for it by pyusb: it asks with one byte, and is answered by its double.
FILES = {"driver": """
    import usb.core
    import usb.util

    class Error(Exception):
        pass

    def ask(value, milliseconds=1000):
        meter = usb.core.find(idVendor=0x1209, idProduct=0x4d31)
        if meter is None:
            raise Error("there is no meter")
        try:
            meter.write(0x02, bytes([value]), milliseconds)
            return meter.read(0x81, 64, milliseconds)[0]
        except usb.core.USBError as error:
            raise Error(str(error)) from error
        finally:
            usb.util.dispose_resources(meter)
    """, "meter": """
    import tirnouch as t

    class Meter(t.Device):
        ids = (0x1209, 0x4d31)
        config = t.config(t.bulk_out(0x02, 64), t.bulk_in(0x81, 64))
        asked = None

        def out_02(self, packet):
            self.asked = packet
            return t.ACK

        def in_81(self, room):
            if self.asked is None:
                return t.NAK
            answer, self.asked = bytes([2 * self.asked[0]]), None
            return answer
    """}
TEXT = """\
device 0 0902200001010080320904000002ff0000000705810240000007050202400000
ids 0 1209 4d31
script 0 02 a:15
script 0 81 d:2a
after 0 81 0 02 1
"""
KEYBOARD = """\
device 0 090222000101008032090400000103010100092111010001222d000705810308000a
ids 0 1209 0005
"""


@pytest.fixture
def run(pytester: Any) -> Callable[..., Any]:
    """Runs pytest over a test file, with these words, in a folder with driver.py, meter.py, it.txt and keyboard.txt."""
    pytester.makepyfile(**FILES)
    pytester.path.joinpath("it.txt").write_text(TEXT)
    pytester.path.joinpath("keyboard.txt").write_text(KEYBOARD)

    def call(source: str, *words: str) -> Any:
        header = "import time, pytest, tirnouch as t, driver\nfrom meter import Meter\n"
        pytester.path.joinpath("test_it.py").write_text(header + "\n".join(dedented(source)) + "\n")
        return pytester.runpytest_inprocess("-p", "tirnouch.plugin", "-p", "no:cacheprovider", *words)

    return call


def dedented(source: str) -> List[str]:
    """The lines of a source, without what they all are indented by."""
    lines = source.strip("\n").split("\n")
    margin = min(len(it) - len(it.lstrip()) for it in lines if it.strip())
    return [it[margin:] for it in lines]
