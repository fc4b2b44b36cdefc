"""A class whose methods are marked by decorators."""
import pytest
import tirnouch as t
import usb.core


class Echo(t.Device):
    ids = (0x1209, 0x0020)
    replies = t.bulk_in(0x81)
    count = 0

    @t.bulk_out(0x02)
    def taken(self, packet):
        self.count += 1
        self.send(self.replies, packet[::-1])

    @t.control(0xC0, 1)
    def read_count(self, request):
        return bytes([self.count])


@pytest.mark.tirnouch(Echo)
def test_what_is_sent_comes_back(bus):
    echo = usb.core.find(idVendor=0x1209, idProduct=0x0020)
    echo.write(0x02, b"abc")
    assert bytes(echo.read(0x81, 64)) == b"cba"
    assert bytes(echo.ctrl_transfer(0xC0, 1, 0, 0, 1)) == b"\x01"
    assert bus[0].device.count == 1
