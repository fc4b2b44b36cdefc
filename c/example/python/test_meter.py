import pytest, tirnouch as t, driver

class Meter(t.Device):
    ids, serial = (0x1209, 0x4d31), "PM-1"
    config = t.config(t.bulk_out(0x02, 64), t.bulk_in(0x81, 64), t.interrupt_in(0x83, 8))
    def out_02(self, packet):
        if sum(packet[:-1]) & 255 != packet[-1]: return t.STALL
        self.asked = packet; return t.ACK
    def in_81(self, room):
        if not self.asked: return t.NAK
        answer = bytes([0x10, *self.asked[1:3], 1]) + (230).to_bytes(4, "little"); self.asked = None
        return t.after(30, answer + bytes([sum(answer) & 255]))     # milliseconds of virtual time
    def control(self, setup, data): return b"PM-1" if setup.request == 1 else t.DEFAULT

@pytest.mark.parametrize("fault", [t.STALL, t.BROKEN, t.SILENT, t.UNPLUG])
@pytest.mark.tirnouch(Meter, seeds=range(1, 201), time="virtual", limit="10s")
def test_goes_on_behind_a_fault(bus, fault):
    m = driver.open(); bus[0].at(0x81, 1).fail(fault)
    assert m.read(3) == [230]
    with pytest.raises(driver.Error): m.read(4)
    bus[0].replug(); assert driver.open().read(3) == [230]
    assert bus.left() == []
