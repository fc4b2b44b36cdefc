"""The meter of test_meter.py, for the other tests."""
import tirnouch as t


class Meter(t.Device):
    ids, serial = (0x1209, 0x4D31), "PM-1"
    config = t.config(t.bulk_out(0x02, 64), t.bulk_in(0x81, 64))
    asked = None

    def out_02(self, packet):
        self.asked = packet
        return t.ACK

    def in_81(self, room):
        if self.asked is None:
            return t.NAK
        answer, self.asked = bytes([0x10, *self.asked[1:3], 1]) + (230).to_bytes(4, "little"), None
        return answer + bytes([sum(answer) & 255])
