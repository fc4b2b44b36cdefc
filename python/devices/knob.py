#!/usr/bin/env python3
"""A knob with a light (HID): it tells where it stands, and what the light is, when the light is set. It keeps a setting of 4 bytes."""
import tirnouch as t


class Knob(t.Hid):
    ids = (0x1209, 0x0031)
    manufacturer, product_name = "Works", "Knob"
    report_descriptor = t.hid.vendor(input=2, output=1, feature=4)
    place = -1

    def on_output(self, report_id: int, data: bytes) -> None:
        self.place += 1
        self.report(bytes((self.place, data[0])))


if __name__ == "__main__":
    t.main(Knob)
