#!/usr/bin/env python3
"""A modem (CDC ACM): it answers each line, and tells that there is a carrier when the host is ready."""
import tirnouch as t


class Modem(t.Serial):
    ids = (0x1209, 0x0032)
    manufacturer, product_name = "Works", "Modem"

    def line(self, text: str) -> str:
        return "OK" if text.startswith("AT") else "ERROR"

    def on_signals(self, dtr: bool, rts: bool) -> None:
        self.notify(carrier=dtr, ready=dtr)


if __name__ == "__main__":
    t.main(Modem)
