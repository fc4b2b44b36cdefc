#!/usr/bin/env python3
"""An echo: what is written at 02 is read at 81, packet by packet. Requests count the packets, and tell how many came. A device to begin
with."""
from tirnouch import Device, Request, bulk_in, bulk_out, control, main

READ_COUNT, CLEAR_COUNT = 1, 2


class Echo(Device):
    """Bulk endpoints 81 and 02, and two requests of its vendor's."""

    product = 0x0020
    strings = ("Works", "Echo", "E1")
    replies = bulk_in(0x81)

    def __init__(self) -> None:
        self.count = 0

    @bulk_out(0x02)
    def taken(self, packet: bytes) -> None:
        """A packet is sent back."""
        self.count += 1
        self.send(self.replies, packet)

    @control(0xC0, READ_COUNT)
    def read_count(self, _request: Request) -> bytes:
        """How many packets came, 4 bytes, the lowest first."""
        return self.count.to_bytes(4, "little")

    @control(0x40, CLEAR_COUNT)
    def clear_count(self, _request: Request) -> None:
        """They are counted from 0 again."""
        self.count = 0


if __name__ == "__main__":
    main(Echo)
