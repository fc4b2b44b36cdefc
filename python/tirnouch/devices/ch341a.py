"""A CH341A that makes SPI of what is written, with a serial flash behind it (w25q80.py): for flashrom's programmer ch341a_spi.

    ch341a.py FILE    the file of the chip's 1 MiB, which is made where it isn't there

WCH has no public document of its streams; what stands here is what flashrom's ch341a_spi.c and the Linux driver i2c-ch341 send."""
from __future__ import annotations

from typing import Optional

from tirnouch import STALL, Answer, Device, bulk_in, bulk_out, interrupt_in, main
from tirnouch.devices.w25q80 import W25Q80

PACKET = 32
# The first byte of a packet: bytes for SPI; steps of the pins; bytes for I2C, which set the speed too.
SPI_STREAM, PIN_STREAM, I2C_STREAM = 0xA8, 0xAB, 0xAA
# The two highest bits of a step of the pins: their levels are set. The stream ends with END. Pin 0 selects the chip when it is low.
STEP, OUTPUT, END, SELECT = 0xC0, 0x80, 0x20, 0x01
# SPI has the highest bit first, a CH341A the lowest.
REVERSED = bytes(int(f"{it:08b}"[::-1], 2) for it in range(256))


class Ch341a(Device):
    """The programmer in its mode for SPI and I2C."""

    vendor, product, release = 0x1A86, 0x5512, 0x0304
    interfaces = ((0xFF, 1, 2),)
    strings = ("", "USB UART-LPT")
    speed = "full"
    replies = bulk_in(0x82, PACKET)
    interrupts = interrupt_in(0x81, 8, 1)

    def __init__(self, path: str) -> None:
        self.chip = W25Q80(path)

    @bulk_out(0x02, PACKET)
    def command(self, packet: bytes) -> Optional[Answer]:
        """A packet of a stream: of SPI as many bytes come back as were sent."""
        kind, rest = packet[:1], packet[1:]
        if kind == bytes((SPI_STREAM,)):
            self.send(self.replies, self.chip.exchange(rest.translate(REVERSED)).translate(REVERSED))
        elif kind == bytes((PIN_STREAM,)):
            self.steps(rest)
        elif kind != bytes((I2C_STREAM,)):
            return STALL
        return None

    def steps(self, steps: bytes) -> None:
        """The pins' steps: the chip is deselected where its pin goes high."""
        for step in steps:
            if step & STEP == OUTPUT and step & SELECT:
                self.chip.deselect()
            elif step & STEP == 0 and step & END:
                return

    def on_reset(self) -> None:
        self.chip.deselect()


if __name__ == "__main__":
    main(Ch341a)
