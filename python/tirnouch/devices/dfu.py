"""A device in DFU mode (tirnouch/dfu.py) over a file, both ways.

    dfu.py FILE [SIZE]    the file of its firmware, which a download writes and an upload reads; the bytes of its memory, 65536 else

A download stands in the file when it is manifested."""
from __future__ import annotations

import pathlib

from tirnouch import dfu, main


class Dfu(dfu.Dfu):
    """Its memory is a file."""

    product = 0x0006
    strings = ("Works", "Loader", "L1")

    def __init__(self, path: str, size: str = "65536") -> None:
        self.path, self.size = pathlib.Path(path), int(size)

    def read(self) -> bytes:
        return self.path.read_bytes() if self.path.exists() else b""

    def manifested(self, firmware: bytes) -> None:
        self.path.write_bytes(firmware)


if __name__ == "__main__":
    main(Dfu)
