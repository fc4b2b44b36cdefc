"""A serial flash of 1 MiB, W25Q80, by the instruction set table of Winbond's data sheet W25Q80DV. A byte goes in and a byte comes out at a
time, while it is selected; an instruction that changes the chip is done when it is deselected."""
from __future__ import annotations

import pathlib
from typing import Callable, Dict

SIZE, PAGE = 1 << 20, 256
MANUFACTURER, KIND, CAPACITY, DEVICE = 0xEF, 0x40, 0x14, 0x13
WRITE_STATUS, PAGE_PROGRAM, READ, WRITE_DISABLE, READ_STATUS_1, WRITE_ENABLE = 0x01, 0x02, 0x03, 0x04, 0x05, 0x06
FAST_READ, READ_STATUS_2, READ_ID, READ_JEDEC, RELEASE = 0x0B, 0x35, 0x90, 0x9F, 0xAB
ERASES = {0x20: 4096, 0x52: 32768, 0xD8: 65536, 0x60: SIZE, 0xC7: SIZE}
BUSY, ENABLED = 1, 2
# An instruction and its address stand in front of what is read or programmed.
HEAD = 4
# How often the chip says that it is busy: it has no clock.
BUSY_READS = 2


class W25Q80:
    """The chip, whose bytes stand in a file: it is erased where the file isn't there."""

    def __init__(self, path: str) -> None:
        self.path = pathlib.Path(path)
        if not self.path.exists():
            self.path.write_bytes(b"\xff" * SIZE)
        self.data = bytearray(self.path.read_bytes())
        if len(self.data) != SIZE:
            raise ValueError(f"{path} has {len(self.data)} bytes, and the chip has {SIZE}")
        self.is_enabled, self.busy, self.status = False, 0, 0
        self.command = bytearray()
        self.readers: Dict[int, Callable[[int], int]] = {
            READ_STATUS_1: lambda _at: self.read_status(), READ_STATUS_2: lambda _at: 0,
            READ_JEDEC: lambda at: (MANUFACTURER, KIND, CAPACITY)[at % 3],
            READ_ID: lambda at: (MANUFACTURER, DEVICE)[(at + 1 + self.address()) % 2] if at >= HEAD - 1 else 0xFF,
            RELEASE: lambda at: DEVICE if at >= HEAD - 1 else 0xFF}

    def exchange(self, data: bytes) -> bytes:
        """What comes out while these bytes go in: behind an instruction, or behind its address where it has one, what it reads."""
        if not data:
            return b""
        begin = len(self.command)
        self.command += data
        code = self.command[0]
        head = HEAD + (code == FAST_READ)
        if code in (READ, FAST_READ) and not self.busy:
            blank = min(max(head - begin, 0), len(data))
            return b"\xff" * blank + self.read(max(begin - head, 0), len(data) - blank)
        if code not in self.readers or (self.busy and code != READ_STATUS_1):
            return b"\xff" * len(data)
        return bytes(self.readers[code](at - 1) if at else 0xFF for at in range(begin, begin + len(data)))

    def read(self, at: int, length: int) -> bytes:
        """Bytes from a place behind the address on, which goes round at the chip's end."""
        begin = (self.address() + at) % SIZE
        some = bytes(self.data[begin : begin + length])
        return some + bytes(self.data[: length - len(some)])

    def read_status(self) -> int:
        """The first status register: what it was busy with goes on meanwhile."""
        status = self.status | (BUSY if self.busy else 0) | (ENABLED if self.is_enabled else 0)
        self.busy = max(0, self.busy - 1)
        return status

    def address(self) -> int:
        """The 24 bits behind an instruction."""
        return int.from_bytes(self.command[1:HEAD], "big") % SIZE

    def deselect(self) -> None:
        """An instruction ends, and is done. While the chip is busy it takes none but that of the status."""
        code = self.command[0] if self.command and not self.busy else None
        if code in (WRITE_ENABLE, WRITE_DISABLE):
            self.is_enabled = code == WRITE_ENABLE
        elif code is not None and self.is_enabled:
            self.change(code)
        self.command = bytearray()

    def change(self, code: int) -> None:
        """Programs a page, erases, or writes the status register."""
        if code == WRITE_STATUS and len(self.command) > 1:
            self.status = self.command[1] & 0xFC
        elif code == PAGE_PROGRAM and len(self.command) > HEAD:
            self.program(self.address(), self.command[HEAD:])
        elif code in ERASES and (ERASES[code] == SIZE or len(self.command) == HEAD):
            size = ERASES[code]
            self.replace(0 if size == SIZE else self.address() // size * size, b"\xff" * size)
        else:
            return
        self.is_enabled, self.busy = False, BUSY_READS

    def program(self, address: int, data: bytes) -> None:
        """Bits become 0; what goes beyond the page's end stands at its beginning."""
        begin = address // PAGE * PAGE
        page = self.data[begin : begin + PAGE]
        kept = data[-PAGE:]
        for at, byte in enumerate(kept, len(data) - len(kept)):
            page[(address + at) % PAGE] &= byte
        self.replace(begin, page)

    def replace(self, begin: int, data: bytes) -> None:
        """Bytes of the chip, and of its file."""
        self.data[begin : begin + len(data)] = data
        with self.path.open("r+b") as file:
            file.seek(begin)
            file.write(data)
