#!/usr/bin/env python3
"""A worn memory stick: its block 7 can't be read any more, and its block 9 can't be written."""
import tirnouch as t


class Worn(t.Storage):
    ids = (0x1209, 0x0035)
    medium = bytes(512 * 64)

    def read(self, at: int, count: int) -> bytes:
        if at <= 7 < at + count:
            raise t.storage.Refused(0x3, 0x11)        # MEDIUM ERROR, UNRECOVERED READ ERROR
        return super().read(at, count)

    def write(self, at: int, data: bytes) -> None:
        if at <= 9 < at + len(data) // 512:
            raise t.storage.Refused(0x3, 0x0C)        # MEDIUM ERROR, WRITE ERROR
        super().write(at, data)


if __name__ == "__main__":
    t.main(Worn)
