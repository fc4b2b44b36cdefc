"""Memory sticks: bulk-only transport (USB Mass Storage Class, Bulk-Only Transport 1.0) of a disk's commands (scsi.py), over bytes or a
file.

    class Worn(Storage):
        medium = bytes(512 * 64)

        def read(self, at: int, count: int) -> bytes:
            if at <= 7 < at + count:
                raise Refused(0x3, 0x11)         # MEDIUM ERROR, UNRECOVERED READ ERROR
            return super().read(at, count)"""
from __future__ import annotations

import os
import struct
from typing import Any, Optional, Sequence, Tuple

from tirnouch.answers import STALL, Answer
from tirnouch.bases import Renewed, endpoint_of, joined, says, typed
from tirnouch.descriptors import size_of
from tirnouch.endpoints import BULK, Request, bulk_in, bulk_out, control, whole
from tirnouch.scsi import MOST_NAMES, NAMES, Disk, Medium, Refused, Transfer

__all__ = ["Refused", "Storage"]

# A command block wrapper (5.1): signature, tag, length, flags, unit, and the length of the command's block; a status wrapper (5.2).
COMMAND, STATUS = struct.Struct("<4sIIBBB16s"), struct.Struct("<4sIIB")
TO_HOST = 0x80
PASSED, FAILED, PHASE_ERROR = 0, 1, 2
# At least 12 digits (4.1.1)
SERIAL = "4954524E4F55"


class Storage(Renewed):
    """A stick with one unit. What its 13 cases of host's and device's lengths are called stands in 6.7.

    `medium` has its blocks: bytes, of which each device has a copy, or the path of a file, which is written. None is an empty slot, until
    `insert`. `block` is the bytes of a block, a multiple of 512; `names` are vendor, product and revision of INQUIRY, of at most 8, 16 and
    4 letters; its serial number is the third of `strings`."""

    medium: Optional[Medium] = None
    block: int = 512
    is_protected: bool = False
    names: Tuple[str, str, str] = NAMES
    interfaces: Sequence[Tuple[Any, ...]] = ((0x08, 0x06, 0x50),)
    strings: Sequence[str] = ("Works", "Computed Stick", SERIAL)
    replies = bulk_in(0x81)
    packets = bulk_out(0x02)

    _has_first_interface = True
    disk: Disk
    _is_asked: bool
    # Behind a command that isn't valid; the tag and the length of the last one; what of the host's data came, and what is done with them.
    _is_lost: bool
    _tag: int
    _wanted: int
    _transfer: Optional[Transfer]
    _taken: bytes

    def __init_subclass__(cls, **words: Any) -> None:
        typed(cls, "medium", (bytes, str, os.PathLike, type(None)), "bytes, or the path of a file")
        typed(cls, "is_protected", bool, "True or False")
        if whole(says(cls, "block"), cls.block, 1 << 16, 512) % 512:
            raise ValueError(f"{says(cls, 'block')} is a multiple of 512, and not {cls.block}")
        if isinstance(cls.medium, bytes) and (not cls.medium or len(cls.medium) % cls.block):
            raise ValueError(f"{says(cls, 'medium')} has one or more blocks of {cls.block} bytes, and not {len(cls.medium)} bytes")
        names = typed(cls, "names", tuple, f"a tuple of vendor, product and revision, as {NAMES!r}")
        if len(names) != 3 or not all(isinstance(it, str) and it.isascii() and len(it) <= most for it, most in zip(names, MOST_NAMES)):
            raise ValueError(f"{says(cls, 'names')} is vendor, product and revision, of at most 8, 16 and 4 letters, and not {names!r}")
        joined(cls, "replies", BULK, True, "_reply")
        joined(cls, "packets", BULK, False, "_packet")
        super().__init_subclass__(**words)

    def __new__(cls, *words: Any, **named: Any) -> Any:
        device: Storage = super().__new__(cls, *words, **named)
        device._is_asked = False
        device.insert(bytes(cls.block) if cls.medium is None else cls.medium)
        if cls.medium is None:
            device.eject()
        return device

    def begin(self) -> None:
        super().begin()
        self._forget()

    def _forget(self) -> None:
        """Ready for a command."""
        self._is_lost, self._tag, self._wanted, self._transfer, self._taken = False, 0, 0, None, b""

    # What a class calls, and what it may do

    def insert(self, medium: Medium) -> None:
        """The stick has another medium. Where there was a command before, the next one is told so by UNIT ATTENTION. ValueError and OSError
        where it isn't a medium, and then the one before stays."""
        before: Optional[Disk] = vars(self).get("disk")
        serial = self.strings[2] if len(self.strings) > 2 else "0"
        self.disk = Disk(medium, self.block, self.is_protected, self.names, serial)
        self.disk.reads, self.disk.writes, self.disk.is_changed = self.read, self.write, self._is_asked
        if before:
            before.file.close()

    def eject(self) -> None:
        """The stick has no medium, until one is inserted."""
        self.disk.is_loaded = False

    def read(self, at: int, count: int) -> bytes:
        """So many blocks from one on are read. Refused where they can't be, with a sense."""
        return self.disk.blocks(at, count)

    def write(self, at: int, data: bytes) -> None:
        """Whole blocks are written from one on; as above."""
        self.disk.put(at, data)

    # Requests (3.1, 3.2)

    @control(0x21, 0xFF, 0, 0)
    def reset(self, _request: Request) -> None:
        """Bulk-Only Mass Storage Reset: the device is ready for a command. Halts stay until they are cleared."""
        self.discard(endpoint_of(self, "replies"))
        self.discard(endpoint_of(self, "packets"))
        self._forget()

    @control(0xA1, 0xFE, 0, 0)
    def max_unit(self, _request: Request) -> bytes:
        """Get Max LUN: the last unit is 0."""
        return b"\0"

    # Endpoints

    def _reply(self, _room: int) -> Optional[Answer]:
        """Where nothing was sent there is nothing yet; behind a command that isn't valid a stall, until a reset (6.6.1)."""
        return STALL if self._is_lost else None

    def _packet(self, data: bytes) -> Optional[Answer]:
        """A command, or data of the host's."""
        if self._is_lost:
            return STALL
        if self._transfer:
            self._more(self._transfer, data)
            return None
        return self._command(data)

    def _command(self, data: bytes) -> Optional[Answer]:
        """A command's wrapper; one that isn't valid or meaningful (6.2) stalls both endpoints until a reset."""
        if len(data) != COMMAND.size or data[:4] != b"USBC" or data[13] or not 1 <= data[14] <= 16 or data[12] & ~TO_HOST:
            self._is_lost = True
            return STALL
        self._is_asked = True
        _, self._tag, self._wanted, flags, _, length, block = COMMAND.unpack(data)
        try:
            transfer, status = self.disk.execute(block[:length]), PASSED
        except Refused:
            transfer, status = Transfer(), FAILED
        self._begin_data(transfer, status, bool(flags & TO_HOST) and self._wanted > 0)
        return None

    def _begin_data(self, transfer: Transfer, status: int, inward: bool) -> None:
        """Data of the device are sent; those of the host come, and else the status follows."""
        given = len(transfer.data)
        allowed_in, allowed_out = (self._wanted, 0) if inward else (0, self._wanted)
        if given > allowed_in or transfer.room > allowed_out:           # cases 2, 3, 7, 8, 10 and 13
            self._end(0, PHASE_ERROR, inward)
        elif transfer.room:
            self._transfer, self._taken = transfer, b""
        else:
            if given:
                self.send(endpoint_of(self, "replies"), transfer.data)
            self._end(given, status, inward)

    def _more(self, transfer: Transfer, data: bytes) -> None:
        """Data of the host's. A short packet ends them before their time: then nothing is written."""
        self._taken += data
        if len(self._taken) >= transfer.room:
            self._transfer, status = None, PASSED
            try:
                self.disk.take(transfer, self._taken[: transfer.room])
            except Refused:
                status = FAILED
            self._end(transfer.room, status, False)
        elif len(data) < size_of(self, endpoint_of(self, "packets")):
            self._transfer = None
            self._status(self._wanted - len(self._taken), PHASE_ERROR)

    def _end(self, moved: int, status: int, inward: bool) -> None:
        """The status, with what didn't move of what the host wanted. Where there is such a rest the endpoint stalls first (6.7.2 and
        6.7.3)."""
        residue = self._wanted - moved
        if residue:
            self.stall(endpoint_of(self, "replies" if inward else "packets"))
        self._status(residue, status)

    def _status(self, residue: int, status: int) -> None:
        """A status wrapper (5.2)."""
        self.send(endpoint_of(self, "replies"), STATUS.pack(b"USBS", self._tag, residue, status))
