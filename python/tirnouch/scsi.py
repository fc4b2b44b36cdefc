"""A disk's commands over the blocks of a file or of bytes: those that a host needs to mount a file system. Those for all devices are in
clause 6 of SCSI Primary Commands 4 (SPC-4), those for disks in clause 5 of SCSI Block Commands 3 (SBC-3), each by its name. What isn't here
is refused as an invalid operation code."""
from __future__ import annotations

import io
import os
from typing import IO, Callable, Dict, NamedTuple, Optional, Tuple, Union

from tirnouch.bases import bytes_of
from tirnouch.endpoints import whole

# Operation codes
TEST_UNIT_READY, REQUEST_SENSE, INQUIRY, MODE_SENSE, START_STOP_UNIT, PREVENT_ALLOW = 0x00, 0x03, 0x12, 0x1A, 0x1B, 0x1E
READ_CAPACITY, READ, WRITE, VERIFY, SYNCHRONIZE_CACHE = 0x25, 0x28, 0x2A, 0x2F, 0x35
SUPPORTED_PAGES, SERIAL_PAGE = 0x00, 0x80
CACHING_PAGE, ALL_PAGES = 0x08, 0x3F
MOST_BLOCKS = 1 << 32
# Vendor, product and revision in INQUIRY, and the letters that there are for each (SPC-4, 6.4.2).
NAMES, MOST_NAMES = ("WORKS", "COMPUTED STICK", "1.00"), (8, 16, 4)
Medium = Union[bytes, str, "os.PathLike[str]"]


class Refused(Exception):
    """A command ends with CHECK CONDITION; sense key, additional sense code and its qualifier say why (SPC-4, 4.5), as Refused(0x3, 0x11)
    for an unrecovered read error."""

    def __init__(self, key: int, code: int, qualifier: int = 0) -> None:
        self.key, self.code = whole("a sense key", key, 0xF), whole("an additional sense code", code, 0xFF)
        self.qualifier = whole("its qualifier", qualifier, 0xFF)
        super().__init__(f"sense {key:x}/{code:02x}/{qualifier:02x}")


def invalid_operation() -> Refused:
    """ILLEGAL REQUEST, INVALID COMMAND OPERATION CODE."""
    return Refused(0x5, 0x20)


def out_of_range() -> Refused:
    """ILLEGAL REQUEST, LOGICAL BLOCK ADDRESS OUT OF RANGE."""
    return Refused(0x5, 0x21)


def invalid_field() -> Refused:
    """ILLEGAL REQUEST, INVALID FIELD IN CDB."""
    return Refused(0x5, 0x24)


def write_protected() -> Refused:
    """DATA PROTECT, WRITE PROTECTED."""
    return Refused(0x7, 0x27)


def changed() -> Refused:
    """UNIT ATTENTION, NOT READY TO READY CHANGE, MEDIUM MAY HAVE CHANGED."""
    return Refused(0x6, 0x28)


def not_present() -> Refused:
    """NOT READY, MEDIUM NOT PRESENT."""
    return Refused(0x2, 0x3A)


class Transfer(NamedTuple):
    """What a command moves: data for the host; or so many bytes of the host's, and what is done with them."""

    data: bytes = b""
    room: int = 0
    take: Callable[[bytes], None] = lambda _data: None


class Disk:
    """A disk with the blocks of a file, by its path, or of bytes, of which it has a copy. What is written stands in the file when the
    command ends. `names` are vendor, product and revision of INQUIRY."""

    def __init__(self, medium: Medium, block: int = 512, is_protected: bool = False, names: Tuple[str, str, str] = NAMES,
                 serial: str = "0") -> None:
        size, what = (len(medium), "a medium") if isinstance(medium, bytes) else (os.stat(medium).st_size, os.fspath(medium))
        if block <= 0 or block % 512 or size < block or size % block or size // block > MOST_BLOCKS:
            raise ValueError(f"{what} has {size} bytes: a disk has one or more blocks of {block} bytes, and a block is a multiple of 512")
        self.file: IO[bytes] = io.BytesIO(medium) if isinstance(medium, bytes) else open(medium, "rb" if is_protected else "r+b")
        self.block, self.count, self.is_protected = block, size // block, is_protected
        self.names, self.serial, self.is_loaded, self.is_changed = names, serial, True, False
        self.reads: Callable[[int, int], bytes] = self.blocks
        self.writes: Callable[[int, bytes], None] = self.put
        self.sense: Optional[Refused] = None
        self.commands: Dict[int, Callable[[bytes], Transfer]] = {
            TEST_UNIT_READY: self.test_unit_ready, REQUEST_SENSE: self.request_sense, INQUIRY: self.inquiry, MODE_SENSE: self.mode_sense,
            START_STOP_UNIT: self.start_stop_unit, PREVENT_ALLOW: self.prevent_allow, READ_CAPACITY: self.read_capacity, READ: self.read,
            WRITE: self.write, VERIFY: self.verify, SYNCHRONIZE_CACHE: self.synchronize_cache}

    def execute(self, command: bytes) -> Transfer:
        """What a command moves. Refused where it fails: its sense is kept until it is asked for, or until another command."""
        code = command[0]
        if code not in (REQUEST_SENSE, INQUIRY):
            self.sense = None
        try:
            if self.is_changed and code not in (REQUEST_SENSE, INQUIRY):
                self.is_changed = False
                raise changed()
            if code not in self.commands:
                raise invalid_operation()
            return self.commands[code](command.ljust(16, b"\0"))
        except Refused as refused:
            self.sense = refused
            raise

    def take(self, transfer: Transfer, data: bytes) -> None:
        """A command is given the host's data; as above."""
        try:
            transfer.take(data)
        except Refused as refused:
            self.sense = refused
            raise

    def blocks(self, at: int, count: int) -> bytes:
        """Blocks of the medium."""
        self.file.seek(at * self.block)
        return self.file.read(count * self.block)

    def put(self, at: int, data: bytes) -> None:
        """Blocks of the medium are other ones."""
        self.file.seek(at * self.block)
        self.file.write(data)
        self.file.flush()

    # SPC-4

    def test_unit_ready(self, _command: bytes) -> Transfer:
        """Whether there is a medium."""
        self.need_medium()
        return Transfer()

    def request_sense(self, command: bytes) -> Transfer:
        """The sense of the command before, in the fixed format (4.5.3); NO SENSE where there was nothing."""
        it, self.sense = self.sense or Refused(0, 0), None
        sense = bytes((0x70, 0, it.key, 0, 0, 0, 0, 10, 0, 0, 0, 0, it.code, it.qualifier, 0, 0, 0, 0))
        return Transfer(sense[: command[4]])

    def inquiry(self, command: bytes) -> Transfer:
        """A direct access block device whose medium may be removed; with EVPD, pages of vital product data: the serial number."""
        length = int.from_bytes(command[3:5], "big")
        if command[1] & 1:
            pages = {SUPPORTED_PAGES: bytes((SUPPORTED_PAGES, SERIAL_PAGE)), SERIAL_PAGE: self.serial.encode("ascii")}
            if command[2] not in pages:
                raise invalid_field()
            page = pages[command[2]]
            return Transfer((bytes((0, command[2], 0, len(page))) + page)[:length])
        if command[2]:
            raise invalid_field()
        names = b"".join(name.encode("ascii").ljust(most) for name, most in zip(self.names, MOST_NAMES))
        return Transfer((bytes((0x00, 0x80, 0x04, 0x02, 31, 0, 0, 0)) + names)[:length])

    def mode_sense(self, command: bytes) -> Transfer:
        """No block descriptors, and the caching page, which says that a write cache is there (SBC-3)."""
        page = command[2] & 0x3F
        if page not in (CACHING_PAGE, ALL_PAGES):
            raise invalid_field()
        body = bytes((CACHING_PAGE, 0x12, 0x04)).ljust(20, b"\0")
        head = bytes((3 + len(body), 0, 0x80 if self.is_protected else 0, 0))
        return Transfer((head + body)[: command[4]])

    def prevent_allow(self, _command: bytes) -> Transfer:
        """Nobody takes this medium out by hand."""
        return Transfer()

    # SBC-3

    def start_stop_unit(self, command: bytes) -> Transfer:
        """LOEJ unloads the medium, or loads it with START."""
        if command[4] & 2:
            self.is_loaded = bool(command[4] & 1)
        return Transfer()

    def read_capacity(self, _command: bytes) -> Transfer:
        """The last block, and the bytes of one."""
        self.need_medium()
        return Transfer((self.count - 1).to_bytes(4, "big") + self.block.to_bytes(4, "big"))

    def read(self, command: bytes) -> Transfer:
        """Blocks for the host."""
        at, count = self.range(command)
        data = bytes_of("what is read of a disk", self.reads(at, count)) if count else b""
        if len(data) != count * self.block:
            raise ValueError(f"{count} blocks of {self.block} bytes are read from block {at} on, and {len(data)} bytes were returned")
        return Transfer(data)

    def write(self, command: bytes) -> Transfer:
        """Blocks of the host's, which stand in the file when they are there."""
        at, count = self.range(command)
        if self.is_protected:
            raise write_protected()
        return Transfer(room=count * self.block, take=lambda data: self.writes(at, data))

    def verify(self, command: bytes) -> Transfer:
        """The blocks can be read; those of the host's aren't compared."""
        if command[1] & 2:
            raise invalid_field()
        self.range(command)
        return Transfer()

    def synchronize_cache(self, command: bytes) -> Transfer:
        """What was written is on the machine's own disk."""
        self.range(command)
        if not self.is_protected and not isinstance(self.file, io.BytesIO):
            os.fsync(self.file.fileno())
        return Transfer()

    def need_medium(self) -> None:
        """Refused where the medium was unloaded."""
        if not self.is_loaded:
            raise not_present()

    def range(self, command: bytes) -> tuple[int, int]:
        """The first block of a command of 10 bytes, and their number."""
        self.need_medium()
        at, count = int.from_bytes(command[2:6], "big"), int.from_bytes(command[7:9], "big")
        if at + count > self.count or at >= self.count:
            raise out_of_range()
        return at, count
