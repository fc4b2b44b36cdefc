"""The memory stick: bulk-only transport by sections 5 and 6 of its standard (USB Mass Storage Class, Bulk-Only Transport 1.0), commands by
SPC-4 and SBC-3."""
from __future__ import annotations

import pathlib
import struct
import tempfile
import unittest
from typing import Tuple

from tests.harness import Host, ProgramHost, Stalled, DEVICES
from tirnouch.devices.stick import Stick

PASSED, FAILED, PHASE_ERROR = 0, 1, 2
BLOCKS = 64


class Storage(Host):
    """A host's side of the transport."""

    tag = 0

    def wrapper(self, command: bytes, length: int, inward: bool) -> bytes:
        """A command block wrapper (table 5.1)."""
        self.tag += 1
        return struct.pack("<4sIIBBB16s", b"USBC", self.tag, length, 0x80 if inward else 0, 0, len(command), command)

    def status(self) -> Tuple[int, int]:
        """A status wrapper's status and residue; a stall before it is cleared once (figure 2)."""
        try:
            data = self.read(0x81, 13)
        except Stalled:
            self.tell("cleared 81")
            data = self.read(0x81, 13)
        signature, tag, residue, status = struct.unpack("<4sIIB", data)
        if (signature, tag) != (b"USBS", self.tag):
            raise AssertionError(data.hex())
        return status, residue

    def fetch(self, command: bytes, length: int) -> Tuple[bytes, int, int]:
        """A command that reads: its data, its status and the residue."""
        self.write(0x02, self.wrapper(command, length, True))
        try:
            data = self.read(0x81, length) if length else b""
        except Stalled as stalled:
            self.tell("cleared 81")
            data = stalled.got
        return (data, *self.status())

    def give(self, command: bytes, data: bytes) -> Tuple[int, int, bool]:
        """A command that writes: its status, the residue, and whether its data were stalled."""
        self.write(0x02, self.wrapper(command, len(data), False))
        is_stalled = False
        try:
            if data:
                self.write(0x02, data)
        except Stalled:
            is_stalled = True
            self.tell("cleared 02")
        return (*self.status(), is_stalled)

    def sense(self) -> Tuple[int, int, int]:
        """The sense key, the code and its qualifier (SPC-4, 4.5.3)."""
        data, status, _ = self.fetch(bytes((0x03, 0, 0, 0, 18, 0)), 18)
        if (status, data[0], data[7]) != (PASSED, 0x70, 10):
            raise AssertionError(data.hex())
        return data[2], data[12], data[13]


def ten(code: int, at: int = 0, count: int = 0) -> bytes:
    """A command of 10 bytes with a block's address and a number of blocks."""
    return struct.pack(">BBIBHB", code, 0, at, 0, count, 0)


class Sticks(unittest.TestCase):
    def setUp(self) -> None:
        folder = tempfile.TemporaryDirectory()
        self.addCleanup(folder.cleanup)
        self.path = pathlib.Path(folder.name) / "disk.img"
        self.image = bytes((at // 512 + at) & 0xFF for at in range(512 * BLOCKS))
        self.path.write_bytes(self.image)
        self.host = self.host_of(Stick(str(self.path)))

    def host_of(self, stick: Stick) -> Storage:
        """A host of a stick, whose file is closed behind the test."""
        self.addCleanup(stick.disk.file.close)
        return Storage(stick)


class Commands(Sticks):
    def test_inquiry(self) -> None:
        """Type 0, RMB, version 4 (SPC-2), response data format 2, 31 bytes behind; vendor, product and revision at 8, 16 and 32."""
        data, status, residue = self.host.fetch(bytes((0x12, 0, 0, 0, 36, 0)), 36)
        self.assertEqual(data, bytes.fromhex("008004021f000000") + b"WORKS   COMPUTED STICK  1.00")
        self.assertEqual((status, residue), (PASSED, 0))

    def test_inquiry_of_pages(self) -> None:
        """A page's code stands at 1, its length at 2."""
        self.assertEqual(self.host.fetch(bytes((0x12, 1, 0, 0, 6, 0)), 6)[0], bytes.fromhex("000000020080"))
        data, _, residue = self.host.fetch(bytes((0x12, 1, 0x80, 0, 255, 0)), 255)
        self.assertEqual((data[:4], data[4:], residue), (bytes((0, 0x80, 0, 12)), b"4954524E4F55", 255 - 16))
        for command in ((0x12, 1, 0x83, 0, 36, 0), (0x12, 0, 0x80, 0, 36, 0)):
            self.assertEqual(self.host.fetch(bytes(command), 36)[1], FAILED)
            self.assertEqual(self.host.sense(), (5, 0x24, 0))

    def test_the_serial_number_has_twelve_digits(self) -> None:
        """Bulk-Only Transport 1.0, 4.1.1: at least 12, each 0 to 9 or A to F."""
        self.assertRegex(Stick.strings[2], "^[0-9A-F]{12,}$")

    def test_capacity(self) -> None:
        """The last block, and the bytes of one."""
        self.assertEqual(self.host.fetch(ten(0x25), 8), (struct.pack(">II", BLOCKS - 1, 512), PASSED, 0))

    def test_larger_blocks(self) -> None:
        host = self.host_of(Stick(str(self.path), "4096"))
        self.assertEqual(host.fetch(ten(0x25), 8)[0], struct.pack(">II", BLOCKS // 8 - 1, 4096))
        self.assertEqual(host.fetch(ten(0x28, 1, 1), 4096), (self.image[4096:8192], PASSED, 0))

    def test_blocks_are_read_and_written(self) -> None:
        self.assertEqual(self.host.fetch(ten(0x28, 3, 2), 1024), (self.image[1536:2560], PASSED, 0))
        self.assertEqual(self.host.give(ten(0x2A, 3, 2), b"new" + bytes(1021)), (PASSED, 0, False))
        self.assertEqual(self.path.read_bytes(), self.image[:1536] + b"new" + bytes(1021) + self.image[2560:])
        self.assertEqual(self.host.give(ten(0x35), b""), (PASSED, 0, False))

    def test_no_blocks_are_no_fault(self) -> None:
        """A transfer length of zero is no error."""
        self.assertEqual(self.host.fetch(ten(0x28, 0, 0), 0), (b"", PASSED, 0))
        self.assertEqual(self.host.give(ten(0x2A, 0, 0), b""), (PASSED, 0, False))

    def test_the_last_block(self) -> None:
        self.assertEqual(self.host.fetch(ten(0x28, BLOCKS - 1, 1), 512), (self.image[-512:], PASSED, 0))
        self.assertEqual(self.host.fetch(ten(0x28, 0, BLOCKS), 512 * BLOCKS), (self.image, PASSED, 0))

    def test_a_command_moves_no_more_than_was_asked_for(self) -> None:
        """The allocation length of INQUIRY has two bytes, that of MODE SENSE one."""
        self.assertEqual(self.host.fetch(bytes((0x12, 0, 0, 0, 5, 0)), 5)[0], bytes.fromhex("008004021f"))
        self.assertEqual(self.host.fetch(bytes((0x12, 0, 0, 1, 0, 0)), 256)[2], 256 - 36)
        self.assertEqual(self.host.fetch(bytes((0x12, 1, 0x80, 0, 4, 0)), 4)[0], bytes((0, 0x80, 0, 12)))
        self.assertEqual(self.host.fetch(bytes((0x1A, 0, 0x3F, 0, 255, 0)), 255)[2], 255 - 24)

    def test_blocks_behind_the_last_are_refused(self) -> None:
        """ILLEGAL REQUEST, LOGICAL BLOCK ADDRESS OUT OF RANGE."""
        for at, count in ((BLOCKS, 1), (BLOCKS - 1, 2), (0xFFFFFFFF, 1), (BLOCKS, 0)):
            self.assertEqual(self.host.fetch(ten(0x28, at, count), 512), (b"", FAILED, 512))
            self.assertEqual(self.host.sense(), (5, 0x21, 0))
        self.assertEqual(self.host.give(ten(0x2A, BLOCKS, 1), bytes(512)), (FAILED, 512, True))
        self.assertEqual(self.path.read_bytes(), self.image)

    def test_an_unknown_command_is_refused(self) -> None:
        """ILLEGAL REQUEST, INVALID COMMAND OPERATION CODE; asked again, there is no sense left."""
        self.assertEqual(self.host.fetch(ten(0xFF), 8), (b"", FAILED, 8))
        self.assertEqual(self.host.sense(), (5, 0x20, 0))
        self.assertEqual(self.host.sense(), (0, 0, 0))

    def test_all_bytes_of_the_sense(self) -> None:
        """SPC-4, 4.5.3: current errors in the fixed format, the key at 2, 10 bytes behind the first 8, the code at 12."""
        self.host.give(ten(0xFF), b"")
        self.assertEqual(self.host.fetch(bytes((0x03, 0, 0, 0, 18, 0)), 18)[0].hex(), "700005000000000a00000000200000000000")
        self.host.give(ten(0xFF), b"")
        self.assertEqual(self.host.fetch(bytes((0x03, 0, 0, 0, 4, 0)), 4), (bytes((0x70, 0, 5, 0)), PASSED, 0))

    def test_sense_is_kept_until_another_command(self) -> None:
        """INQUIRY leaves it, TEST UNIT READY doesn't."""
        self.host.give(ten(0xFF), b"")
        self.host.fetch(bytes((0x12, 0, 0, 0, 36, 0)), 36)
        self.assertEqual(self.host.sense(), (5, 0x20, 0))
        self.host.give(ten(0xFF), b"")
        self.assertEqual(self.host.give(bytes(6), b""), (PASSED, 0, False))
        self.assertEqual(self.host.sense(), (0, 0, 0))

    def test_mode_sense(self) -> None:
        """The length behind it, the medium, WP in bit 7, no block descriptors; page 8 has 18 bytes, WCE is bit 2 of the first."""
        self.assertEqual(self.host.fetch(bytes((0x1A, 0, 0x3F, 0, 4, 0)), 4)[0], bytes.fromhex("17000000"))
        self.assertEqual(self.host.fetch(bytes((0x1A, 0, 8, 0, 24, 0)), 24)[0], bytes.fromhex("17000000081204").ljust(24, b"\0"))
        self.assertEqual(self.host.fetch(bytes((0x1A, 0, 1, 0, 4, 0)), 4)[1], FAILED)
        self.assertEqual(self.host.sense(), (5, 0x24, 0))

    def test_a_protected_stick(self) -> None:
        """DATA PROTECT, WRITE PROTECTED; MODE SENSE has WP."""
        host = self.host_of(Stick(str(self.path), "512", "protected"))
        self.assertEqual(host.fetch(bytes((0x1A, 0, 0x3F, 0, 4, 0)), 4)[0], bytes.fromhex("17008000"))
        self.assertEqual(host.give(ten(0x2A, 0, 1), bytes(512)), (FAILED, 512, True))
        self.assertEqual(host.sense(), (7, 0x27, 0))
        self.assertEqual(host.give(ten(0x35), b""), (PASSED, 0, False))

    def test_a_medium_is_unloaded_and_loaded(self) -> None:
        """NOT READY, MEDIUM NOT PRESENT; START STOP UNIT with LOEJ, then with LOEJ and START."""
        self.assertEqual(self.host.give(bytes((0x1E, 0, 0, 0, 1, 0)), b""), (PASSED, 0, False))
        self.assertEqual(self.host.give(bytes((0x1B, 0, 0, 0, 2, 0)), b""), (PASSED, 0, False))
        for command, length in ((bytes(6), 0), (ten(0x25), 8), (ten(0x28, 0, 1), 512)):
            self.assertEqual(self.host.fetch(command, length), (b"", FAILED, length))
            self.assertEqual(self.host.sense(), (2, 0x3A, 0))
        self.host.give(bytes((0x1B, 0, 0, 0, 3, 0)), b"")
        self.assertEqual(self.host.give(bytes(6), b""), (PASSED, 0, False))

    def test_verify(self) -> None:
        self.assertEqual(self.host.give(ten(0x2F, 0, 4), b""), (PASSED, 0, False))
        self.assertEqual(self.host.give(ten(0x2F, 0, BLOCKS + 1), b"")[0], FAILED)
        self.assertEqual(self.host.sense(), (5, 0x21, 0))
        self.assertEqual(self.host.give(bytes((0x2F, 2)) + ten(0x2F, 0, 1)[2:], bytes(512)), (FAILED, 512, True))
        self.assertEqual(self.host.sense(), (5, 0x24, 0))


class Lengths(Sticks):
    """The 13 cases (6.7): H is what the host expects, D what the device intends; n nothing, i in, o out."""

    def test_host_none_device_none_or_data(self) -> None:
        """Cases 1, 2 and 3."""
        self.assertEqual(self.host.give(bytes(6), b""), (PASSED, 0, False))
        self.assertEqual(self.host.give(ten(0x28, 0, 1), b"")[0], PHASE_ERROR)
        self.assertEqual(self.host.give(ten(0x2A, 0, 1), b"")[0], PHASE_ERROR)

    def test_host_in(self) -> None:
        """Cases 4 to 8."""
        self.assertEqual(self.host.fetch(bytes(6), 512), (b"", PASSED, 512))
        self.assertEqual(self.host.fetch(ten(0x25), 512), (struct.pack(">II", BLOCKS - 1, 512), PASSED, 504))
        self.assertEqual(self.host.fetch(ten(0x28, 0, 1), 1024), (self.image[:512], PASSED, 512))
        self.assertEqual(self.host.fetch(ten(0x28, 0, 1), 512), (self.image[:512], PASSED, 0))
        self.assertEqual(self.host.fetch(ten(0x28, 0, 2), 512)[1], PHASE_ERROR)
        self.assertEqual(self.host.fetch(ten(0x2A, 0, 1), 512)[1], PHASE_ERROR)

    def test_host_out(self) -> None:
        """Cases 9 to 13."""
        self.assertEqual(self.host.give(bytes(6), bytes(512)), (PASSED, 512, True))
        self.assertEqual(self.host.give(ten(0x28, 0, 1), bytes(512)), (PHASE_ERROR, 512, True))
        self.assertEqual(self.host.give(ten(0x2A, 1, 1), bytes(1024)), (PASSED, 512, True))
        self.assertEqual(self.host.give(ten(0x2A, 2, 1), bytes(512)), (PASSED, 0, False))
        self.assertEqual(self.host.give(ten(0x2A, 8, 2), bytes(512)), (PHASE_ERROR, 512, True))
        self.assertEqual(self.path.read_bytes(), self.image[:512] + bytes(1024) + self.image[1536:])

    def test_data_that_end_early_arent_written(self) -> None:
        self.host.write(0x02, self.host.wrapper(ten(0x2A, 0, 2), 1024, False))
        self.host.write(0x02, bytes(512) + b"short")
        self.assertEqual(self.host.status(), (PHASE_ERROR, 1024 - 517))
        self.assertEqual(self.path.read_bytes(), self.image)


class Wrappers(Sticks):
    def test_a_wrapper_that_isnt_valid_stalls_until_a_reset(self) -> None:
        """6.2 and 6.6.1: a halt that is cleared comes again; Bulk-Only Mass Storage Reset ends that (3.1)."""
        good = self.host.wrapper(bytes(6), 0, False)
        for bad in (good[:-1], good + b"\0", b"USBX" + good[4:], good[:13] + b"\1" + good[14:], good[:14] + b"\0" + good[15:],
                    good[:14] + b"\x11" + good[15:], good[:12] + b"\x40" + good[13:]):
            for _ in range(2):
                self.assertEqual(self.host.ask(f"out 02 {bad.hex()}"), "s")
                self.assertEqual(self.host.ask("in 81 13"), "s")
                self.host.tell("cleared 02")
                self.host.tell("cleared 81")
            self.assertEqual(self.host.ask(f"out 02 {good.hex()}"), "s")
            self.host.control(0x21, 0xFF, 0, 0)
            self.assertEqual(self.host.ask("in 81 13"), "n")
            self.assertEqual(self.host.give(bytes(6), b""), (PASSED, 0, False))

    def test_a_reset_of_the_bus_begins_anew(self) -> None:
        for event in ("reset", "plugged"):
            self.host.write(0x02, self.host.wrapper(ten(0x2A, 0, 2), 1024, False))
            self.host.write(0x02, bytes(512))
            self.host.tell(event)
            self.assertEqual(self.host.give(bytes(6), b""), (PASSED, 0, False))
            self.assertEqual(self.path.read_bytes(), self.image)

    def test_a_command_without_data_may_say_either_direction(self) -> None:
        """5.1: bit 7 of bmCBWFlags is ignored where dCBWDataTransferLength is 0."""
        self.host.write(0x02, self.host.wrapper(bytes(6), 0, True))
        self.assertEqual(self.host.status(), (PASSED, 0))
        self.host.write(0x02, self.host.wrapper(ten(0x28, 0, 1), 0, True))
        self.assertEqual(self.host.status(), (PHASE_ERROR, 0))

    def test_one_unit(self) -> None:
        self.assertEqual(self.host.control(0xA1, 0xFE, 0, 0, 1), b"\0")


class Programs(Sticks):
    def test_a_disk_has_whole_blocks(self) -> None:
        """One is enough."""
        for block in ("0", "-512", "1000"):
            with self.assertRaisesRegex(ValueError, "one or more blocks of"):
                Stick(str(self.path), block)
        self.path.write_bytes(bytes(4096))
        self.assertEqual(self.host_of(Stick(str(self.path), "4096")).fetch(ten(0x25), 8)[0], struct.pack(">II", 0, 4096))
        for size in (0, 4095, 4097):
            self.path.write_bytes(bytes(size))
            with self.assertRaisesRegex(ValueError, f"has {size} bytes"):
                Stick(str(self.path))

    def test_files_that_are_no_disk(self) -> None:
        for words, sentence in (((str(self.path), "500"), "a multiple of 512"), ((str(self.path), "65536"), "one or more blocks"),
                                ((str(self.path), "512", "often"), "`protected`"), ((str(self.path) + "x",), "No such file"),
                                ((), "missing a required argument: 'path'")):
            host = ProgramHost(str(DEVICES / "stick.py"), *words)
            self.assertIsNone(host.hear())
            status, errors = host.end()
            self.assertEqual(status, 1)
            self.assertIn(sentence, errors)

    def test_as_a_program(self) -> None:
        """4.3: class 08, subclass 06 (SCSI), protocol 50 (bulk-only); 4.4: a bulk endpoint of each direction."""
        host = ProgramHost(str(DEVICES / "stick.py"), str(self.path))
        configuration = "0902200001010080320904000002080650000705020200020007058102000200"
        self.assertEqual(host.hello()[:2], [f"device 0 {configuration}", "ids 0 1209 0007 0100"])
        self.assertEqual(host.control(0xA1, 0xFE, 0, 0, 1), b"\0")
        self.assertEqual(host.end(), (0, ""))
        host = ProgramHost("-m", "tirnouch.devices.stick", str(self.path), "4096")
        self.assertEqual(host.hello()[0], f"device 0 {configuration}")
        self.assertEqual(host.end(), (0, ""))
