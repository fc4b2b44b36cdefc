"""The programmer with its flash: streams as flashrom's ch341a_spi.c sends them, instructions by Winbond's data sheet W25Q80DV."""
from __future__ import annotations

import pathlib
import tempfile
import unittest

from tests.harness import Host, Stalled
from tirnouch.devices.ch341a import Ch341a
from tirnouch.devices.w25q80 import W25Q80

SIZE = 1 << 20


def reversed_bits(data: bytes) -> bytes:
    """Each byte with its lowest bit first."""
    return bytes(sum(((byte >> bit) & 1) << (7 - bit) for bit in range(8)) for byte in data)


class Files(unittest.TestCase):
    def setUp(self) -> None:
        folder = tempfile.TemporaryDirectory()
        self.addCleanup(folder.cleanup)
        self.path = pathlib.Path(folder.name) / "chip"


class Chips(Files):
    """The chip by itself."""

    def setUp(self) -> None:
        super().setUp()
        self.path.write_bytes(bytes(at & 0xFF for at in range(SIZE)))
        self.chip = W25Q80(str(self.path))

    def do(self, instruction: str, reads: int = 0) -> bytes:
        """An instruction, and what is read behind it."""
        sent = bytes.fromhex(instruction)
        out = self.chip.exchange(sent + bytes(reads))
        self.chip.deselect()
        self.assertEqual(len(out), len(sent) + reads)
        return out[len(sent) :]

    def change(self, instruction: str) -> None:
        """An instruction that changes the chip, behind Write Enable; then it is busy until the status says so no more."""
        self.do("06")
        self.assertEqual(self.do("05", 1), b"\x02")
        self.do(instruction)
        self.assertEqual(self.do("05", 4), bytes((3 & ~2, 1, 0, 0)))

    def test_it_tells_what_it_is(self) -> None:
        """JEDEC ID EF 40 14; Manufacturer/Device ID EF 13; Release Power-down / Device ID 13."""
        self.assertEqual(self.do("9f", 3), bytes.fromhex("ef4014"))
        self.assertEqual(self.do("90000000", 4), bytes.fromhex("ef13ef13"))
        self.assertEqual(self.do("90000001", 2), bytes.fromhex("13ef"))
        self.assertEqual(self.do("ab000000", 1), b"\x13")

    def test_it_is_read_from_an_address_on(self) -> None:
        self.assertEqual(self.do("03000ffe", 4), bytes.fromhex("feff0001"))
        self.assertEqual(self.do("030fffff", 3), bytes.fromhex("ff0001"))
        self.assertEqual(self.do("0b00000500", 2), bytes.fromhex("0506"))

    def test_a_read_in_pieces_goes_on(self) -> None:
        out = [self.chip.exchange(bytes.fromhex(it)) for it in ("0300", "0010", "0000", "000000")]
        self.chip.deselect()
        self.assertEqual(b"".join(out), b"\xff" * 4 + bytes.fromhex("1011121314"))
        self.assertEqual(self.do("9f", 1), b"\xef")

    def test_programming_clears_bits(self) -> None:
        self.change("02000103" + "0f" * 2)
        self.assertEqual(self.do("03000102", 4), bytes((2, 3 & 0x0F, 4 & 0x0F, 5)))
        self.assertEqual(self.path.read_bytes()[0x102:0x106], bytes((2, 3, 4, 5)))

    def test_programming_stays_in_its_page(self) -> None:
        """What goes beyond the page's end stands at its beginning; of more than 256 bytes the last 256 count."""
        self.change("d8000000")
        self.change("020001fe" + "01020304")
        self.assertEqual(self.do("030001fe", 4), bytes.fromhex("0102ffff"))
        self.assertEqual(self.do("03000100", 3), bytes.fromhex("0304ff"))
        self.change("02000300" + "aa" * 4 + "55" * 256)
        self.assertEqual(self.do("03000300", 257), b"\x55" * 256 + b"\xff")

    def test_each_erase_has_its_size(self) -> None:
        for instruction, begin, size in (("20001fff", 0x1000, 4096), ("52009000", 0x8000, 32768), ("d8023456", 0x20000, 65536)):
            self.change(instruction)
            self.assertEqual(self.path.read_bytes()[begin : begin + size], b"\xff" * size)
        data = self.path.read_bytes()
        self.assertEqual([data[at] for at in (0xFFF, 0x2000, 0x7FFF, 0x10000, 0x1FFFF, 0x30000)], [0xFF, 0, 0xFF, 0, 0xFF, 0])
        self.assertEqual(data.count(b"\xff" * 4096), 1 + 8 + 16)
        self.change("c7")
        self.assertEqual(self.path.read_bytes(), b"\xff" * SIZE)

    def test_without_write_enable_nothing_changes(self) -> None:
        before = self.path.read_bytes()
        for instruction in ("0200000000", "d8000000", "c7"):
            self.do(instruction)
        self.do("06")
        self.do("04")
        self.do("c7")
        self.assertEqual((self.path.read_bytes(), self.do("05", 1)), (before, b"\0"))

    def test_an_erase_without_its_whole_address_isnt_done(self) -> None:
        before = self.path.read_bytes()
        self.do("06")
        self.do("d80000")
        self.assertEqual((self.path.read_bytes(), self.do("05", 1)), (before, b"\x02"))

    def test_a_busy_chip_takes_no_other_instruction(self) -> None:
        self.do("06")
        self.do("20000000")
        self.assertEqual(self.do("9f", 3), b"\xff" * 3)
        self.do("06")
        self.assertEqual(self.do("05", 3), b"\1\1\0")

    def test_the_status_register_is_written(self) -> None:
        """Bits 7 to 2 are those that are written; BUSY and WEL aren't. The second register is 0."""
        self.change_status("01 1f")
        self.assertEqual(self.do("05", 3), b"\x1d\x1d\x1c")
        self.assertEqual(self.do("35", 1), b"\0")

    def change_status(self, instruction: str) -> None:
        """An instruction behind Write Enable."""
        self.do("06")
        self.do(instruction)

    def test_instructions_that_end_too_early_arent_done(self) -> None:
        before = self.path.read_bytes()
        for instruction in ("01", "02 000000", "02 0000"):
            self.change_status(instruction)
            self.assertEqual(self.do("05", 1), b"\x02", instruction)
        self.assertEqual(self.path.read_bytes(), before)


class Programmers(Files):
    def setUp(self) -> None:
        super().setUp()
        self.host = Host(Ch341a(str(self.path)))

    def test_a_chip_that_isnt_there_is_erased(self) -> None:
        self.assertEqual(self.path.read_bytes(), b"\xff" * SIZE)

    def test_a_file_of_another_size_is_refused(self) -> None:
        self.path.write_bytes(b"short")
        with self.assertRaisesRegex(ValueError, "5 bytes, and the chip has 1048576"):
            Ch341a(str(self.path))

    def test_bytes_for_spi_come_back_bits_reversed(self) -> None:
        self.host.write(0x02, b"\xa8" + reversed_bits(bytes.fromhex("9f000000")), 32)
        self.assertEqual(self.host.read(0x82, 32, 32), reversed_bits(bytes.fromhex("ffef4014")))
        self.assertEqual(self.host.ask("in 82 32"), "n")

    def test_the_chip_is_deselected_by_its_pin(self) -> None:
        """Levels 37 and 36: pin 0 goes high, and low again; END stands behind."""
        for instruction in ("06", "05 00"):
            self.host.write(0x02, bytes.fromhex("ab b7 b6 20"), 32)
            self.host.write(0x02, b"\xa8" + reversed_bits(bytes.fromhex(instruction)), 32)
            out = self.host.read(0x82, 32, 32)
        self.assertEqual(out, reversed_bits(b"\xff\x02"))

    def begin(self) -> None:
        """An instruction that is read from, and goes on."""
        self.host.write(0x02, b"\xa8" + reversed_bits(b"\x9f\0"), 32)
        self.assertEqual(self.host.read(0x82, 32, 32), reversed_bits(b"\xff\xef"))

    def goes_on(self) -> bool:
        """Whether the chip is still selected: it reads on, and else it has a new instruction, 00."""
        self.host.write(0x02, b"\xa8" + bytes(1), 32)
        return self.host.read(0x82, 32, 32) == reversed_bits(b"\x40")

    def test_other_steps_leave_the_chip_selected(self) -> None:
        """Levels whose pin 0 is low; pins that are read (00), directions (40), waits (C0), with the same bit."""
        for steps, expected in (("b6", True), ("01", True), ("41", True), ("c1", True), ("81", False), ("60 81", False), ("20 81", True),
                                ("a0 81", False), ("", True)):
            self.begin()
            self.host.write(0x02, bytes.fromhex(f"ab {steps}"), 32)
            self.assertEqual(self.goes_on(), expected, steps)
            self.host.write(0x02, bytes.fromhex("ab 81 20"), 32)

    def test_a_reset_deselects_the_chip(self) -> None:
        self.begin()
        self.host.tell("reset")
        self.assertFalse(self.goes_on())

    def test_its_descriptors(self) -> None:
        """As `lsusb -v` has those of a CH341A: class FF, 01, 02; 82 and 02 bulk of 32 bytes, 81 interrupt of 8."""
        lines = self.host.device.text(0).splitlines() if self.host.device else []
        self.assertEqual(lines[0], "device 0 0902270001010080320904000003ff010200" + "07050202200000" + "07058103080001" + "07058202200000")
        self.assertEqual(lines[1:], ["ids 0 1a86 5512 0304", "speed 0 full", "string 0 2 USB UART-LPT"])

    def test_what_stands_behind_the_end_isnt_done(self) -> None:
        self.host.write(0x02, b"\xa8" + reversed_bits(b"\x9f"), 32)
        self.host.write(0x02, bytes.fromhex("ab 20 b7"), 32)
        self.host.write(0x02, b"\xa8" + bytes(2), 32)
        self.host.read(0x82, 1, 32)
        self.assertEqual(self.host.read(0x82, 32, 32), reversed_bits(b"\xef\x40"))

    def test_the_speed_is_taken_and_another_stream_isnt(self) -> None:
        self.host.write(0x02, bytes.fromhex("aa 60 00"), 32)
        with self.assertRaises(Stalled):
            self.host.write(0x02, b"\x01", 32)
