"""Instruments by USBTMC 1.0: transfers by 3.2, requests by 4.2.1; the status byte by USB488, 4.3.1."""
from __future__ import annotations

import struct
import unittest
from typing import Tuple

from tests.drivers import drive, lacking_driver
from tests.harness import Host, Stalled
from tirnouch.scpi import command
from tirnouch.usbtmc import Usbtmc

SUCCESS, FAILED, NOT_IN_PROGRESS = 0x01, 0x80, 0x81


class Meter(Usbtmc):
    """Packets of 64 bytes."""

    speed = "full"
    answers = {"*IDN?": "ACME,PM-1,0,1.0", "LONG?": "x" * 99, "PART?": "a;b;c"}

    @command("VOLTage?", takes=30)
    def volts(self) -> float:
        """They take some time."""
        return 2.5


def head(kind: int, tag: int, length: int, attributes: int, character: int = 0) -> bytes:
    """A header (tables 1 and 3, or 1 and 4)."""
    return struct.pack("<BBBBIBBH", kind, tag, tag ^ 0xFF, 0, length, attributes, character, 0)


class Meters(unittest.TestCase):
    def setUp(self) -> None:
        self.device = Meter()
        self.host = Host(self.device)

    def tell(self, tag: int, text: bytes, is_last: bool = True) -> None:
        """A message, or a part of it."""
        data = head(1, tag, len(text), int(is_last)) + text
        self.host.write(0x02, data.ljust((len(data) + 3) // 4 * 4, b"\0"), 64)

    def fetch(self, tag: int, length: int = 256, attributes: int = 0, character: int = 0) -> Tuple[bytes, int]:
        """An answer, or a part of it, and its attributes."""
        self.host.write(0x02, head(2, tag, length, attributes, character), 64)
        data = self.host.read(0x81, 512, 64)
        size, found = struct.unpack_from("<IB", data, 4)
        self.assertEqual((data[:4], data[9:12], len(data) % 4), (bytes((2, tag, tag ^ 0xFF, 0)), bytes(3), 0))
        self.assertEqual(len(data), (12 + size + 3) // 4 * 4)
        return data[12 : 12 + size], found

    def refuses(self, data: bytes) -> None:
        """A transfer halts the endpoint, and nothing is done; a message behind it is."""
        with self.assertRaises(Stalled):
            self.host.write(0x02, data, 64)
        self.tell(99, b"*IDN?")
        self.assertEqual(self.fetch(100), (b"ACME,PM-1,0,1.0\n", 1))


class Transfers(Meters):
    def test_a_question_and_its_answer(self) -> None:
        for text in (b"*IDN?", b"*IDN?\n", b"*IDN?\r\n"):
            self.tell(1, text)
            self.assertEqual(self.fetch(2), (b"ACME,PM-1,0,1.0\n", 1))
        self.assertEqual(self.host.ask("in 81 64"), "n")

    def test_a_message_in_two_transfers_and_many_packets(self) -> None:
        """EOM stands in the last one alone (table 3)."""
        self.tell(1, b"NO" + b"T" * 200, False)
        self.tell(2, b"HERE;*ID", False)
        self.tell(3, b"N?")
        self.assertEqual(self.fetch(4), (b"ACME,PM-1,0,1.0\n", 1))
        self.assertEqual([it.number for it in self.device.errors], [-113])

    def test_an_answer_in_parts(self) -> None:
        """No more than was asked for, and EOM at its end (table 9); 52 and 12 bytes fill a packet, which an empty one ends."""
        self.tell(1, b"LONG?")
        self.assertEqual([self.fetch(2, 52), self.fetch(3, 47), self.fetch(4, 256)], [(b"x" * 52, 0), (b"x" * 47, 0), (b"\n", 1)])

    def test_an_answer_that_ends_at_a_character(self) -> None:
        """Bit 1: TermCharEnabled of a request, and that the character ended it of an answer."""
        self.tell(1, b"PART?")
        self.assertEqual([self.fetch(tag, 256, 2, ord(";")) for tag in (2, 3, 4)], [(b"a;", 2), (b"b;", 2), (b"c\n", 1)])

    def test_an_answer_that_is_asked_for_before_it_is_there(self) -> None:
        self.host.write(0x02, head(2, 1, 256, 0), 64)
        self.assertEqual(self.host.ask("in 81 64"), "n")
        self.tell(2, b"*IDN?")
        self.assertEqual(self.host.read(0x81, 512, 64)[:2], b"\2\1")

    def test_an_answer_takes_its_time(self) -> None:
        self.tell(1, b"VOLT?")
        self.assertEqual((self.fetch(2), self.host.waited), ((b"2.5\n", 1), 30))

    def test_transfers_that_arent_whole_or_sound(self) -> None:
        """3.2: bTag is 1 to 255 and its inverse stands beside it; TransferSize is more than 0; the data are there."""
        good = head(1, 1, 5, 1) + b"*IDN?"
        for bad in (good[:11], head(3, 1, 5, 1), head(1, 0, 5, 1) + b"*IDN?", good[:2] + b"\0" + good[3:], head(1, 1, 0, 1),
                    head(1, 1, 9, 1) + b"*", head(1, 1, 100, 1) + bytes(99), b"", head(2, 1, 0, 0)):
            self.refuses(bad)

    def test_a_second_request_for_an_answer_halts_the_endpoint(self) -> None:
        self.host.write(0x02, head(2, 1, 256, 0), 64)
        with self.assertRaises(Stalled):
            self.host.write(0x02, head(2, 2, 256, 0), 64)

    def test_a_reset_begins_anew(self) -> None:
        for event in ("reset", "plugged"):
            self.tell(1, b"*IDN?")
            self.host.write(0x02, head(1, 2, 100, 1) + bytes(52), 64)
            self.host.tell(event)
            self.tell(3, b"PART?")
            self.assertEqual(self.fetch(4), (b"a;b;c\n", 1))


class Requests(Meters):
    def halts(self) -> None:
        """02 is halted, until that is cleared."""
        with self.assertRaises(Stalled):
            self.tell(50, b"*IDN?")
        self.host.tell("cleared 02")

    def test_capabilities(self) -> None:
        """Tables 36 and 37; USB488, table 8: 24 bytes, versions 1.00 at 2 and at 12."""
        data = self.host.control(0xA1, 7, 0, 0, 24)
        self.assertEqual((len(data), data[:6], data[12:14]), (24, bytes((SUCCESS, 0, 0, 1, 0, 1)), b"\0\1"))
        self.assertEqual(self.device.configuration()[9:18].hex(), "0904000002fe030100")

    def test_a_clear(self) -> None:
        self.tell(1, b"LONG?")
        self.fetch(2, 10)
        self.tell(3, b"*IDN?")
        self.tell(4, b"NOT", False)
        self.assertEqual((self.host.control(0xA1, 5, 0, 0, 1), self.host.control(0xA1, 6, 0, 0, 2)), (b"\1", b"\1\0"))
        self.halts()
        self.tell(5, b"PART?")
        self.assertEqual(self.fetch(6), (b"a;b;c\n", 1))

    def test_a_halt_that_is_cleared_before_a_packet_is_over(self) -> None:
        self.host.control(0xA1, 5, 0, 0, 1)
        self.host.tell("cleared 02")
        self.tell(5, b"PART?")
        self.assertEqual(self.fetch(6), (b"a;b;c\n", 1))

    def test_a_message_is_aborted(self) -> None:
        """4.2.1.2: FAILED where no transfer is in progress, with the tag of the last one; NOT_IN_PROGRESS for another tag."""
        self.tell(7, b"*CLS")
        self.assertEqual(self.host.control(0xA2, 1, 7, 0x02, 2), bytes((FAILED, 7)))
        self.host.write(0x02, head(1, 8, 100, 1) + bytes(52), 64)
        self.assertEqual(self.host.control(0xA2, 1, 7, 0x02, 2), bytes((NOT_IN_PROGRESS, 8)))
        self.assertEqual(self.host.control(0xA2, 1, 8, 0x02, 2), bytes((SUCCESS, 8)))
        self.assertEqual(self.host.control(0xA2, 2, 0, 0x02, 8)[0], SUCCESS)
        self.halts()
        self.tell(9, b"*IDN?")
        self.assertEqual(self.fetch(10)[1], 1)

    def test_an_answer_is_aborted(self) -> None:
        """4.2.1.4."""
        self.assertEqual(self.host.control(0xA2, 3, 1, 0x81, 2)[0], FAILED)
        self.host.write(0x02, head(2, 5, 256, 0), 64)
        self.assertEqual(self.host.control(0xA2, 3, 4, 0x81, 2), bytes((NOT_IN_PROGRESS, 5)))
        self.assertEqual(self.host.control(0xA2, 3, 5, 0x81, 2), bytes((SUCCESS, 5)))
        self.assertEqual(self.host.control(0xA2, 4, 0, 0x81, 8)[0], SUCCESS)
        self.tell(6, b"*IDN?")
        self.assertEqual(self.host.ask("in 81 64"), "n")
        self.assertEqual(self.fetch(7)[1], 1)

    def test_a_status_byte(self) -> None:
        """Bit 2: the error queue isn't empty; bit 4: MAV. Its tag is 2 to 127."""
        self.assertEqual(self.host.control(0xA1, 128, 2, 0, 3), bytes((SUCCESS, 2, 0)))
        self.tell(1, b"BAD;*IDN?")
        self.assertEqual(self.host.control(0xA1, 128, 127, 0, 3), bytes((SUCCESS, 127, 0x14)))
        self.fetch(2)
        self.assertEqual(self.host.control(0xA1, 128, 3, 0, 3), bytes((SUCCESS, 3, 0x04)))
        for tag in (1, 128):
            with self.assertRaises(Stalled):
                self.host.control(0xA1, 128, tag, 0, 3)


class Drivers(unittest.TestCase):
    @unittest.skipIf(lacking_driver("usb.core"), lacking_driver("usb.core") or "")
    def test_by_pyusb(self) -> None:
        drive("usbtmc_pyusb.py", "usb.core")

    @unittest.skipIf(lacking_driver("pyvisa_py"), lacking_driver("pyvisa_py") or "")
    def test_by_pyvisa(self) -> None:
        drive("usbtmc_pyvisa.py", "pyvisa_py")
