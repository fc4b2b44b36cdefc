"""The key that answers challenges: HMAC by RFC 2202, check sums by CRC-16's catalogue, frames as ykpers writes them."""
from __future__ import annotations

import struct
import unittest
from typing import List

from tests.harness import DEVICES, Host, ProgramHost
from tirnouch.devices.yubikey import Yubikey, check_sum

SERIAL, CHALLENGE = 0x10, 0x38


class Keys(unittest.TestCase):
    def setUp(self) -> None:
        self.host = Host(Yubikey())

    def report(self) -> bytes:
        """GET_REPORT of the feature report."""
        return self.host.control(0xA1, 1, 0x0300, 0, 8)

    def write(self, slot: int, payload: bytes = b"", wrong: int = 0, leaves_zeros: bool = True) -> None:
        """A frame: 64 bytes, slot, check sum and filler, in ten pieces; those of zeros between the first and the last are left out."""
        whole = payload.ljust(64, b"\0")
        frame = whole + struct.pack("<BH", slot, check_sum(whole) ^ wrong) + bytes(3)
        pieces = [frame[at : at + 7] for at in range(0, 70, 7)]
        for number, piece in enumerate(pieces):
            if any(piece) or number in (0, 9) or not leaves_zeros:
                self.host.control(0x21, 9, 0x0300, 0, piece + bytes((0x80 | number,)))

    def answer(self) -> bytes:
        """The pieces of an answer: each has 40 and its number in its last byte, from 0 on, until the number is 0 again."""
        found: List[bytes] = []
        while True:
            piece = self.report()
            if piece[7] == 0x40 | 0 and found:
                return b"".join(found)
            self.assertEqual(piece[7], 0x40 | len(found))
            found.append(piece[:7])

    def test_check_sums(self) -> None:
        """CRC-16/MCRF4XX of "123456789" is 6F91; behind its own complement, the residue is F0B8."""
        self.assertEqual(check_sum(b"123456789"), 0x6F91)
        self.assertEqual(check_sum(b"123456789" + struct.pack("<H", 0x6F91 ^ 0xFFFF)), 0xF0B8)

    def test_the_status(self) -> None:
        """ykdef.h: behind the first byte stand version, sequence and touch level, whose bit 1 is CONFIG2_VALID; nothing is pending."""
        self.assertEqual(self.report(), bytes((0, 4, 3, 1, 1, 2, 0, 0)))

    def test_the_serial_number(self) -> None:
        """Its highest byte comes first."""
        self.write(SERIAL)
        answer = self.answer()
        self.assertEqual((answer[:4], check_sum(answer[:6])), ((1234567).to_bytes(4, "big"), 0xF0B8))
        self.assertEqual(self.report()[7], 0)

    def test_a_challenge_by_rfc_2202(self) -> None:
        """Test case 1: the key is 20 bytes of 0B, the data "Hi There"."""
        for leaves_zeros in (True, False):
            self.write(CHALLENGE, b"Hi There", leaves_zeros=leaves_zeros)
            answer = self.answer()
            self.assertEqual(answer[:20].hex(), "b617318655057264e28bc0b6fb378c8ef146be00")
            self.assertEqual((check_sum(answer[:22]), len(answer)), (0xF0B8, 28))

    def test_another_key_by_rfc_2202(self) -> None:
        """Test case 2: the key is "Jefe"."""
        self.host = Host(Yubikey("1", b"Jefe".hex()))
        self.write(CHALLENGE, b"what do ya want for nothing?")
        self.assertEqual(self.answer()[:20].hex(), "effcdf6ae5eb2fa2d27416d5f184df9c259a7c79")

    def test_what_isnt_a_frame_gets_no_answer(self) -> None:
        for slot, wrong in ((SERIAL, 1), (0x30, 0), (0x7F, 0)):
            self.write(slot, wrong=wrong)
            self.assertEqual(self.report()[7], 0, slot)
        for data in (bytes(8), b"short", bytes(7) + b"\x8a"):
            self.host.control(0x21, 9, 0x0300, 0, data)
            self.assertEqual(self.report()[7], 0)

    def test_pieces_that_arent_written_leave_a_frame_as_it_is(self) -> None:
        """Without 80 in its last byte a piece isn't one, nor where it hasn't 8 bytes."""
        self.host.control(0x21, 9, 0x0300, 0, b"Hi The" + b"r\x80")
        for data in (b"abcdefg\x00", b"abcdefg\x09", b"abc\x80"):
            self.host.control(0x21, 9, 0x0300, 0, data)
        frame = (b"Hi There".ljust(64, b"\0") + struct.pack("<BH", CHALLENGE, check_sum(b"Hi There".ljust(64, b"\0")))).ljust(70, b"\0")
        for number in (1, 9):
            self.host.control(0x21, 9, 0x0300, 0, frame[7 * number : 7 * number + 7] + bytes((0x80 | number,)))
        self.assertEqual(self.answer()[:20].hex(), "b617318655057264e28bc0b6fb378c8ef146be00")

    def test_a_frame_that_was_left_begins_anew(self) -> None:
        """By 8F, and by another first piece."""
        for end in (b"\x8f", b"\x80"):
            self.host.control(0x21, 9, 0x0300, 0, b"abcdefg\x81")
            self.host.control(0x21, 9, 0x0300, 0, bytes(7) + end)
            self.write(SERIAL)
            self.assertEqual(self.answer()[:4], (1234567).to_bytes(4, "big"))

    def test_an_answer_is_left_by_a_write(self) -> None:
        """DUMMY_REPORT_WRITE, 8F."""
        self.write(SERIAL)
        self.report()
        self.host.control(0x21, 9, 0x0300, 0, bytes(7) + b"\x8f")
        self.assertEqual(self.report()[7], 0)

    def test_a_reset_forgets_an_answer(self) -> None:
        for event in ("reset", "plugged"):
            self.write(SERIAL)
            self.host.tell(event)
            self.assertEqual(self.report()[7], 0)

    def test_it_may_be_idle(self) -> None:
        """HID 1.11, 7.2.4: SET_IDLE, of any duration. It types nothing."""
        self.host.control(0x21, 0x0A, 0x0500, 0)
        self.assertEqual(self.host.ask("in 81 8"), "n")

    def test_other_reports_are_refused(self) -> None:
        """HID 1.11, 7.2.1: an input report isn't asked for so here; the descriptors answer, by a stall."""
        self.assertEqual(self.host.ask("control a101000100000800"), "t")

    def test_it_is_a_keyboard(self) -> None:
        """HID 1.11, 4.2 and 4.3: class 3, boot, keyboard; 6.2.1: the report descriptor's length stands in the HID descriptor."""
        program = ProgramHost(str(DEVICES / "yubikey.py"))
        lines = program.hello()
        configuration = bytes.fromhex(lines[0].split(" ")[2])
        report = program.control(0x81, 6, 0x2200, 0, 255)
        program.end()
        self.assertEqual(configuration[14:17], b"\3\1\1")
        self.assertEqual(configuration[18:27], bytes((9, 0x21, 0x11, 1, 0, 1, 0x22, len(report), 0)))
        self.assertEqual(configuration[27:].hex(), "0705810308000a")
        self.assertEqual((report[:6].hex(), report[-1]), ("05010906a101", 0xC0))
        self.assertEqual(lines[1:3], ["ids 0 1050 0010 0431", "speed 0 full"])

    def test_keys_that_arent_hexadecimal_end_it(self) -> None:
        program = ProgramHost(str(DEVICES / "yubikey.py"), "1", "key")
        self.assertIsNone(program.hear())
        self.assertIn("non-hexadecimal number", program.end()[1])
