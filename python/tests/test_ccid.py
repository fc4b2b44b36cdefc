"""The reader by USB Chip/Smart Card Interface Devices 1.1, and its card by ISO/IEC 7816-3 and -4."""
from __future__ import annotations

import hashlib
import hmac
import struct
import unittest
from typing import Tuple

from tests.harness import DEVICES, Host, ProgramHost
from tirnouch.devices.card import Card
from tirnouch.devices.ccid import Reader

SELECT = bytes.fromhex("00a4040009f07469726e6f756368")
PIN = bytes.fromhex("0020000106") + b"123456"


class Cards(unittest.TestCase):
    """A response's data, and its status word."""

    def setUp(self) -> None:
        self.card = Card()

    def status(self, apdu: bytes) -> str:
        """The status word of a response without data."""
        answer = self.card.answer(apdu)
        self.assertEqual(len(answer), 2)
        return answer.hex()

    def test_its_answer_to_a_reset(self) -> None:
        """ISO/IEC 7816-3, 8.2: TS 3B; T0 80, TD1 follows; TD1 01, T=1 alone; TCK makes the exclusive or from T0 on 0."""
        atr = self.card.power_on()
        self.assertEqual((atr[0], atr[1], atr[2], atr[1] ^ atr[2] ^ atr[3]), (0x3B, 0x80, 0x01, 0))

    def test_an_application_is_selected_by_its_name(self) -> None:
        """6F is the template of file control information, 84 the name."""
        self.assertEqual(self.card.answer(SELECT), bytes.fromhex("6f0b8409f07469726e6f7563689000"))
        self.assertEqual(self.card.answer(bytes.fromhex("00a4040c02f074")), bytes.fromhex("9000"))

    def test_names_that_arent_there(self) -> None:
        for apdu, status in (("00a4040005f000000001", "6a82"), ("00a404000af07469726e6f75636800", "6a82"), ("00a40400", "6a82"),
                             ("00a4000002f074", "6a86"), ("00a4040102f074", "6a86")):
            self.assertEqual(self.status(bytes.fromhex(apdu)), status, apdu)

    def test_wrong_commands_have_their_status_words(self) -> None:
        """6E00 the class, 6D00 the instruction, 6700 the length."""
        for apdu, status in (("0084010008", "6a86"), ("0084000108", "6a86"), ("80a4040000", "6e00"), ("00ff0000", "6d00"),
                             ("00a404", "6700"), ("", "6700"), ("00a40400030102", "6700"), ("00a404000001", "6700"),
                             ("00a4040001020304", "6700"), ("00840000", "6700")):
            self.assertEqual(self.status(bytes.fromhex(apdu)), status, apdu)

    def test_a_file_is_read(self) -> None:
        self.assertEqual(self.status(bytes.fromhex("00b0000000")), "6985")
        self.card.answer(SELECT)
        self.assertEqual(self.card.answer(bytes.fromhex("00b0000000")), b"a file of the card\x90\x00")
        self.assertEqual(self.card.answer(bytes.fromhex("00b0000204")), b"file\x90\x00")
        for apdu, status in (("00b0001201", "6b00"), ("00b0800001", "6b00"), ("00b00000", "6700")):
            self.assertEqual(self.status(bytes.fromhex(apdu)), status)

    def test_a_pin_has_three_tries(self) -> None:
        """63Cx has x tries left; 6983 is blocked."""
        wrong = bytes.fromhex("0020000106") + b"000000"
        self.assertEqual(self.status(PIN), "6985")
        self.card.answer(SELECT)
        self.assertEqual([self.status(it) for it in (bytes.fromhex("00200001"), wrong, bytes.fromhex("00200001"), PIN)],
                         ["63c3", "63c2", "63c2", "9000"])
        self.assertEqual(self.status(bytes.fromhex("00200001")), "9000")
        self.assertEqual([self.status(wrong) for _ in range(4)], ["63c2", "63c1", "63c0", "6983"])
        self.card.power_on()
        self.card.answer(SELECT)
        self.assertEqual(self.status(PIN), "6983")
        self.assertEqual(self.status(bytes.fromhex("00200002")), "6a86")

    def test_a_challenge_is_answered_behind_the_pin(self) -> None:
        challenge = self.card.answer(bytes.fromhex("0084000008"))
        self.assertEqual((len(challenge), challenge[-2:]), (10, b"\x90\x00"))
        self.assertNotEqual(challenge, self.card.answer(bytes.fromhex("0084000008")))
        asked = bytes.fromhex("0088000008") + challenge[:8] + b"\x20"
        self.card.answer(SELECT)
        self.assertEqual(self.status(asked), "6982")
        self.card.answer(PIN)
        digest = hmac.new(b"tirnouch's key", challenge[:8], hashlib.sha256).digest()
        self.assertEqual(self.card.answer(asked), digest + b"\x90\x00")
        self.assertEqual(self.card.answer(asked[:-1] + b"\4"), digest[:4] + b"\x90\x00")
        self.assertEqual((self.status(asked[:-1]), self.status(bytes.fromhex("0088000000"))), ("6700", "6700"))
        self.assertEqual(len(self.card.answer(bytes.fromhex("0084000000"))), 32 + 2)
        self.card.answer(SELECT)
        self.assertEqual(self.status(asked), "6982")


class Readers(unittest.TestCase):
    """A message has its type, the length behind its head, slot, number, and three bytes of its own (6.1 and 6.2)."""

    def setUp(self) -> None:
        self.host = Host(Reader())
        self.number = 0

    def send(self, kind: int, data: bytes = b"", slot: int = 0, own: bytes = b"\0\0\0") -> None:
        """A message of the host's."""
        self.number = (self.number + 1) & 0xFF
        self.host.write(0x02, struct.pack("<BIBB", kind, len(data), slot, self.number) + own + data, 64)

    def receive(self, slot: int = 0) -> Tuple[int, int, int, int, bytes]:
        """The answer: its type, bStatus, bError, its last byte, and its data."""
        answer = self.host.read(0x81, 271, 64)
        kind, length, at, number, status, error, last = struct.unpack("<BIBBBBB", answer[:10])
        self.assertEqual((at, number, length), (slot, self.number, len(answer) - 10))
        return kind, status, error, last, answer[10:]

    def ask(self, kind: int, data: bytes = b"", slot: int = 0, own: bytes = b"\0\0\0") -> Tuple[int, int, int, int, bytes]:
        """A message, and its answer."""
        self.send(kind, data, slot, own)
        return self.receive(slot)

    def test_the_slots_status(self) -> None:
        """6.2.6: bmICCStatus is 0 where the card is active, 1 where it has no power."""
        self.assertEqual(self.ask(0x65), (0x81, 1, 0, 0, b""))
        self.ask(0x62)
        self.assertEqual(self.ask(0x65), (0x81, 0, 0, 0, b""))
        self.assertEqual(self.ask(0x63), (0x81, 1, 0, 0, b""))

    def test_power_gives_the_answer_to_a_reset(self) -> None:
        self.assertEqual(self.ask(0x62), (0x80, 0, 0, 0, bytes.fromhex("3b800181")))

    def test_a_command_goes_to_the_card(self) -> None:
        self.ask(0x62)
        self.assertEqual(self.ask(0x6F, SELECT), (0x80, 0, 0, 0, bytes.fromhex("6f0b8409f07469726e6f7563689000")))

    def test_a_card_without_power_is_mute(self) -> None:
        """6.2.6: a command that failed, and ICC_MUTE."""
        self.assertEqual(self.ask(0x6F, SELECT), (0x80, 0x41, 0xFE, 0, b""))

    def test_power_off_forgets_the_application(self) -> None:
        for kind, data in ((0x62, b""), (0x6F, SELECT), (0x63, b""), (0x62, b"")):
            self.ask(kind, data)
        self.assertEqual(self.ask(0x6F, bytes.fromhex("00b0000000"))[4], bytes.fromhex("6985"))

    def test_parameters_are_those_of_t_1(self) -> None:
        """6.2.3: bProtocolNum 1; Fi/Di 11, LRC, waiting integers 4D, IFSC 254 (6.1.7)."""
        expected = (0x82, 1, 0, 1, bytes.fromhex("1110004d00fe00"))
        self.assertEqual(self.ask(0x6C), expected)
        self.assertEqual(self.ask(0x6D), expected)
        self.assertEqual(self.ask(0x61, bytes.fromhex("1110004d00fe00"), own=b"\1\0\0"), expected)
        self.assertEqual(self.ask(0x61, bytes(5), own=b"\0\0\0"), (0x82, 0x41, 7, 1, b""))

    def test_messages_that_are_wrong(self) -> None:
        """6.2.6: error 0 is a command that isn't supported, others are the offset of the field: dwLength at 1, bSlot at 5."""
        self.assertEqual(self.ask(0x69), (0x81, 0x41, 0, 0, b""))
        self.assertEqual(self.ask(0x65, slot=1), (0x81, 0x41, 5, 0, b""))
        self.assertEqual(self.ask(0x6F, bytes(262)), (0x80, 0x41, 1, 0, b""))
        self.number += 1
        self.host.write(0x02, struct.pack("<BIBB", 0x6F, 20, 0, self.number) + bytes(3) + b"short", 64)
        self.assertEqual(self.receive(), (0x80, 0x41, 1, 0, b""))

    def test_a_long_message_comes_in_packets(self) -> None:
        self.ask(0x62)
        self.assertEqual(self.ask(0x6F, bytes.fromhex("00a40400f0") + bytes(240))[4], bytes.fromhex("6a82"))

    def test_the_longest_message_and_one_that_fills_a_packet(self) -> None:
        """A message ends where its length says so, without an empty packet behind it."""
        self.ask(0x62)
        self.assertEqual(self.ask(0x6F, bytes.fromhex("00ff0000ff") + bytes(256))[:3], (0x80, 0, 0))
        self.assertEqual(self.ask(0x6F, bytes.fromhex("00ff000031") + bytes(49))[4], bytes.fromhex("6d00"))

    def test_an_answer_that_fills_its_last_packet_is_ended(self) -> None:
        """10 bytes of head, 52 of data and 2 of the status word are 64, and an empty packet follows (USB 2.0, 5.8.3)."""
        device = self.host.device
        assert isinstance(device, Reader)
        device.card.content = bytes(52)
        self.ask(0x62)
        self.ask(0x6F, SELECT)
        self.assertEqual(self.ask(0x6F, bytes.fromhex("00b0000000"))[4], bytes(52) + b"\x90\x00")
        self.assertEqual(device.waiting(0x81), 0)

    def test_a_card_is_told_once(self) -> None:
        """6.3.1: RDR_to_PC_NotifySlotChange, slot 0: a card is present, and that changed; and anew behind a reset."""
        self.assertEqual([self.host.ask("in 83 8") for _ in range(2)], ["d:5003", "n"])
        for event in ("reset", "plugged"):
            self.ask(0x62)
            self.host.tell(event)
            self.assertEqual([self.host.ask("in 83 8") for _ in range(2)], ["d:5003", "n"])
            self.assertEqual(self.ask(0x65), (0x81, 1, 0, 0, b""))

    def test_its_descriptor(self) -> None:
        """5.1: 54 bytes of type 21, version 1.1, slot 0, all voltages, T=1; 4,000 kHz; 10,752 bits a second; IFSD 254; no synchronous
        protocols, nothing mechanical; short commands, and all that is automatic; 271 bytes a message; no classes of its own, no display, no
        keypad, one slot at a time. Interrupts have 8 bytes."""
        program = ProgramHost(str(DEVICES / "ccid.py"), "04e6:5116")
        lines = program.hello()
        program.end()
        functional = ("3621 1001 00 07 02000000" "a00f0000 a00f0000 00" "002a0000 002a0000 00" "fe000000" "00000000 00000000"
                      "7a040200" "0f010000" "ff ff 0000 00 01")
        configuration = ("0902 5d00 0101008032" "0904 00 00 03 0b0000 00" + functional
                         + "0705 02 02 4000 00" "0705 81 02 4000 00" "0705 83 03 0800 10")
        self.assertEqual(lines[0], "device 0 " + configuration.replace(" ", ""))
        self.assertEqual(lines[1:3], ["ids 0 04e6 5116 0100", "speed 0 full"])

    def test_an_abort_forgets_half_a_message(self) -> None:
        self.host.write(0x02, struct.pack("<BIBB", 0x6F, 200, 0, 1) + bytes(57), 64)
        self.host.control(0x21, 1, 0x0100, 0)
        self.assertEqual(self.ask(0x65)[0], 0x81)

    def test_a_reset_forgets_half_a_message(self) -> None:
        for event in ("reset", "plugged"):
            self.host.write(0x02, struct.pack("<BIBB", 0x6F, 200, 0, 1) + bytes(57), 64)
            self.host.tell(event)
            self.assertEqual(self.ask(0x65), (0x81, 1, 0, 0, b""))

    def test_a_clock_frequency_isnt_told(self) -> None:
        """5.3: a reader that finds its clock by itself needn't have GET_CLOCK_FREQUENCIES: the descriptors answer, by a stall."""
        self.assertEqual(self.host.ask("control a102000000000400"), "t")
