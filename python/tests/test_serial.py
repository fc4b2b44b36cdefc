"""Serial ports: CDC 1.2 for their descriptors, PSTN 1.2 for requests and notifications."""
from __future__ import annotations

import struct
import unittest
from typing import Any, Dict, List, Optional, Tuple, Type

from tests.drivers import drive, lacking_driver
from tests.harness import Host, Stalled, told
from tirnouch import NAK, STALL, Answer, Device, bulk_in, bulk_out, interrupt_in
from tirnouch.serial import Coding, Serial


class Port(Serial):
    """It keeps what it is told, and answers each line but an empty one."""

    speed = "full"

    def __init__(self) -> None:
        self.got: List[Any] = []
        self.answer: Optional[Answer] = None

    def line(self, text: str) -> Optional[str]:
        self.got.append(text)
        return text.upper() or None

    def on_coding(self, coding: Coding) -> Optional[Answer]:
        self.got.append(coding)
        return self.answer

    def on_signals(self, dtr: bool, rts: bool) -> None:
        self.got.append((dtr, rts))

    def on_break(self, milliseconds: Optional[int]) -> None:
        self.got.append(milliseconds)


class Ports(unittest.TestCase):
    def setUp(self) -> None:
        self.device = Port()
        self.host = Host(self.device)


class Lines(Ports):
    def test_lines_in_packets_of_any_length(self) -> None:
        """A line ends with CR, LF or both, also where a packet parts them; an empty line is one."""
        for packet in (b"a", b"b\rc\r", b"\nd\n\n", b"e\r\n\r\nf", b"\n"):
            self.host.write(0x02, packet, 64)
        self.assertEqual(self.device.got, ["ab", "c", "d", "", "e", "", "f"])
        self.assertEqual(b"".join(self.host.read(0x81, 64, 64) for _ in range(5)), b"AB\r\nC\r\nD\r\nE\r\nF\r\n")
        self.assertEqual(self.host.ask("in 81 64"), "n")

    def test_an_answer_that_fills_a_packet_is_ended_by_an_empty_one(self) -> None:
        """USB 2.0, 5.8.3."""
        self.host.write(0x02, b"x" * 62 + b"\n", 64)
        self.assertEqual(self.host.read(0x81, 512, 64), b"X" * 62 + b"\r\n")

    def test_bytes_that_are_no_letters_stand_as_escapes(self) -> None:
        self.host.write(0x02, b"a\xff\n", 64)
        self.assertEqual(self.device.got, ["a\\xff"])

    def test_another_end_and_another_encoding(self) -> None:
        class Other(Port):
            end, encoding = "\n", "utf-8"

        host = Host(Other())
        host.write(0x02, "größe\r".encode(), 64)
        self.assertEqual(host.read(0x81, 64, 64), "GRÖSSE\n".encode())

    def test_a_text_that_the_encoding_hasnt_is_refused(self) -> None:
        with self.assertRaises(UnicodeEncodeError):
            self.device.write("ö")
        with self.assertRaisesRegex(TypeError, "Port: what is written is bytes, and not int"):
            self.device.write(5)  # type: ignore[arg-type]
        self.device.write("")
        self.assertEqual(self.host.ask("in 81 64"), "n")

    def test_a_class_may_take_bytes(self) -> None:
        class Raw(Port):
            def received(self, data: bytes) -> Optional[Answer]:
                self.got.append(data)
                return self.answer

        device = Raw()
        host = Host(device)
        device.answer = NAK
        self.assertEqual(host.ask("out 02 61"), "n")
        device.answer = None
        host.write(0x02, b"a\n", 64)
        host.write(0x02, b"", 64)
        self.assertEqual(device.got, [b"a", b"a\n"])

    def test_a_reset_forgets_half_a_line(self) -> None:
        for event in ("reset", "plugged"):
            self.host.write(0x02, b"half", 64)
            self.host.tell(event)
            self.host.write(0x02, b"whole\n", 64)
        self.assertEqual(self.device.got, ["whole", "whole"])

    def test_a_bug_in_a_line_is_told(self) -> None:
        class Bug(Port):
            def line(self, text: str) -> Optional[str]:
                raise KeyError(text)

        with told() as errors:
            Host(Bug()).ask("out 02 610a")
        self.assertIn("KeyError: 'a'", errors.getvalue())


class Requests(Ports):
    def test_the_lines_coding(self) -> None:
        """Table 17: dwDTERate, bCharFormat, bParityType, bDataBits; 9600 baud, 8N1 at first."""
        self.assertEqual(self.host.control(0xA1, 0x21, 0, 0, 7).hex(), "80250000000008")
        data = struct.pack("<IBBB", 19200, 2, 1, 7)
        self.host.control(0x21, 0x20, 0, 0, data)
        self.assertEqual(self.host.control(0xA1, 0x21, 0, 0, 7), data)
        self.assertEqual((self.device.got, self.device.coding), ([Coding(19200, 2, 1, 7)], Coding(19200, 2, 1, 7)))

    def test_a_coding_that_no_line_can_have_is_refused(self) -> None:
        for data in (struct.pack("<IBBB", 0, 0, 0, 8), struct.pack("<IBBB", 1, 3, 0, 8), struct.pack("<IBBB", 1, 0, 5, 8),
                     struct.pack("<IBBB", 1, 0, 0, 9), bytes(6), b""):
            with self.assertRaises(Stalled):
                self.host.control(0x21, 0x20, 0, 0, data)
        self.device.answer = STALL
        with self.assertRaises(Stalled):
            self.host.control(0x21, 0x20, 0, 0, struct.pack("<IBBB", 300, 0, 0, 8))
        self.assertEqual((self.device.got, self.device.coding), ([Coding(300)], Coding()))

    def test_signals(self) -> None:
        """Table 18: DTR is bit 0, RTS bit 1."""
        for value, expected in ((1, (True, False)), (2, (False, True)), (3, (True, True)), (0, (False, False))):
            self.host.control(0x21, 0x22, value, 0)
            self.assertEqual((self.device.dtr, self.device.rts), expected)
        self.assertEqual(self.device.got, [(True, False), (False, True), (True, True), (False, False)])

    def test_a_break(self) -> None:
        """6.3.13: FFFF lasts until 0."""
        for value in (250, 0xFFFF, 0):
            self.host.control(0x21, 0x23, value, 0)
        self.assertEqual(self.device.got, [250, None, 0])

    def test_a_reset_begins_anew(self) -> None:
        self.host.control(0x21, 0x22, 3, 0)
        self.host.control(0x21, 0x20, 0, 0, struct.pack("<IBBB", 300, 0, 0, 8))
        self.host.tell("reset")
        self.assertEqual((self.device.dtr, self.device.rts, self.device.coding), (False, False, Coding()))


class Notifications(Ports):
    def test_each_bit_of_the_state(self) -> None:
        """Table 31: from bit 0 on, received carrier, transmission carrier, break, ring, framing, parity, overrun."""
        words = ("carrier", "ready", "is_broken", "ring", "framing", "parity", "overrun")
        for bit, word in enumerate(words):
            self.device.notify(**{word: True})
            self.assertEqual(self.host.read(0x83, 16, 16), bytes((0xA1, 0x20, 0, 0, 0, 0, 2, 0, 1 << bit, 0)), word)
        self.device.notify()
        self.assertEqual(self.host.read(0x83, 16, 16)[8:], b"\0\0")

    def test_a_device_without_notifications(self) -> None:
        class Silent(Port):
            notifications = None

        with self.assertRaisesRegex(RuntimeError, r"Silent: `notifications` is None: .* as interrupt_in\(0x83\)"):
            Silent().notify(carrier=True)
        self.assertEqual(Silent().configuration()[9 + 4], 0)


class Classes(unittest.TestCase):
    def test_what_a_device_says_of_itself(self) -> None:
        """CDC 1.2: class 2, abstract control, AT commands; header 1.20, call management, capabilities 6, a union of 0 and 1; class A."""
        text = Port().text()
        self.assertIn("class 0 02 00 00\n", text)
        self.assertEqual(Port().configuration()[4:].hex(),
                         "0201008032" "090400000102020100" "0524002001" "0524010001" "04240206" "0524060001" "07058303100004"
                         "09040100020a000000" "07050202400000" "07058102400000")

    def test_what_is_refused_where_a_class_is_made(self) -> None:
        wrong: List[Tuple[Dict[str, Any], Type[Exception], str]] = [
            ({"end": "\t"}, ValueError, r"Wrong: `end` is '\\n' or '\\r' or '\\r\\n', and not '\\t'"),
            ({"end": b"\n"}, TypeError, r'Wrong: `end` is a str, "\\n", "\\r" or "\\r\\n", and not'),
            ({"encoding": "morse"}, ValueError, "Wrong: `encoding` is the name of an encoding, as \"ascii\", and not 'morse'"),
            ({"encoding": 8}, TypeError, "`encoding` is the name"),
            ({"written": bulk_out(0x03)}, ValueError, "`written` is an endpoint as bulk_in"),
            ({"packets": None}, TypeError, r"Wrong: `packets` is an endpoint, as bulk_out\(0x02\), and not None"),
            ({"notifications": bulk_in(0x83)}, ValueError, "`notifications` is an endpoint as interrupt_in")]
        for words, error, sentence in wrong:
            with self.assertRaisesRegex(error, sentence):
                type("Wrong", (Serial,), words)

    def test_a_class_with_a_further_interface(self) -> None:
        class More(Port):
            interfaces = (*Serial.interfaces, (0xFF, 0, 0))
            samples = bulk_in(0x84, interface=2)

        self.assertEqual(More().configuration()[-16:].hex(), "0904020001ff000000" "07058402400000")
        host = Host(More())
        host.write(0x02, b"a\n", 64)
        self.assertEqual(host.read(0x81, 64, 64), b"A\r\n")

    def test_a_reset_is_for_all_bases_of_a_class(self) -> None:
        class Counted(Device):
            resets = 0

            def on_reset(self) -> None:
                self.resets += 1

            def on_plugged(self) -> None:
                self.resets += 10

        class Both(Port, Counted):
            def begin(self) -> None:
                super().begin()
                self.is_new = True

        device = Both()
        self.assertTrue(device.is_new)
        device.is_new = False
        for event in ("reset", "plugged"):
            Host(device).tell(event)
        self.assertEqual((device.is_new, device.resets), (True, 11))

    def test_endpoints_given_anew_do_what_those_before_did(self) -> None:
        class Other(Port):
            packets = bulk_out(0x04, 64, interface=1)
            written = bulk_in(0x85, 64, interface=1)
            notifications = interrupt_in(0x86, 8, interface=0)

        host = Host(Other())
        host.write(0x04, b"a\n", 64)
        self.assertEqual(host.read(0x85, 64, 64), b"A\r\n")


class Drivers(unittest.TestCase):
    @unittest.skipIf(lacking_driver("usb.core"), lacking_driver("usb.core") or "")
    def test_by_pyusb(self) -> None:
        drive("serial_pyusb.py", "usb.core")
