"""HID devices, by sections of HID 1.11; report descriptors by its 6.2.2 and appendix E."""
from __future__ import annotations

import os
import threading
import time
import unittest
from typing import Any, Dict, List, Optional, Tuple, Type, Union
from unittest import mock

import tirnouch
from tests.drivers import drive, lacking_driver, program_line
from tests.harness import DEVICES, Host, Stalled, told
from tests.libusb import PATH, Program, lacking
from tirnouch import NAK, STALL, Answer, Interface, Request, bulk_in, hid_descriptor, interrupt_in, interrupt_out, plug
from tirnouch.hid import Hid, keyboard, mouse, vendor
from tirnouch.reports import FEATURE, INPUT, OUTPUT, sizes


class Keys(Hid):
    """A boot keyboard that keeps what it is told."""

    report_descriptor, boot = keyboard(), "keyboard"
    reports = interrupt_in(0x81, 8)

    def __init__(self) -> None:
        self.got: List[Tuple[int, bytes]] = []
        self.answer: Optional[Answer] = None

    def on_output(self, report_id: int, data: bytes) -> Optional[Answer]:
        self.got.append((report_id, data))
        return self.answer


class Pairs(Keys):
    """Reports with ids, at two endpoints of 8 bytes."""

    report_descriptor = vendor(input=9, output=9, report_id=1) + vendor(output=2, feature=4, report_id=2)
    boot = ""
    outputs = interrupt_out(0x02, 8)

    def on_feature(self, report_id: int, data: bytes) -> Optional[Answer]:
        return self.on_output(-report_id, data)


class Descriptors(unittest.TestCase):
    def test_those_of_the_appendix(self) -> None:
        """E.6: modifiers, a constant byte, 6 keys; 5 lights and 3 bits. E.10: 3 buttons and 5 bits, X and Y. Their lengths are in E.4 and
        E.8: 3F and 32."""
        self.assertEqual((len(keyboard()), sizes(keyboard())), (0x3F, {(INPUT, 0): 8, (OUTPUT, 0): 1}))
        self.assertEqual((len(mouse()), sizes(mouse())), (0x32, {(INPUT, 0): 3}))
        self.assertEqual(sizes(keyboard(1) + mouse(2)), {(INPUT, 1): 8, (OUTPUT, 1): 1, (INPUT, 2): 3})

    def test_those_of_a_vendor(self) -> None:
        """Usage page FF00, usages, an application; 8 bits of 0 to 255, as many as are said; Data, Variable, Absolute (6.2.2.5)."""
        self.assertEqual(vendor(input=8).hex(), "0600ff0901a101" "150026ff007508" "0902" "960800" "8102" "c0")
        self.assertEqual(sizes(vendor(1, 2, 300, 7)), {(INPUT, 7): 1, (OUTPUT, 7): 2, (FEATURE, 7): 300})

    def test_fields_of_bits_and_what_is_kept(self) -> None:
        """A report's bytes are filled up; Push keeps size and count, and Pop has them again (6.2.2.7); a long item says nothing."""
        found = sizes(bytes.fromhex("a101" "7501" "9503" "8102" "a4" "7510" "9502" "b102" "b4" "9102" "fe02aa0102" "8102" "c0"))
        self.assertEqual(found, {(INPUT, 0): 1, (FEATURE, 0): 4, (OUTPUT, 0): 1})

    def test_what_is_no_report_descriptor(self) -> None:
        for text, sentence in (("a101c0", "it has no report"), ("a10175", "item 75 at byte 2 isn't whole: 1 more"),
                               ("75089501 8102", "in no collection"), ("a101 7508 9501 8102", "has no end"),
                               ("a101 7508 9501 8102 c0c0", "byte 9 ends no collection"),
                               ("a101 8500 c0", "1 to 255, and not 0"), ("b4", "no Push"), ("fe", "item fe at byte 0 isn't whole"),
                               ("a101 7508 9501 8102 8501 8102 c0", "some reports have an id")):
            with self.assertRaisesRegex(ValueError, sentence):
                sizes(bytes.fromhex(text))

    def test_vendor_needs_a_report(self) -> None:
        wrong: List[Tuple[Dict[str, Any], Type[Exception], str]] = [
            ({}, ValueError, "vendor takes the bytes"), ({"input": 4096}, ValueError, "`input` is 0x0 to 0xfff"),
            ({"input": "8"}, TypeError, "`input` is a whole number"), ({"input": 1, "page": 1}, ValueError, "0xff00 to 0xffff"),
            ({"input": 1, "report_id": 256}, ValueError, "a report's id")]
        for words, error, sentence in wrong:
            with self.assertRaisesRegex(error, sentence):
                vendor(**words)

    def test_what_a_device_says_of_itself(self) -> None:
        """4.2, 4.3 and 6.2.1: class 3, subclass 1 and protocol 1 of a boot keyboard, and the length of its report descriptor."""
        self.assertEqual(Keys().configuration()[9:].hex(), "090400000103010100" + "092111010001223f00" + "07058103080004")
        self.assertEqual(Pairs().configuration()[9:18].hex(), "090400000203000000")


class Classes(unittest.TestCase):
    def made(self, **words: Any) -> Any:
        """A class with these attributes."""
        return type("Wrong", (Hid,), {"report_descriptor": keyboard(), **words})

    def test_a_configuration_of_its_own_is_refused(self) -> None:
        for base in (Hid, tirnouch.Serial, tirnouch.Dfu):
            with self.assertRaisesRegex(TypeError, f"A: {base.__name__} has endpoints of its own, so `config` isn't said with it"):
                type("A", (base,), {"config": tirnouch.config(interrupt_in(0x84))})

    def test_what_is_refused_where_a_class_is_made(self) -> None:
        wrong: List[Tuple[Dict[str, Any], Type[Exception], str]] = [
            ({"report_descriptor": "05"}, TypeError, "Wrong: `report_descriptor` is bytes, as keyboard"),
            ({"report_descriptor": b"\xa1\x01"}, ValueError, "Wrong: `report_descriptor`: a collection has no end"),
            ({"boot": "pen"}, ValueError, "Wrong: `boot` is '' or 'keyboard' or 'mouse', and not 'pen'"),
            ({"reports": None}, TypeError, r"`reports` is an endpoint, as interrupt_in\(0x83\), and not None"),
            ({"outputs": interrupt_in(0x82)}, ValueError, r"as interrupt_out\(0x04\), and interrupt_in made 82"),
            ({"outputs": 2}, TypeError, "Wrong: `outputs` is an endpoint"), ({"country": 256}, ValueError, "the country")]
        for words, error, sentence in wrong:
            with self.assertRaisesRegex(error, sentence):
                self.made(**words)

    def test_a_class_without_a_report_descriptor_is_a_base(self) -> None:
        base = type("Base", (Hid,), {"boot": "mouse"})
        with self.assertRaisesRegex(TypeError, "Base: `report_descriptor` is missing: bytes, as keyboard"):
            base()
        self.assertEqual(type("Mouse", (base,), {"report_descriptor": mouse()})().configuration()[14:17], b"\3\1\2")

    def test_a_class_may_say_its_interfaces_itself(self) -> None:
        own = Interface(3, 0, 0, "", hid_descriptor(keyboard()))
        device = self.made(interfaces=(own, (0xFF, 0, 0)), data=bulk_in(0x82, interface=1))()
        self.assertEqual(device.configuration()[9:].hex(),
                         "090400000103000000" "092111010001223f00" "07058103400004" "0904010001ff000000" "07058202000200")


class Reports(unittest.TestCase):
    def setUp(self) -> None:
        self.device, self.pairs = Keys(), Pairs()
        self.host, self.other = Host(self.device), Host(self.pairs)

    def test_input_reports_are_read_in_their_order(self) -> None:
        for key in (4, 0):
            self.device.report(bytes((0, 0, key, 0, 0, 0, 0, 0)))
        self.assertEqual([self.host.read(0x81, 8, 8)[2] for _ in range(2)], [4, 0])
        self.assertEqual(self.host.ask("in 81 8"), "n")

    def test_a_report_with_an_id_has_it_in_front(self) -> None:
        """5.6: the id is the first byte; 10 bytes are two packets."""
        self.pairs.report(b"123456789", 1)
        self.assertEqual(self.other.read(0x81, 64, 8), b"\x01123456789")

    def test_reports_that_cant_be(self) -> None:
        wrong: List[Tuple[Any, int, Type[Exception], str]] = [
            (b"", 0, ValueError, "Keys: input report 0 has 8 bytes by the report descriptor, and not 0"),
            (bytes(8), 1, ValueError, "no input report 1; its ids are: 0"), ("a" * 8, 0, TypeError, "bytes, and not str")]
        for data, report_id, error, sentence in wrong:
            with self.assertRaisesRegex(error, sentence):
                self.device.report(data, report_id)
        self.assertEqual(self.host.ask("in 81 8"), "n")

    def test_get_report_has_what_was_sent_last(self) -> None:
        """7.2.1; zeros where nothing was."""
        self.assertEqual(self.host.control(0xA1, 1, 0x0100, 0, 8), bytes(8))
        self.device.report(b"abcdefgh")
        self.assertEqual(self.host.control(0xA1, 1, 0x0100, 0, 8), b"abcdefgh")
        self.assertEqual(self.host.read(0x81, 8, 8), b"abcdefgh")
        self.pairs.report(b"123456789", 1)
        self.assertEqual(self.other.control(0xA1, 1, 0x0101, 0, 64), b"\x01123456789")

    def test_get_report_of_none_that_is_there_stalls(self) -> None:
        for value in (0x0101, 0x0300, 0x0000, 0x0400):
            with self.assertRaises(Stalled):
                self.host.control(0xA1, 1, value, 0, 8)
        self.assertEqual(self.host.ask("control a101000101000800"), "t")

    def test_set_report(self) -> None:
        """7.2.2; an output report is told without its id."""
        self.host.control(0x21, 9, 0x0200, 0, b"\x05")
        self.assertEqual(self.device.got, [(0, b"\x05")])
        self.assertEqual(self.host.control(0xA1, 1, 0x0200, 0, 1), b"\x05")
        self.other.control(0x21, 9, 0x0201, 0, b"\x01123456789")
        self.other.control(0x21, 9, 0x0302, 0, b"\x02abcd")
        self.assertEqual(self.pairs.got, [(1, b"123456789"), (-2, b"abcd")])
        self.assertEqual(self.other.control(0xA1, 1, 0x0302, 0, 64), b"\x02abcd")

    def test_set_report_of_another_form_stalls_and_changes_nothing(self) -> None:
        for value, data in ((0x0201, b"\x02123456789"), (0x0201, b"\x0112345678"), (0x0201, b"123456789"), (0x0101, b"\x01123456789"),
                            (0x0203, b"\x03a"), (0x0302, b"")):
            with self.assertRaises(Stalled):
                self.other.control(0x21, 9, value, 0, data)
        self.assertEqual(self.pairs.got, [])
        self.assertEqual(self.other.control(0xA1, 1, 0x0302, 0, 64), b"\x02" + bytes(4))

    def test_any_length_may_be_taken(self) -> None:
        class Lenient(Pairs):
            any_length = True

        device = Lenient()
        Host(device).control(0x21, 9, 0x0302, 0, b"\x02a")
        self.assertEqual(device.got, [(-2, b"a")])

    def test_a_report_that_is_refused_isnt_kept(self) -> None:
        self.device.answer = STALL
        with self.assertRaises(Stalled):
            self.host.control(0x21, 9, 0x0200, 0, b"\x05")
        self.assertEqual(self.host.control(0xA1, 1, 0x0200, 0, 1), b"\0")

    def test_a_feature_report_may_be_computed(self) -> None:
        class Computed(Pairs):
            def feature(self, report_id: int) -> Union[bytes, Answer]:
                return bytes((report_id,)) * self.length if self.length else STALL

            length = 4

        device = Computed()
        host = Host(device)
        self.assertEqual(host.control(0xA1, 1, 0x0302, 0, 5), b"\x02\x02\x02\x02\x02")
        device.length = 0
        with self.assertRaises(Stalled):
            host.control(0xA1, 1, 0x0302, 0, 5)
        device.length = 3
        with told() as errors:
            host.ask("control a101020300000500")
        self.assertIn("feature report 2 has 4 bytes by the report descriptor, and not 3", errors.getvalue())


class Outputs(unittest.TestCase):
    """Output reports at an interrupt endpoint of 8 bytes."""

    def setUp(self) -> None:
        self.device = Pairs()
        self.host = Host(self.device)

    def test_a_report_of_two_packets_is_told_once(self) -> None:
        self.host.write(0x02, b"\x01123456789", 8)
        self.host.write(0x02, b"\x02ab", 8)
        self.assertEqual(self.device.got, [(1, b"123456789"), (2, b"ab")])

    def test_a_report_that_isnt_there_or_is_short_stalls(self) -> None:
        for data in (b"\x03ab", b"\x02a", b"", b"\x0112345"):
            with self.assertRaises(Stalled):
                self.host.write(0x02, data, 8)
        self.host.write(0x02, b"\x02ab", 8)
        self.assertEqual(self.device.got, [(2, b"ab")])

    def test_a_report_that_isnt_taken_yet_comes_again(self) -> None:
        self.host.write(0x02, b"\x011234567", 8)
        self.device.answer = NAK
        self.assertEqual(self.host.ask("out 02 3839"), "n")
        self.device.answer = None
        self.assertEqual(self.host.ask("out 02 3839"), "a")
        self.assertEqual(self.device.got, [(1, b"123456789")] * 2)

    def test_a_reset_forgets_a_part(self) -> None:
        for event in ("reset", "plugged"):
            self.host.write(0x02, b"\x011234567", 8)
            self.host.tell(event)
            self.host.write(0x02, b"\x02ab", 8)
        self.assertEqual(self.device.got, [(2, b"ab")] * 2)


class Requests(unittest.TestCase):
    def setUp(self) -> None:
        self.device = Keys()
        self.host = Host(self.device)

    def test_descriptors(self) -> None:
        """7.1.1, by GET_DESCRIPTOR to the interface; the device's own are the text's."""
        self.assertEqual(self.host.control(0x81, 6, 0x2200, 0, 255), keyboard())
        self.assertEqual(self.host.control(0x81, 6, 0x2100, 0, 255).hex(), "092111010001223f00")
        self.assertEqual(self.host.ask("control 8106002300000900"), "t")
        self.assertEqual(self.host.ask("control 8006000100001200"), "t")

    def test_idle(self) -> None:
        """7.2.3 and 7.2.4: units of 4 milliseconds; report 0 is all of them."""
        host, device = Host(Pairs()), Pairs()
        host.device = device
        self.assertEqual(host.control(0xA1, 2, 0, 0, 1), b"\0")
        host.control(0x21, 0x0A, 0x7D01, 0)
        self.assertEqual([host.control(0xA1, 2, report, 0, 1) for report in (0, 1, 2)], [b"\0", b"\x7d", b"\0"])
        self.assertEqual(device.idle(1), 500)
        host.control(0x21, 0x0A, 0x0500, 0)
        self.assertEqual([host.control(0xA1, 2, report, 0, 1) for report in (0, 1)], [b"\5", b"\5"])

    def test_protocol(self) -> None:
        """7.2.5 and 7.2.6: 1, the report protocol, after a reset; other values are refused."""
        self.assertEqual(self.host.control(0xA1, 3, 0, 0, 1), b"\1")
        self.host.control(0x21, 0x0B, 0, 0)
        self.assertEqual((self.host.control(0xA1, 3, 0, 0, 1), self.device.is_boot), (b"\0", True))
        with self.assertRaises(Stalled):
            self.host.control(0x21, 0x0B, 2, 0)
        self.assertTrue(self.device.is_boot)
        self.host.tell("reset")
        self.assertEqual(self.host.control(0xA1, 3, 0, 0, 1), b"\1")

    def test_a_device_without_a_boot_protocol_has_none(self) -> None:
        host = Host(Pairs())
        for kind, request, data in ((0xA1, 3, 1), (0x21, 0x0B, b"")):
            with self.assertRaises(Stalled):
                host.control(kind, request, 0, 0, data)  # type: ignore[arg-type]

    def test_a_class_answers_its_own_requests_first(self) -> None:
        class Own(Keys):
            def get_idle(self, request: Request) -> bytes:
                return b"\x2a"

        self.assertEqual(Host(Own()).control(0xA1, 2, 0, 0, 1), b"\x2a")


@unittest.skipIf(lacking(), lacking() or "")
class Threads(unittest.TestCase):
    """Over the library itself, in real time."""

    def test_a_report_from_another_thread_wakes_the_host(self) -> None:
        kept = {key: value for key, value in os.environ.items() if not key.startswith(("TIRNOUCH_", "LIBUSB_"))}
        device = Keys()
        timer = threading.Timer(0.1, device.report, (b"abcdefgh",))
        with mock.patch.dict(os.environ, kept, clear=True), plug(device, library=str(PATH)):
            program = Program()
            try:
                self.assertTrue(program.open(device.vendor, device.product))
                begin = time.monotonic()
                timer.start()
                self.assertEqual(program.read(0x81, 8, milliseconds=8000), b"abcdefgh")
                self.assertLess(time.monotonic() - begin, 4, "it wasn't woken")
            finally:
                timer.join()
                program.end()


class Drivers(unittest.TestCase):
    """Over the library itself."""

    @unittest.skipIf(lacking_driver("usb.core"), lacking_driver("usb.core") or "")
    def test_by_pyusb(self) -> None:
        drive("hid_pyusb.py", "usb.core")

    @unittest.skipIf(lacking_driver("hid"), lacking_driver("hid") or "")
    def test_by_hidapi(self) -> None:
        drive("hid_hidapi.py", "hid", program_line(0, DEVICES / "knob.py"), TIRNOUCH_TIME="")
