"""What a device says of itself: bytes by the tables of USB 2.0, chapter 9, and of HID 1.11."""
import unittest
from typing import Any

from tirnouch import Device, Interface, bulk_in, bulk_out, hid_descriptor, interrupt_in


def device(**attributes: Any) -> Device:
    """A device of a class with these attributes."""
    return type("Thing", (Device,), attributes)()


class Configurations(unittest.TestCase):
    def test_one_interface_with_two_endpoints(self) -> None:
        """USB 2.0, tables 9-10, 9-12 and 9-13: 9 bytes, 9, and 7 for each endpoint; bMaxPower counts 2 mA."""
        it = device(reply=bulk_in(0x81), order=bulk_out(0x02))
        expected = "09 02 2000 01 01 00 80 32" "09 04 00 00 02 ff 00 00 00" "07 05 02 02 0002 00" "07 05 81 02 0002 00"
        self.assertEqual(it.configuration(), bytes.fromhex(expected))

    def test_names_and_functional_descriptors_of_interfaces(self) -> None:
        """The names stand behind the three strings of the device descriptor (table 9-8), so the first one is string 4."""
        it = device(interfaces=(Interface(0xFE, 1, 2, "memory", b"\x03\x21\x07"), (3, 0, 0), Interface(0xFF, 0, 0, "other")),
                    key=interrupt_in(0x81, 8, 10, interface=1), strings=("Works",))
        expected = ("09 02 2e00 03 01 00 80 32" "09 04 00 00 00 fe 01 02 04 03 21 07" "09 04 01 00 01 03 00 00 00 07 05 81 03 0800 0a"
                    "09 04 02 00 00 ff 00 00 05")
        self.assertEqual(it.configuration(), bytes.fromhex(expected))
        self.assertIn("string 0 1 Works\nstring 0 4 memory\nstring 0 5 other\n", it.text())
        more = device(interfaces=((1, 0, 0), (3, 0, 0, "named")), strings=("a", "b", "c", "d"))
        self.assertEqual(more.configuration()[-1], 5)
        self.assertIn("string 0 4 d\nstring 0 5 named\n", more.text())

    def test_sizes_are_those_of_the_speed(self) -> None:
        """USB 2.0, 5.8.3: 512 at high speed; at full speed at most 64. 5.7.3: interrupts of low speed have at most 8."""
        self.assertEqual(device(reply=bulk_in(0x81), speed="full").configuration()[-3:-1], b"\x40\x00")
        self.assertEqual(device(key=interrupt_in(0x81), speed="low").configuration()[-3:-1], b"\x08\x00")
        self.assertEqual(device(key=interrupt_in(0x81), speed="full").configuration()[-3:], b"\x40\x00\x04")
        self.assertEqual(device(key=interrupt_in(0x81)).configuration()[-3:], b"\x40\x00\x04")
        self.assertEqual(device(key=interrupt_in(0x81, 1024)).configuration()[-3:-1], b"\x00\x04")
        with self.assertRaisesRegex(ValueError, "packets of at most 8"):
            device(key=interrupt_in(0x81, 9), speed="low").configuration()
        for attributes, sentence in (({"reply": bulk_in(0x81), "speed": "low"}, "low speed device has no bulk endpoint"),
                                     ({"reply": bulk_in(0x81, 512), "speed": "full"}, "packets of at most 64"),
                                     ({"reply": bulk_in(0x81), "speed": "super"}, "low, full or high")):
            with self.assertRaisesRegex(ValueError, sentence):
                device(**attributes).configuration()

    def test_power_and_attributes(self) -> None:
        self.assertEqual(device(attributes=0xE0, milliamperes=500).configuration()[7:9], b"\xe0\xfa")
        with self.assertRaisesRegex(ValueError, "milliamperes"):
            device(milliamperes=501).configuration()

    def test_interfaces_that_are_wrong(self) -> None:
        for interfaces, error, sentence in (((), ValueError, "at least one interface"), ((255,), TypeError, "class, subclass, protocol"),
                                            (((1, 2),), TypeError, "class, subclass, protocol"), (((256, 0, 0),), ValueError, "the class"),
                                            (((1, 2, 3, 4),), TypeError, "a str"), (((1, 2, 3, "a", "b"),), TypeError, "bytes"),
                                            (((1, 2, 3, "a", b"", 1),), TypeError, "an Interface")):
            with self.assertRaisesRegex(error, sentence):
                device(interfaces=interfaces).text()
        with self.assertRaisesRegex(ValueError, "endpoint 81 is of an interface that"):
            device(reply=bulk_in(0x81, interface=1)).text()

    def test_a_hid_descriptor(self) -> None:
        """HID 1.11, 6.2.1: bcdHID 0111, one descriptor, of type 22 and this length."""
        self.assertEqual(hid_descriptor(bytes(63)), bytes.fromhex("09 21 1101 00 01 22 3f00"))
        self.assertEqual(hid_descriptor(b"", 255)[4], 255)
        with self.assertRaisesRegex(ValueError, "the country"):
            hid_descriptor(b"", 256)
        with self.assertRaises(TypeError):
            hid_descriptor("0501")  # type: ignore[arg-type]


class Texts(unittest.TestCase):
    """docs/DEVICES.md has the form of each line."""

    def test_a_device_that_says_nothing(self) -> None:
        """docs/DEVICES.md: 1209 0001 0100; one interface of class FF, bus powered, 100 mA."""
        self.assertEqual(device().text(), "device 0 0902120001010080320904000000ff000000\nids 0 1209 0001 0100\nspeed 0 high\n")

    def test_the_lines_of_a_device(self) -> None:
        it = device(vendor=0x1A86, product=0x5512, release=0x0304, speed="full", device_class=(0xFF, 0, 2),
                    strings=("", "USB UART-LPT"), lines=(("driver", "0"), ("hidden",)))
        expected = ["ids 3 1a86 5512 0304", "speed 3 full", "class 3 ff 00 02", "string 3 2 USB UART-LPT", "driver 3 0", "hidden 3"]
        self.assertEqual(it.text(3).splitlines()[1:], expected)

    def test_text_that_a_line_cant_have_is_written_by_units(self) -> None:
        """UTF-16, the lower byte first: U+00E9, and a clef by two surrogates."""
        for text, word in (("\u00e9", "u:e900"), ("\U0001d11e", "u:34d81edd"), ("a ", "u:61002000"), ("u:41", "u:75003a0034003100"),
                           ("a  b", "u:6100200020006200"), ("a\nb", "u:61000a006200"), ("a b", "a b")):
            self.assertIn(f"string 0 1 {word}\n", device(strings=(text,)).text())

    def test_strings_that_are_wrong(self) -> None:
        self.assertIn("x" * 126, device(strings=("x" * 126,)).text())
        for strings, error in (("Works", TypeError), ((1,), TypeError), (("x" * 127,), ValueError), (("\U0001d11e" * 64,), ValueError)):
            with self.assertRaisesRegex(error, "string"):
                device(strings=strings).text()

    def test_numbers_that_are_wrong(self) -> None:
        for attributes, name in (({"vendor": 0x10000}, "vendor"), ({"product": -1}, "product"),
                                 ({"device_class": (256, 0, 0)}, "device_class"), ({"attributes": 256}, "attributes")):
            with self.assertRaisesRegex(ValueError, name):
                device(**attributes).text()
        with self.assertRaisesRegex(TypeError, "vendor"):
            device(vendor="1209").text()

    def test_lines_that_are_wrong(self) -> None:
        for line in ("driver 0", ("driver", 0), ("string", "1\n2"), ("driver", "")):
            with self.assertRaisesRegex(TypeError, "a line of `lines`"):
                device(lines=(line,)).text()
