"""Decorators and attributes of a class of devices, and what is said of those that are used wrongly."""
import unittest

from tirnouch import Device, Request, bulk_in, bulk_out, control, interrupt_in, interrupt_out


class Addresses(unittest.TestCase):
    """USB 2.0, 9.6.6: bit 7 of an address is its direction, bits 3 to 0 are its number; 0 is the control endpoint."""

    def test_each_direction_has_its_own_addresses(self) -> None:
        for call, good, other, name in ((bulk_in, 0x81, 0x01, "bulk_out"), (bulk_out, 0x01, 0x81, "bulk_in"),
                                        (interrupt_in, 0x8F, 0x0F, "interrupt_out"), (interrupt_out, 0x0F, 0x8F, "interrupt_in")):
            self.assertEqual(call(good).address, good)
            with self.assertRaisesRegex(ValueError, f"{name} makes it"):
                call(other)

    def test_the_control_endpoint_and_too_high_numbers_are_refused(self) -> None:
        for call, addresses in ((bulk_in, (0x80, 0x90, 0x100)), (bulk_out, (0, 0x10, -1))):
            for address in addresses:
                with self.assertRaisesRegex(ValueError, "takes an address from"):
                    call(address)

    def test_a_decorator_without_an_address_says_its_form(self) -> None:
        with self.assertRaisesRegex(TypeError, r"bulk_out takes an address, as bulk_out\(0x02\)"):
            @bulk_out
            def taken(_device: Device, _packet: bytes) -> None:
                pass

    def test_sizes_and_intervals_have_ranges(self) -> None:
        for words, what in (({"size": 0}, "packet size"), ({"size": 1025}, "packet size"), ({"interface": 32}, "interface")):
            with self.assertRaisesRegex(ValueError, what):
                bulk_in(0x81, **words)
        with self.assertRaisesRegex(ValueError, "interval"):
            interrupt_in(0x81, 8, 256)
        with self.assertRaisesRegex(TypeError, "packet size"):
            bulk_in(0x81, "64")  # type: ignore[arg-type]

    def test_what_is_decorated_is_a_method(self) -> None:
        with self.assertRaisesRegex(TypeError, "decorates a method"):
            bulk_in(0x81)(b"abc")  # type: ignore[arg-type]
        with self.assertRaisesRegex(TypeError, "decorates a method"):
            control(0xC0, 1)(5)  # type: ignore[arg-type]


class Requests(unittest.TestCase):
    def test_a_decorator_without_fields_says_its_form(self) -> None:
        with self.assertRaisesRegex(TypeError, r"as @control\(0xC0, 0x01\)"):
            @control  # type: ignore[call-arg, arg-type]
            def answer(_device: Device, _request: Request) -> None:
                pass

    def test_fields_have_ranges(self) -> None:
        for words, what in (((0x100, 0), "bmRequestType"), ((0, 0x100), "bRequest"), ((0, 0, 0x10000), "wValue"),
                            ((0, 0, 0, -1), "wIndex"), ((0xC0,), "bRequest")):
            with self.assertRaisesRegex(ValueError, what):
                control(*words)


class Classes(unittest.TestCase):
    def test_two_endpoints_of_an_address_are_refused(self) -> None:
        with self.assertRaisesRegex(ValueError, "Twice: one and other are both endpoint 81"):
            type("Twice", (Device,), {"one": bulk_in(0x81), "other": bulk_in(0x81)})

    def test_a_subclass_gives_a_method_anew(self) -> None:
        class First(Device):
            @bulk_out(0x02)
            def taken(self, packet: bytes) -> bytes:
                return b"first " + packet

        class Second(First):
            def taken(self, packet: bytes) -> bytes:  # type: ignore[override]
                return b"second, " + super().taken(packet)

        self.assertEqual(list(Second.endpoints), [0x02])
        self.assertEqual(Second().taken(b"x"), b"second, first x")

    def test_a_subclass_may_take_an_endpoint_away(self) -> None:
        class First(Device):
            reply = bulk_in(0x81)

        class Second(First):
            reply = None

        self.assertEqual((list(First.endpoints), list(Second.endpoints)), ([0x81], []))
