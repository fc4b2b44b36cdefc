"""Devices whose endpoints are declared by `config`, and whose methods have their names: the bytes are those of USB 2.0, chapter 9."""
import unittest
from typing import Any

from tirnouch import ACK, DEFAULT, STALL, Device, Request, bulk_in, bulk_out, config, control, interface, interrupt_in

from tests.harness import Host, told


class Meter(Device):
    ids, serial = (0x1209, 0x4D31), "PM-1"
    config = config(bulk_out(0x02, 64), bulk_in(0x81, 64), interrupt_in(0x83, 8))
    asked: Any = None

    def out_02(self, packet: bytes) -> Any:
        self.asked = packet
        return ACK if packet else STALL

    def in_81(self, room: int) -> Any:
        return self.asked

    def control(self, setup: Request, data: bytes) -> Any:
        self.seen = (setup, data)
        return b"PM-1" if setup.request == 1 else DEFAULT


class Methods(unittest.TestCase):
    def setUp(self) -> None:
        self.device = Meter()
        self.host = Host(self.device)

    def test_methods_are_named_by_addresses(self) -> None:
        self.assertEqual(self.host.ask("in 81 64"), "n")
        self.assertEqual(self.host.ask("out 02 6162"), "a")
        self.assertEqual(self.host.ask("in 81 64"), "d:6162")
        self.assertEqual(self.host.ask("out 02"), "s")
        self.assertEqual(self.host.ask("in 83 8"), "n")

    def test_control_is_given_the_request_and_its_data(self) -> None:
        self.assertEqual(self.host.control(0xC0, 1, 2, 3, 8), b"PM-1")
        self.assertEqual(self.device.seen, (Request(0xC0, 1, 2, 3, 8, b""), b""))
        self.assertEqual(self.host.ask("control 4002000000000200 6162"), "t")
        self.assertEqual(self.device.seen[1], b"ab")

    def test_ack_is_for_what_the_host_writes(self) -> None:
        for method, question in (("in_81", "in 81 8"), ("control", "control c001000000000800")):
            setattr(self.device, method, lambda *words: ACK)
            with told() as errors:
                self.assertEqual(self.host.ask(question), "s")
            self.assertIn(f"Meter.{method} returned ACK: return bytes", errors.getvalue())
        self.assertEqual(self.host.ask("control 4001000000000000"), "a")

    def test_decorators_stand_beside_a_config(self) -> None:
        """A request of a decorated method is that one's; the same endpoint twice is refused."""
        class Both(Meter):
            @control(0xC0, 1)
            def version(self, _request: Request) -> bytes:
                return b"2"

            more = bulk_in(0x84)

        self.assertEqual(Host(Both()).control(0xC0, 1, 0, 0, 8), b"2")
        self.assertEqual(sorted(Both.endpoints), [0x02, 0x81, 0x83, 0x84])
        with self.assertRaisesRegex(ValueError, "Twice: in_81 and other are both endpoint 81"):
            type("Twice", (Meter,), {"other": bulk_in(0x81)})

    def test_a_subclass_has_methods_and_a_configuration_of_its_own(self) -> None:
        class Other(Meter):
            config = config(bulk_in(0x85))

            def in_85(self, room: int) -> bytes:
                return bytes((room,))

            in_81 = out_02 = None  # type: ignore[assignment]

        self.assertEqual(Host(Other()).ask("in 85 7"), "d:07")
        self.assertEqual(sorted(Other.endpoints), [0x85])
        self.assertEqual(sorted(Meter.endpoints), [0x02, 0x81, 0x83])


    def test_a_method_of_no_endpoint(self) -> None:
        """A base may have one for its subclasses: what is made of a class is judged where there is no `config`."""
        class Base(Device):
            def in_81(self, room: int) -> bytes:
                return bytes((room,))

        class Whole(Base):
            config = config(bulk_in(0x81))

        self.assertEqual(Host(Whole()).ask("in 81 7"), "d:07")
        with self.assertRaisesRegex(ValueError, "Base: the method in_81 answers no endpoint: .* answered by no method"):
            Base()
        for name in ("in_82", "in_0x81", "out_1"):
            with self.assertRaisesRegex(ValueError, f"A: the method {name} answers no endpoint: .* answered by in_81"):
                type("A", (Whole,), {name: lambda _self, _room: b""})


class Descriptors(unittest.TestCase):
    def test_one_interface(self) -> None:
        """Tables 9-10, 9-12 and 9-13; and the lines of docs/DEVICES.md."""
        expected = ("09022700010100803209040000 03ff000000 07050202400000 07058102400000 07058303080004").replace(" ", "")
        self.assertEqual(Meter().text(), f"device 0 {expected}\nids 0 1209 4d31 0100\nspeed 0 high\nstring 0 3 PM-1\n")

    def test_interfaces_and_a_setting(self) -> None:
        """A setting has its interface's number, and its own in bAlternateSetting; the configuration counts interfaces alone. Names stand
        behind the three strings."""
        class Modem(Device):
            ids = (0x1209, 0x0006, 0x0203)
            manufacturer, product_name = "Works", "Modem"
            config = config(interface(interrupt_in(0x83, 8, 10), class_=2, subclass=2, protocol=1, name="line",
                                      functional=b"\x05\x24\x00\x10\x01"),
                            interface(class_=10), interface(bulk_out(0x02, 64), bulk_in(0x81, 64), class_=10, setting=1),
                            attributes=0xC0, milliamperes=200)

        expected = ("09 02 3e00 02 01 00 c0 64" "09 04 00 00 01 02 02 01 04" "05 24 00 10 01" "07 05 83 03 0800 0a"
                    "09 04 01 00 00 0a 00 00 00" "09 04 01 01 02 0a 00 00 00" "07 05 02 02 4000 00" "07 05 81 02 4000 00")
        self.assertEqual(Modem().configuration(), bytes.fromhex(expected))
        self.assertEqual(sorted(Modem.endpoints), [0x83])
        for line in ("ids 0 1209 0006 0203", "string 0 1 Works", "string 0 2 Modem", "string 0 4 line"):
            self.assertIn(f"{line}\n", Modem().text())

    def test_what_cant_be_is_refused_when_the_class_is_made(self) -> None:
        """Each sentence names the class, the field, and what can be there."""
        one = bulk_in(0x81)
        refused: Any = (
                ({"ids": 5}, TypeError, r"`ids` is \(vendor, product\)"),
                ({"ids": (1, 0x10000)}, ValueError, "`ids`: the product is 0x0 to 0xffff"),
                ({"serial": 7}, TypeError, "`serial` is a str"), ({"serial": "x" * 127}, ValueError, "`serial` has at most 126 units"),
                ({"config": one}, TypeError, "`config` is what tirnouch.config makes"),
                ({"config": config(one), "speed": "super"}, ValueError, "`speed` is \"low\", \"full\" or \"high\", and not 'super'"),
                ({"config": config(one), "speed": "low"}, ValueError, "a low speed device has no bulk endpoint, and 81 is one"),
                ({"config": config(bulk_in(0x81, 512)), "speed": "full"}, ValueError, "packets of at most 64 bytes, and 81 has 512"),
                ({"config": config(one, attributes=256)}, ValueError, "`attributes` is 0x0 to 0xff"),
                ({"config": config(one, milliamperes=501)}, ValueError, "`milliamperes` is 0x0 to 0x1f4"),
                ({"config": config(interface(one, class_=256))}, ValueError, "interface 0: `class_` is 0x0 to 0xff"),
                ({"config": config(interface(one), interface(subclass=-1))}, ValueError, "interface 1: `subclass`"),
                ({"config": config(interface(name=1))}, TypeError, "interface 0: `name` is a str"),  # type: ignore[arg-type]
                ({"config": config(interface(functional="05"))}, TypeError, "interface 0: `functional` is bytes"),  # type: ignore[arg-type]
                ({"config": config(interface(functional=b"\x05\x24"))}, ValueError, "at byte 0 says that it has 5 bytes, and 2 are"),
                ({"config": config(interface(setting=1))}, ValueError, "interface 0: settings are 0, 1, .."),
                ({"config": config(interface(), interface(setting=2))}, ValueError, "setting 2 stands behind 0"),
                ({"config": config(*[interface()] * 33)}, ValueError, "at most 32 interfaces, and not 33"),
                ({"config": config(interface(one), interface(bulk_in(0x81)))}, ValueError, "config has endpoint 81 twice"),
                ({"config": config(one), "in_82": lambda self, room: b""}, ValueError, "the method in_82 answers no endpoint: .* by in_81"),
                ({"config": config(bulk_in(0x8A)), "in_8A": lambda self, room: b""}, ValueError, "in_8A answers no endpoint: .* in_8a"))
        for attributes, error, sentence in refused:
            with self.assertRaisesRegex(error, f"Thing: .*{sentence}"):
                type("Thing", (Device,), attributes)

    def test_what_config_takes(self) -> None:
        for words, sentence in (((5,), "config takes endpoints"), ((bulk_in(0x81), interface()), "and not both"),
                                ((interface(5),), "interface takes endpoints")):  # type: ignore[arg-type]
            with self.assertRaisesRegex(TypeError, sentence):
                config(*words)  # type: ignore[arg-type]
