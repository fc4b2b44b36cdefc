"""What a class of memory sticks says and does, beside test_stick.py, which has the transport: sense by SPC-4, 4.5, and SPC-4, 6.4.2."""
from __future__ import annotations

import pathlib
import tempfile
import unittest
from typing import Any, Dict, List, Tuple, Type

from tests.drivers import drive, lacking_driver
from tests.harness import Host, told
from tests.test_stick import FAILED, PASSED, Storage as Transport, ten
from tirnouch import bulk_in, bulk_out
from tirnouch.storage import Refused, Storage

READY = bytes(6)


class Stick(Storage):
    """Four blocks, whose bytes are their numbers."""

    speed = "full"
    medium = b"".join(bytes((at,)) * 512 for at in range(4))
    names = ("ACME", "STICK", "2.5")
    fault: Any = None

    def read(self, at: int, count: int) -> bytes:
        if isinstance(self.fault, Exception):
            raise self.fault
        return super().read(at, count) if self.fault is None else self.fault  # type: ignore[no-any-return]

    def write(self, at: int, data: bytes) -> None:
        if isinstance(self.fault, Exception):
            raise self.fault
        super().write(at, data)


class Host64(Transport):
    """Packets of 64 bytes, as at full speed."""

    def write(self, endpoint: int, data: bytes, size: int = 64) -> None:
        super().write(endpoint, data, size)

    def read(self, endpoint: int, length: int, size: int = 64) -> bytes:
        return super().read(endpoint, length, size)


class Sticks(unittest.TestCase):
    def setUp(self) -> None:
        self.device = Stick()
        self.host = Host64(self.device)


class Media(Sticks):
    def test_bytes_are_each_devices_own(self) -> None:
        self.assertEqual(self.host.give(ten(0x2A, 1, 2), b"x" * 1024), (PASSED, 0, False))
        self.assertEqual(self.host.fetch(ten(0x28, 0, 4), 2048), (bytes(512) + b"x" * 1024 + b"\3" * 512, PASSED, 0))
        self.assertEqual(Host64(Stick()).fetch(ten(0x28, 1, 1), 512)[0], b"\1" * 512)
        self.assertEqual(self.host.give(ten(0x35), b""), (PASSED, 0, False))

    def test_a_file_of_a_class(self) -> None:
        with tempfile.TemporaryDirectory() as folder:
            path = pathlib.Path(folder) / "disk.img"
            path.write_bytes(bytes(2048))
            device = type("Filed", (Storage,), {"medium": path, "speed": "full"})()
            host = Host64(device)
            self.assertEqual(host.give(ten(0x2A, 3, 1), b"y" * 512), (PASSED, 0, False))
            self.assertEqual(path.read_bytes(), bytes(1536) + b"y" * 512)
            file = device.disk.file
            device.insert(bytes(512))
            self.assertTrue(file.closed)

    def test_an_empty_slot(self) -> None:
        """NOT READY, MEDIUM NOT PRESENT; once that was told, a medium that comes is told by UNIT ATTENTION, once."""
        device = type("Empty", (Storage,), {"speed": "full"})()
        host = Host64(device)
        self.assertEqual((host.give(READY, b"")[0], host.sense()), (FAILED, (2, 0x3A, 0)))
        device.insert(bytes(1024))
        for expected in (FAILED, PASSED):
            self.assertEqual(host.give(READY, b"")[0], expected)
            self.assertEqual(host.sense(), (6, 0x28, 0) if expected else (0, 0, 0))
        self.assertEqual(host.fetch(ten(0x25), 8)[0].hex(), "0000000100000200")

    def test_a_medium_before_the_first_command_is_no_news(self) -> None:
        self.device.insert(bytes(512))
        self.assertEqual(self.host.give(READY, b""), (PASSED, 0, False))

    def test_inquiry_leaves_the_news(self) -> None:
        """SPC-4, 5.14: INQUIRY and REQUEST SENSE are answered, and a unit attention stays."""
        self.host.give(READY, b"")
        self.device.insert(bytes(512))
        self.assertEqual(self.host.fetch(bytes((0x12, 0, 0, 0, 36, 0)), 36)[1], PASSED)
        self.assertEqual((self.host.give(READY, b"")[0], self.host.sense()), (FAILED, (6, 0x28, 0)))

    def test_a_medium_that_isnt_one_leaves_the_one_before(self) -> None:
        wrong: List[Tuple[Any, Type[Exception]]] = [(b"", ValueError), (bytes(513), ValueError), ("/nowhere/disk.img", OSError)]
        for medium, error in wrong:
            with self.assertRaises(error):
                self.device.insert(medium)
        self.assertEqual(self.host.fetch(ten(0x28, 3, 1), 512), (b"\3" * 512, PASSED, 0))

    def test_an_ejected_medium(self) -> None:
        self.device.eject()
        self.assertEqual((self.host.fetch(ten(0x28, 0, 1), 512), self.host.sense()), ((b"", FAILED, 512), (2, 0x3A, 0)))

    def test_the_names(self) -> None:
        """SPC-4, 6.4.2: filled with blanks."""
        self.assertEqual(self.host.fetch(bytes((0x12, 0, 0, 0, 36, 0)), 36)[0][8:], b"ACME    STICK           2.5 ")


class Resets(Sticks):
    def test_a_reset_of_the_transport_forgets_a_command(self) -> None:
        """BOT 1.0, 3.1 and 6.4: it is ready for the next one, with its data unread or half written."""
        self.host.write(0x02, self.host.wrapper(ten(0x28, 1, 1), 512, True))
        self.host.control(0x21, 0xFF, 0, 0)
        self.assertEqual(self.host.fetch(ten(0x25), 8), (bytes.fromhex("0000000300000200"), PASSED, 0))
        self.host.write(0x02, self.host.wrapper(ten(0x2A, 1, 1), 512, False))
        self.host.write(0x02, b"x" * 64)
        self.host.control(0x21, 0xFF, 0, 0)
        self.assertEqual(self.host.fetch(ten(0x28, 1, 1), 512), (b"\1" * 512, PASSED, 0))


class Faults(Sticks):
    def test_blocks_that_cant_be_read(self) -> None:
        self.device.fault = Refused(0x3, 0x11, 1)
        self.assertEqual((self.host.fetch(ten(0x28, 0, 1), 512), self.host.sense()), ((b"", FAILED, 512), (3, 0x11, 1)))
        self.device.fault = None
        self.assertEqual(self.host.fetch(ten(0x28, 0, 1), 512), (bytes(512), PASSED, 0))

    def test_blocks_that_cant_be_written(self) -> None:
        """The data were taken: there is no residue, and nothing stalls."""
        self.device.fault = Refused(0x3, 0x0C)
        self.assertEqual((self.host.give(ten(0x2A, 0, 1), b"x" * 512), self.host.sense()), ((FAILED, 0, False), (3, 0x0C, 0)))
        self.device.fault = None
        self.assertEqual(self.host.fetch(ten(0x28, 0, 1), 512), (bytes(512), PASSED, 0))

    def test_what_read_returns_is_as_long_as_was_asked_for(self) -> None:
        for fault, sentence in ((b"abc", "1 blocks of 512 bytes are read from block 2 on, and 3 bytes were returned"),
                                ("abc", "what is read of a disk is bytes, and not str")):
            self.device.fault = fault
            with told() as errors:
                self.host.ask(f"out 02 {self.host.wrapper(ten(0x28, 2, 1), 512, True).hex()}")
            self.assertIn(sentence, errors.getvalue())

    def test_senses_that_cant_be(self) -> None:
        for words, error in (((16, 0), ValueError), ((3, 256), ValueError), ((3, 0, -1), ValueError), (("3", 0), TypeError)):
            with self.assertRaisesRegex(error, "a sense key is|an additional sense code is|its qualifier is"):
                Refused(*words)  # type: ignore[arg-type]


class Classes(unittest.TestCase):
    def test_what_is_refused_where_a_class_is_made(self) -> None:
        wrong: List[Tuple[Dict[str, Any], Type[Exception], str]] = [
            ({"medium": 512}, TypeError, "Wrong: `medium` is bytes, or the path of a file, and not 512"),
            ({"medium": bytes(700)}, ValueError, "Wrong: `medium` has one or more blocks of 512 bytes, and not 700 bytes"),
            ({"medium": b""}, ValueError, "Wrong: `medium` has one or more blocks of 512 bytes, and not 0"),
            ({"block": 1000}, ValueError, "Wrong: `block` is a multiple of 512, and not 1000"),
            ({"block": 0}, ValueError, "Wrong: `block` is 0x200 to"), ({"block": "512"}, TypeError, "Wrong: `block` is a whole number"),
            ({"is_protected": 1}, TypeError, "Wrong: `is_protected` is True or False, and not 1"),
            ({"names": "ACME"}, TypeError, "Wrong: `names` is a tuple of vendor, product and revision, as \\('WORKS'"),
            ({"names": ("ACME", "STICK")}, ValueError, "Wrong: `names` is vendor, product and revision, of at most 8, 16 and 4 letters"),
            ({"names": ("ACME", "STICK", "2.5.1")}, ValueError, "and not \\('ACME', 'STICK', '2.5.1'\\)"),
            ({"names": ("ACM\u00c9", "STICK", "1")}, ValueError, "Wrong: `names` is vendor"),
            ({"replies": bulk_out(0x03)}, ValueError, r"Wrong: `replies` is an endpoint as bulk_in\(0x81\)")]
        for words, error, sentence in wrong:
            with self.assertRaisesRegex(error, sentence):
                type("Wrong", (Storage,), words)

    def test_a_file_that_isnt_there(self) -> None:
        with self.assertRaises(FileNotFoundError):
            type("Lost", (Storage,), {"medium": "/nowhere/disk.img"})()

    def test_larger_blocks_and_other_endpoints(self) -> None:
        """A stick as it stands has none of its own."""

        class Other(Stick):
            medium = bytes(8192)
            block = 4096
            replies = bulk_in(0x83, 64)
            packets = bulk_out(0x04, 64)

        host = Host(Other())
        host.write(0x04, Transport().wrapper(ten(0x25), 8, True), 64)
        self.assertEqual((host.read(0x83, 8, 64).hex(), host.read(0x83, 13, 64)[:4]), ("0000000100001000", b"USBS"))


class Drivers(unittest.TestCase):
    @unittest.skipIf(lacking_driver("usb.core"), lacking_driver("usb.core") or "")
    def test_by_pyusb(self) -> None:
        drive("storage_pyusb.py", "usb.core")
