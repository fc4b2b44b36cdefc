"""Firmware by DFU 1.1: what a class of loaders says and does beside test_dfu.py, and applications that leave; transitions by appendix A."""
from __future__ import annotations

import pathlib
import shutil
import tempfile
import unittest
from typing import Any, Dict, List, Optional, Tuple, Type
from unittest import mock

from tests.drivers import HERE, drive, lacking_driver, program_line, run
from tests.harness import DEVICES, Host, Stalled, told
from tests.libusb import lacking
from tests.test_dfu import Loader
from tirnouch import Device, bulk_in, bulk_out, interrupt_in
from tirnouch.dfu import Dfu, Runtime, State, Status, chain
from tirnouch.hid import Hid, keyboard
from tirnouch.scpi import Scpi
from tirnouch.serial import Serial

DFU_UTIL = shutil.which("dfu-util")


class Memory(Dfu):
    """It keeps what it is told, and answers as it is told."""

    transfer = 64

    def __init__(self) -> None:
        self.got: List[Any] = []
        self.answer: Optional[Status] = None

    def written(self, block: int, data: bytes) -> Optional[Status]:
        self.got.append((block, data))
        return self.answer

    def manifested(self, firmware: bytes) -> Optional[Status]:
        self.got.append(firmware)
        return self.answer


class Memories(unittest.TestCase):
    kind: Type[Memory] = Memory

    def setUp(self) -> None:
        self.device = self.kind()
        self.host = Loader(self.device)

    def give(self, *blocks: bytes) -> None:
        """A download to its end, as far as blocks are taken."""
        for number, data in enumerate(blocks):
            self.host.download(number, data)
            self.host.status()
            self.assertEqual(self.host.status(), (0, 0, State.DNLOAD_IDLE))
        self.host.download(len(blocks), b"")


class Downloads(Memories):
    def test_each_block_is_told_as_it_came(self) -> None:
        """Blocks may be shorter than wTransferSize."""
        self.give(b"a" * 64, b"b" * 10, b"c")
        self.assertEqual([self.host.status() for _ in range(2)], [(0, 50, State.MANIFEST), (0, 0, State.IDLE)])
        whole = b"a" * 64 + b"b" * 10 + b"c"
        self.assertEqual(self.device.got, [(0, b"a" * 64), (1, b"b" * 10), (2, b"c"), whole])
        self.assertEqual(self.device.firmware, whole)

    def test_numbers_of_blocks_begin_again(self) -> None:
        """wBlockNum has 16 bits."""
        for number in (0xFFFF, 0):
            self.host.download(number, b"a")
            self.host.status()
            self.host.status()
        self.assertEqual(self.device.got, [(0xFFFF, b"a"), (0, b"a")])

    def test_a_status_takes_its_time_once(self) -> None:
        """bwPollTimeout: what was asked before is answered behind it."""
        self.host.download(0, b"a")
        self.assertEqual((self.host.status(), self.host.waited), ((0, 20, State.DNBUSY), 0))
        self.assertEqual((self.host.status(), self.host.waited), ((0, 0, State.DNLOAD_IDLE), 20))
        self.host.download(1, b"")
        self.host.status()
        self.host.status()
        self.assertEqual(self.host.waited, 70)

    def test_a_block_that_fails(self) -> None:
        """The block was taken; its status is an error (6.1.2), and nothing was manifested."""
        self.device.firmware = b"old"
        self.device.answer = Status.ERR_VERIFY
        self.host.download(0, b"new")
        self.host.status()
        self.assertEqual(self.host.status(), (Status.ERR_VERIFY, 0, State.ERROR))
        self.host.control(0x21, 4, 0, 0)
        self.assertEqual((self.host.state(), self.host.upload(0, 64), self.device.firmware), (State.IDLE, b"old", b"old"))

    def test_a_firmware_that_fails(self) -> None:
        self.give(b"new")
        self.device.answer = Status.ERR_FIRMWARE
        self.host.status()
        self.assertEqual(self.host.status(), (Status.ERR_FIRMWARE, 0, State.ERROR))
        self.assertEqual((self.device.firmware, self.device.is_manifested), (b"", False))

    def test_a_busy_device_takes_nothing_else(self) -> None:
        """A.2.5, dfuDNBUSY."""
        for kind, request, data in ((0x21, 1, b"b"), (0xA1, 2, 8), (0x21, 6, b"")):
            self.host.download(0, b"a")
            self.host.status()
            with self.assertRaises(Stalled):
                self.host.control(kind, request, int(request < 3), 0, data)  # type: ignore[arg-type]
            self.assertEqual(self.host.status(), (Status.ERR_STALLEDPKT, 0, State.ERROR))
            self.host.control(0x21, 4, 0, 0)
        self.assertEqual(self.device.got, [])

    def test_what_written_may_return(self) -> None:
        self.device.answer = 3  # type: ignore[assignment]
        self.host.download(0, b"a")
        self.host.status()
        with told() as errors:
            self.host.ask("control a103000000000600")
            self.host.ask("control a103000000000600")
        self.assertIn("Memory: written and manifested return None, or a Status, as Status.ERR_WRITE, and not 3", errors.getvalue())


class Kinds(Memories):
    def made(self, **words: Any) -> Any:
        """A loader with these attributes."""
        self.device = type("Other", (Memory,), words)()
        self.host = Loader(self.device)
        return self.device

    def test_what_a_device_says_of_itself(self) -> None:
        """4.2.3, 4.2.4: protocol 2; bits 0 to 3: download, upload, tolerant of manifestation, will detach; DFU 1.1 is 0110."""
        kinds: List[Tuple[Dict[str, Any], str]] = [({}, "07"), ({"can_download": False}, "06"), ({"can_upload": False}, "05"),
                                                   ({"is_tolerant": False}, "03"), ({"will_detach": True}, "0f")]
        for words, bits in kinds:
            self.assertEqual(self.made(**words).configuration()[9:].hex(), "0904000000fe010204" f"0921{bits}ff0040001001")
        self.assertEqual(Dfu().configuration()[9:].hex(), "0904000000fe010204" "092107ff0000041001")
        self.assertIn("string 0 4 flash\n", self.made(memory="flash").text())

    def test_one_that_only_reads_or_only_writes(self) -> None:
        self.made(can_download=False, firmware=b"abc")
        self.assertEqual(self.host.upload(0, 64), b"abc")
        with self.assertRaises(Stalled):
            self.host.download(0, b"a")
        self.made(can_upload=False)
        with self.assertRaises(Stalled):
            self.host.upload(0, 64)
        self.assertEqual(self.host.status(), (Status.ERR_STALLEDPKT, 0, State.ERROR))

    def test_one_that_isnt_tolerant_waits_for_a_reset(self) -> None:
        """A.2.9: dfuMANIFEST-WAIT-RESET."""
        self.made(is_tolerant=False)
        self.give(b"new")
        self.assertEqual([self.host.status() for _ in range(3)], [(0, 50, State.MANIFEST), (0, 0, 8), (0, 0, 8)])
        with self.assertRaises(Stalled):
            self.host.download(0, b"a")
        self.host.tell("reset")
        self.assertEqual((self.host.state(), self.device.firmware), (State.IDLE, b"new"))

    def test_one_that_takes_no_time(self) -> None:
        self.made(writing=0, manifesting=0)
        self.host.download(0, b"a")
        self.assertEqual(self.host.status(), (0, 0, State.DNLOAD_IDLE))
        self.host.download(1, b"")
        self.assertEqual((self.host.status(), self.host.waited, self.device.firmware), ((0, 0, State.IDLE), 0, b"a"))

    def test_a_strict_one_is_asked_after_its_time(self) -> None:
        """bwPollTimeout is the least time before the next DFU_GETSTATUS (6.1.2), here by a clock that the test sets."""
        with mock.patch("tirnouch.dfu.time.monotonic") as clock:
            self.made(is_strict=True)
            for later, expected in ((0.0199, (Status.ERR_STALLEDPKT, 0, State.ERROR)), (0.0201, (0, 0, State.DNLOAD_IDLE))):
                clock.return_value = 100.0
                self.host.download(0, b"a")
                self.assertEqual(self.host.status(), (0, 20, State.DNBUSY))
                clock.return_value += later
                if expected[0]:
                    with self.assertRaises(Stalled):
                        self.host.status()
                self.assertEqual(self.host.status(), expected)
                if expected[0]:
                    self.host.control(0x21, 4, 0, 0)
        self.assertEqual(self.host.waited, 0)

    def test_what_leaves(self) -> None:
        """Behind DETACH, or behind a reset that follows a manifestation; without will_detach DETACH is an error, and a reset an end."""
        self.made(will_detach=True)
        self.assertEqual(self.host.ask("control 2100e80300000000"), "gone")
        self.give(b"new")
        self.host.status()
        self.host.status()
        self.host.tell("reset")
        for question in ("control a105000000000100", "control a103000000000600", "control 8006000100001200", "control 2101000000000100 6f",
                         "control a102000000004000"):
            self.assertEqual(self.host.ask(question), "gone", question)
        self.host.tell("plugged")
        self.assertEqual((self.host.state(), self.device.firmware), (State.IDLE, b"new"))
        self.made()
        with self.assertRaises(Stalled):
            self.host.control(0x21, 0, 1000, 0)
        self.assertEqual(self.host.state(), State.ERROR)

    def test_what_is_refused_where_a_class_is_made(self) -> None:
        wrong: List[Tuple[Dict[str, Any], Type[Exception], str]] = [
            ({"firmware": "abc"}, TypeError, "Wrong: `firmware` is bytes, and not 'abc'"),
            ({"can_upload": 1}, TypeError, "Wrong: `can_upload` is True or False, and not 1"),
            ({"transfer": 0}, ValueError, "Wrong: `transfer` is 0x1 to 0x1000, and not 0x0"),
            ({"writing": -1}, ValueError, "Wrong: `writing` is 0x0 to 0xffffff"),
            ({"writing": 0.5}, TypeError, "`writing` is a whole number"), ({"size": 0}, ValueError, "Wrong: `size` is 0x1 to"),
            ({"memory": 5}, TypeError, "Wrong: `memory` is the name of the memory, a str"),
            ({"detach_timeout": 65536}, ValueError, "Wrong: `detach_timeout` is 0x0 to 0xffff"),
            ({"will_detach": "yes"}, TypeError, "Wrong: `will_detach` is True or False, and not 'yes'")]
        for words, error, sentence in wrong:
            with self.assertRaisesRegex(error, sentence):
                type("Wrong", (Dfu,), words)


class Plain(Runtime):
    """An application of one vendor's interface."""


class Waiting(Runtime):
    """It waits for a reset."""

    will_detach = False
    detach_timeout = 1000


class Applications(unittest.TestCase):
    def test_what_a_device_says_of_itself(self) -> None:
        """4.2.1 to 4.2.4: class FE, subclass 1, protocol 1; its functional descriptor."""
        self.assertEqual(Plain().configuration()[9:].hex(), "090400000" "0ff000000" "0904010000fe010100" "09210fff0000041001")
        self.assertEqual(Waiting().configuration()[27:].hex(), "092107e80300041001")

    def test_it_leaves_at_once(self) -> None:
        """bitWillDetach. Interface 1 is its own; a request to another one isn't meant."""
        host = Host(Plain())
        self.assertEqual(host.ask("control 2100e80300000000"), "t")
        self.assertEqual(host.control(0xA1, 3, 0, 1, 6), bytes(6))
        self.assertEqual(host.control(0xA1, 5, 0, 1, 1), bytes(1))
        self.assertEqual(host.ask("control 2100e80301000000"), "gone")

    def test_it_waits_for_a_reset(self) -> None:
        """A.2.1 and A.2.2: appIDLE, appDETACH. Without DETACH a reset is but one."""
        host = Host(Waiting())
        host.tell("reset")
        self.assertEqual(host.control(0xA1, 5, 0, 1, 1), b"\0")
        host.control(0x21, 0, 1000, 1)
        self.assertEqual((host.control(0xA1, 5, 0, 1, 1), host.control(0xA1, 3, 0, 1, 6)[4]), (b"\1", 1))
        self.assertEqual(host.ask("control 8006000100001200"), "t")
        host.tell("reset")
        for question in ("control a105000001000100", "control a103000001000600", "control 8006000100001200", "control 2100e80301000000"):
            self.assertEqual(host.ask(question), "gone", question)
        host.tell("plugged")
        self.assertEqual(host.control(0xA1, 5, 0, 1, 1), b"\0")

    def test_beside_other_classes(self) -> None:
        """Each one answers its own; a reset is for all of them. A1 03 is GET_PROTOCOL of HID, and DFU_GETSTATUS at interface 1."""

        class Keys(Hid, Runtime):
            report_descriptor, boot = keyboard(), "keyboard"
            reports = interrupt_in(0x81, 8)

        class Port(Serial, Runtime):
            pass

        keys = Keys()
        host = Host(keys)
        self.assertEqual((keys.configuration()[4], Port().configuration()[4]), (2, 3))
        self.assertEqual((host.control(0xA1, 3, 0, 0, 1), host.control(0xA1, 3, 0, 1, 6)), (b"\1", bytes(6)))
        host.control(0x21, 0x0B, 0, 0)
        host.tell("reset")
        self.assertEqual(host.control(0xA1, 3, 0, 0, 1), b"\1")
        self.assertEqual(host.ask("control 2100000001000000"), "gone")
        self.assertEqual(Host(Port()).ask("control 2100000002000000"), "gone")

    def test_it_stands_behind_the_other_classes(self) -> None:
        with self.assertRaisesRegex(TypeError, r"Wrong: Runtime stands behind the other classes: class Wrong\(Scpi, Runtime\)"):
            type("Wrong", (Runtime, Scpi), {})
        with self.assertRaisesRegex(ValueError, "Wrong: `attributes_of_loader` is 0x0 to 0x7"):
            type("Wrong", (Runtime,), {"attributes_of_loader": 8})

    def test_two_classes_that_have_interface_0_are_none(self) -> None:
        for bases, sentence in (((Serial, Scpi), "interface 0 is Serial's or Scpi's: a class has one of them as a base"),
                                ((Scpi, Memory), "Scpi's or Dfu's")):
            with self.assertRaisesRegex(TypeError, sentence):
                type("Wrong", bases, {"replies": bulk_in(0x85), "packets": bulk_out(0x05)})

    def test_a_chain(self) -> None:
        """`comes back D as E` (docs/DEVICES.md), for all but the last."""
        devices = chain(Plain(), Memory(), Device())
        texts = [it.text(number) for number, it in enumerate(devices)]
        self.assertTrue(texts[0].endswith("comes back 0 as 1\n") and texts[1].endswith("comes back 1 as 2\n"))
        self.assertNotIn("comes", texts[2] + Plain().text())
        for wrong, sentence in (((), "chain takes two or more devices"), ((Plain(),), "two or more"),
                                ((Device(), Memory()), "of Dfu and Runtime"),
                                ((Plain(), 5), "two or more devices, as chain")):
            with self.assertRaisesRegex(TypeError, sentence):
                chain(*wrong)  # type: ignore[arg-type]


class Drivers(unittest.TestCase):
    @unittest.skipIf(lacking_driver("usb.core"), lacking_driver("usb.core") or "")
    def test_by_pyusb(self) -> None:
        drive("dfu_pyusb.py", "usb.core")
        drive("dfu_reset_pyusb.py", "usb.core")

    @unittest.skipIf(not DFU_UTIL or lacking(), lacking() or "there is no dfu-util: apt-get install dfu-util")
    def test_by_dfu_util(self) -> None:
        """Its texts are those of src/main.c and src/dfu_load.c; states and statuses by 6.1.2. The application leaves for its loader."""
        sound = bytes(range(250)) * 9
        for tail, expected in ((sum(sound) & 255, "DFU state(2) = dfuIDLE, status(0) = No error condition is present\nDone!"),
                               (sum(sound) + 1 & 255, "DFU state(10) = dfuERROR, status(10)")):
            with tempfile.TemporaryDirectory() as name:
                folder = pathlib.Path(name)
                (folder / "firmware").write_bytes(sound + bytes((tail,)))
                text = program_line(0, HERE / "application.py", "0105") + program_line(1, DEVICES / "loader.py") + "comes back 0 as 1\n"
                (folder / "devices.txt").write_text(text)
                ran = run([DFU_UTIL, "-d", "1209:0105,1209:0033", "--detach-delay", "0", "-D", folder / "firmware"],
                          TIRNOUCH_DEVICES=str(folder / "devices.txt"), TIRNOUCH_TIME="")
            self.assertIn("Device really in Run-Time Mode, send DFU detach request...", ran.stdout)
            self.assertIn("DFU state(7) = dfuMANIFEST, status(0) = No error condition is present", ran.stdout, ran.stderr)
            self.assertIn(expected, ran.stdout)
