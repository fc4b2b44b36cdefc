"""Devices in this process, over the library itself: what libusb's manual says of each error is what a device's answer becomes."""
from __future__ import annotations

import ctypes
import os
import pathlib
import subprocess
import sys
import tempfile
import threading
import unittest
from typing import Any, List, Optional
from unittest import mock

from tests.harness import PYTHON, told
from tests.libusb import NO_DEVICE, PATH, PIPE, TIMEOUT, Program, lacking
from tirnouch import GONE, STALL, Bus, Device, Request, bulk_in, bulk_out, control, later, plug

VENDOR, PRODUCT = 0x1209, 0x0021


class Thing(Device):
    """It sends back what it took, but for some words."""

    product = PRODUCT
    strings = ("Works", "Thing", "THING-1")
    replies = bulk_in(0x81)

    def __init__(self) -> None:
        self.events: List[Any] = []
        self.answers: List[Any] = []
        self.bus: Optional[Bus] = None

    @bulk_out(0x02)
    def taken(self, packet: bytes) -> Any:
        if packet == b"stall":
            self.stall(0x81)
            return None
        if packet == b"bug":
            raise ValueError("a bug of the device")
        if packet == b"go":
            return GONE
        if packet == b"pull" and self.bus:
            self.bus.pull(self)
        self.send(0x81, packet[::-1])
        return None

    @bulk_in(0x83)
    def computed(self, _room: int) -> Any:
        return self.answers.pop(0) if self.answers else None

    @control(0xC0, 1)
    def told(self, request: Request) -> bytes:
        return bytes((request.value, request.index)) + b"1.0"

    @control(0x40, 2)
    def written(self, request: Request) -> Any:
        self.events.append(request.data)
        return STALL if request.data == b"no" else None

    def on_claimed(self, interface: int) -> None:
        self.events.append(("claimed", interface))

    def on_released(self, interface: int) -> None:
        self.events.append(("released", interface))

    def on_reset(self) -> None:
        self.events.append("reset")

    def on_cleared(self, endpoint: int) -> None:
        self.events.append(("cleared", endpoint))

    def on_plugged(self) -> None:
        self.events.append("plugged")

    def on_pulled(self) -> None:
        self.events.append("pulled")


@unittest.skipIf(lacking(), lacking() or "")
class Plugged(unittest.TestCase):
    """A device and a program. Variables that steer the library are out of the way, but for its time: virtual time passes at once."""

    time = "virtual"

    def setUp(self) -> None:
        kept = {key: value for key, value in os.environ.items() if not key.startswith(("TIRNOUCH_", "LIBUSB_"))}
        steering = mock.patch.dict(os.environ, {**kept, "TIRNOUCH_TIME": self.time}, clear=True)
        steering.start()
        self.addCleanup(steering.stop)
        self.device = Thing()
        self.device.bus = self.bus = plug(self.device, library=str(PATH))
        self.addCleanup(self.bus.close)
        self.program = Program()
        self.addCleanup(self.program.end)
        self.assertTrue(self.program.open(VENDOR, PRODUCT))
        self.device.events.clear()


class Answers(Plugged):
    def test_bytes_go_both_ways(self) -> None:
        self.assertEqual(self.program.write(0x02, b"abc"), 3)
        self.assertEqual(self.program.read(0x81), b"cba")

    def test_a_transfer_of_packets(self) -> None:
        data = bytes(range(256)) * 4
        self.assertEqual(self.program.write(0x02, data), 1024)
        self.assertEqual(self.program.read(0x81, 1024), data[:512][::-1] + data[512:][::-1])

    def test_what_isnt_ready_waits_until_the_timeout(self) -> None:
        self.assertEqual(self.program.read(0x81, milliseconds=50), TIMEOUT)
        self.assertEqual(self.program.write(0x02, b"a"), 1)
        self.assertEqual(self.program.read(0x81, milliseconds=50), b"a")

    def test_requests(self) -> None:
        self.assertEqual(self.program.control(0xC0, 1, 7, 8, 64), b"\x07\x081.0")
        self.assertEqual(self.program.control(0xC0, 1, 7, 8, 3), b"\x07\x081")
        self.assertEqual(self.program.control(0x40, 2, 0, 0, b"abc"), 3)
        self.assertEqual(self.program.control(0x40, 2, 0, 0, b"no"), PIPE)
        self.assertEqual(self.device.events, [b"abc", b"no"])

    def test_the_descriptors_answer_what_no_method_does(self) -> None:
        """USB 2.0, 9.4.3: string 2, in units of UTF-16; a vendor's request that nothing answers is refused."""
        self.assertEqual(self.program.control(0x80, 6, 0x0302, 0x0409, 255), b"\x0c\x03" + "Thing".encode("utf-16-le"))
        self.assertEqual(self.program.control(0xC0, 9, 0, 0, 1), PIPE)

    def test_a_stall_ends_by_clear_halt(self) -> None:
        self.program.write(0x02, b"stall")
        self.assertEqual(self.program.read(0x81), PIPE)
        self.assertEqual(self.program.clear_halt(0x81), 0)
        self.program.write(0x02, b"ab")
        self.assertEqual(self.program.read(0x81), b"ba")
        self.assertEqual(self.device.events, [("cleared", 0x81)])

    def test_an_exception_is_a_stall_of_the_transfer(self) -> None:
        with told() as errors:
            self.assertEqual(self.program.write(0x02, b"bug"), PIPE)
        self.assertIn("ValueError: a bug of the device", errors.getvalue())
        self.assertEqual(self.program.clear_halt(0x02), 0)
        self.assertEqual(self.program.write(0x02, b"a"), 1)

    def test_a_wait(self) -> None:
        self.device.answers = [later(3_600_000), later(5), b"at last"]
        self.assertEqual(self.program.read(0x83, milliseconds=0), b"at last")

    def test_a_wait_that_is_longer_than_the_timeout(self) -> None:
        self.device.answers = [later(1000), b"at last"]
        self.assertEqual(self.program.read(0x83, milliseconds=500), TIMEOUT)
        self.assertEqual(self.program.read(0x83, milliseconds=1000), b"at last")


class Events(Plugged):
    def test_claims_are_told(self) -> None:
        self.program.close()
        self.program.open(VENDOR, PRODUCT)
        self.assertEqual(self.device.events, [("released", 0), ("claimed", 0)])

    def test_a_reset_leaves_nothing_to_read(self) -> None:
        self.program.write(0x02, b"abc")
        self.assertEqual(self.program.reset(), 0)
        self.assertEqual(self.program.read(0x81, milliseconds=20), TIMEOUT)
        self.assertEqual(self.device.events, ["reset"])

    def test_a_device_leaves_and_comes_back(self) -> None:
        self.program.write(0x02, b"left")
        self.assertEqual(self.program.write(0x02, b"go"), NO_DEVICE)
        self.program.close()
        self.assertFalse(self.program.open(VENDOR, PRODUCT))
        self.bus.show(self.device)
        self.assertTrue(self.program.open(VENDOR, PRODUCT))
        self.assertEqual(self.program.read(0x81, milliseconds=20), TIMEOUT)
        self.assertEqual(self.program.write(0x02, b"ab"), 2)
        self.assertEqual(self.program.read(0x81), b"ba")
        self.assertEqual([it for it in self.device.events if isinstance(it, str)], ["pulled", "plugged"])

    def test_a_device_is_pulled_out(self) -> None:
        self.bus.pull(self.device)
        self.assertEqual(self.program.write(0x02, b"a"), NO_DEVICE)
        with self.assertRaisesRegex(RuntimeError, "device 0, Thing: pull: it is gone"):
            self.bus.pull(self.device)

    def test_a_device_is_plugged_in_anew(self) -> None:
        self.bus.replug(self.device)
        self.assertEqual(self.program.read(0x81), NO_DEVICE)
        self.assertTrue(self.program.open(VENDOR, PRODUCT))
        self.assertEqual(self.device.events, ["pulled", "plugged", ("claimed", 0)])

    def test_nothing_is_left_and_nothing_differs(self) -> None:
        self.assertEqual(self.bus.left(), [])
        self.assertEqual(self.bus.report(), [])
        self.assertEqual(self.bus.error(), "")

    def test_the_clock(self) -> None:
        before = self.bus.now()
        self.bus.advance(250)
        self.assertEqual(self.bus.now(), before + 250)
        with self.assertRaises(ValueError):
            self.bus.advance(-1)

    def test_what_isnt_called_from_a_method(self) -> None:
        refused: List[str] = []

        def answer(call: Any) -> bytes:
            try:
                call()
            except RuntimeError as error:
                refused.append(str(error))
            return b"x"

        for call in (self.bus.left, self.bus.report, self.bus.now, lambda: self.bus.advance(1), self.bus.close):
            with mock.patch.object(Thing, "told", lambda _thing, _request, call=call: answer(call)):
                self.assertEqual(self.program.control(0xC0, 1, 0, 0, 8), b"x")
        self.assertEqual([it.split()[0] for it in refused], ["advance", "end"])

    def test_a_device_that_is_there_isnt_shown(self) -> None:
        with self.assertRaisesRegex(RuntimeError, "device 0, Thing: show: there is none to do that with"):
            self.bus.show(self.device)

    def test_a_method_that_is_asked_doesnt_call_the_library(self) -> None:
        with told() as errors:
            self.assertEqual(self.program.write(0x02, b"pull"), PIPE)
        self.assertIn("pull isn't called from a method that is asked", errors.getvalue())
        self.assertIn("return GONE there", errors.getvalue())
        self.assertEqual(self.program.clear_halt(0x02), 0)
        self.assertEqual(self.program.write(0x02, b"a"), 1)


class Threads(Plugged):
    time = ""

    def test_another_thread_says_that_the_device_is_ready(self) -> None:
        self.device.answers = [later(3_600_000)]
        timer = threading.Timer(0.1, self.make_ready)
        timer.start()
        self.assertEqual(self.program.read(0x83, milliseconds=20_000), b"ready")
        timer.join()

    def make_ready(self) -> None:
        """From the timer's thread."""
        self.device.answers.append(b"ready")
        self.device.ready()


@unittest.skipIf(lacking(), lacking() or "")
class Plugs(unittest.TestCase):
    def test_two_devices(self) -> None:
        class Other(Thing):
            product = PRODUCT + 1

        first, second = Thing(), Other()
        with plug(first, second, library=str(PATH)):
            program = Program()
            try:
                for product, data in ((PRODUCT, b"first"), (PRODUCT + 1, b"second")):
                    self.assertTrue(program.open(VENDOR, product))
                    program.write(0x02, data)
                    self.assertEqual(program.read(0x81), data[::-1])
                with self.assertRaisesRegex(RuntimeError, "there is a bus already"):
                    plug(Thing(), library=str(PATH))
            finally:
                program.end()

    def test_sixteen_devices(self) -> None:
        things = [type("Thing", (Thing,), {"product": PRODUCT + number})() for number in range(16)]
        with plug(*things, library=str(PATH)):
            program = Program()
            try:
                for number, thing in enumerate(things):
                    self.assertTrue(program.open(VENDOR, PRODUCT + number))
                    thing.send(0x81, bytes((number,)))
                    self.assertEqual(program.read(0x81), bytes((number,)))
            finally:
                program.end()

    def test_what_isnt_a_device(self) -> None:
        thing = Thing()
        for words, error, sentence in (((Thing,), TypeError, r"plug takes devices, and not .*: plug\(Thing\(\)\)"),
                                       ((thing, 5), TypeError, "not 5"), ((thing, thing), ValueError, "each device once"),
                                       (tuple(Thing() for _ in range(17)), ValueError, "at most 16 devices, and not 17")):
            with self.assertRaisesRegex(error, sentence):
                plug(*words, library=str(PATH))

    def test_libraries_that_arent_tirnouchs(self) -> None:
        for path, sentence in (("/nowhere/libusb-1.0.so.0", "/nowhere/libusb-1.0.so.0 isn't there"),
                               ("libc.so.6", "isn't Tirnouch's library")):
            with self.assertRaisesRegex(RuntimeError, sentence + ".*TIRNOUCH_LIBRARY"):
                plug(Thing(), library=path)

    def test_why_a_device_isnt_taken(self) -> None:
        """It is free for another bus then."""
        thing = Thing()
        thing.lines = [("speed", "fast")]
        for _ in range(2):
            with self.assertRaisesRegex(RuntimeError, '"fast"'):
                plug(thing, library=str(PATH))

    def test_the_variables_steer_it(self) -> None:
        with tempfile.TemporaryDirectory() as folder:
            steering = {"TIRNOUCH_TIME": "virtual", "TIRNOUCH_SEED": "7", "TIRNOUCH_TRACE": f"{folder}/trace"}
            with mock.patch.dict(os.environ, steering), plug(Thing(), library=str(PATH)) as bus:
                bus.advance(70)
                self.assertEqual((bus.now(), bus.seed), (70, 7))
            self.assertTrue(pathlib.Path(folder, "trace").is_file())
        for said in ("x", "-1", str(1 << 64)):
            with mock.patch.dict(os.environ, {"TIRNOUCH_SEED": said}):
                with self.assertRaisesRegex(ValueError, "TIRNOUCH_SEED is a whole number"):
                    plug(Thing(), library=str(PATH))

    def test_it_ends_with_the_process(self) -> None:
        code = "import tirnouch as t\nbus = t.plug(t.Device())\nend = bus.end\nbus.end = lambda: print('ended', end())\n"
        ran = subprocess.run([sys.executable, "-c", code], env={**os.environ, "PYTHONPATH": str(PYTHON), "TIRNOUCH_LIBRARY": str(PATH)},
                             capture_output=True, text=True, timeout=60, check=False)
        self.assertEqual((ran.returncode, ran.stdout, ran.stderr), (0, "ended None\n", ""))

    def test_a_device_that_isnt_plugged_in(self) -> None:
        with plug(Thing(), library=str(PATH)) as bus:
            with self.assertRaisesRegex(ValueError, "isn't plugged in here"):
                bus.pull(Thing())

    def test_behind_close_its_methods_arent_called(self) -> None:
        device = Thing()
        bus = plug(device, library=str(PATH))
        program = Program()
        try:
            self.assertTrue(program.open(VENDOR, PRODUCT))
            device.send(0x81, b"abc")
            device.events.clear()
            bus.close()
            bus.close()
            self.assertEqual(program.read(0x81, milliseconds=20), NO_DEVICE)
            self.assertFalse(program.open(VENDOR, PRODUCT))
            self.assertEqual(device.events, [])
        finally:
            program.end()
        with self.assertRaisesRegex(RuntimeError, "returns later"):
            device.ready()

    def test_behind_close_the_bus_is_empty(self) -> None:
        with plug(Thing(), library=str(PATH)) as bus:
            self.assertEqual(len(bus.plugged), 1)
        self.assertEqual(bus.plugged, [])
        program = Program()
        self.assertFalse(program.open(VENDOR, PRODUCT))
        program.end()
