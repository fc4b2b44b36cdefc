"""Devices that are programs in Python, started and asked by the library itself: their lines of a text, answers, events, and their end."""
from __future__ import annotations

import os
import pathlib
import shlex
import sys
import tempfile
import unittest
from unittest import mock

import tirnouch
from tests.harness import DEVICES, PYTHON
from tests.libusb import NO_DEVICE, PIPE, TIMEOUT, Program, lacking, logged

# A device with the ids 1209:0022, which writes down what it is told.
SOURCE = """
import sys
from tirnouch import *
class Thing(Device):
    product = 0x0022
    replies = bulk_in(0x81)
    @bulk_out(0x02)
    def taken(self, packet):
        if packet == b"bug":
            raise ValueError("a bug of the device")
        if packet == b"end":
            sys.exit(3)
        if packet == b"stall":
            return self.stall(0x81)
        self.send(0x81, packet[::-1])
    @bulk_in(0x83)
    def slow(self, room):
        self.asked = not getattr(self, "asked", False)
        return later(100) if self.asked else b"at last"
    def told(self, *words):
        with open(sys.argv[1], "a") as file:
            print(*words, file=file)
    on_claimed = lambda self, number: self.told("claimed", number)
    on_released = lambda self, number: self.told("released", number)
    on_cleared = lambda self, number: self.told("cleared", f"{number:02x}")
    on_reset = lambda self: self.told("reset")
    on_plugged = lambda self: self.told("plugged")
    on_pulled = lambda self: self.told("pulled")
    def __init__(self, _path):
        pass
main(Thing)
"""


@unittest.skipIf(lacking(), lacking() or "")
class Programs(unittest.TestCase):
    def setUp(self) -> None:
        folder = tempfile.TemporaryDirectory()
        self.addCleanup(folder.cleanup)
        self.source, self.events, self.errors = (pathlib.Path(folder.name) / it for it in ("thing.py", "events", "errors"))
        self.source.write_text(SOURCE)
        kept = {key: value for key, value in os.environ.items() if not key.startswith(("TIRNOUCH_", "LIBUSB_"))}
        steering = mock.patch.dict(os.environ, kept, clear=True)
        steering.start()
        self.addCleanup(steering.stop)

    def plug(self, *words: object) -> Program:
        """A program of the host's over the device whose program has these words."""
        command = ["env", f"PYTHONPATH={PYTHON}", "PYTHONDONTWRITEBYTECODE=1", sys.executable, *words]
        bus = tirnouch.bus(tirnouch.text(f"program 0 {shlex.join(map(str, command))} 2>{shlex.quote(str(self.errors))}\n"))
        self.addCleanup(bus.close)
        program = Program()
        self.addCleanup(program.end)
        return program

    def plug_thing(self) -> Program:
        """One over the thing of this test, opened."""
        program = self.plug(self.source, self.events)
        self.assertTrue(program.open(0x1209, 0x0022))
        return program

    def test_an_echo(self) -> None:
        program = self.plug(DEVICES / "echo.py")
        self.assertTrue(program.open(0x1209, 0x0020))
        self.assertEqual(program.write(0x02, bytes(1000)), 1000)
        self.assertEqual(program.read(0x81, 1024), bytes(1000))
        self.assertEqual(program.control(0xC0, 1, 0, 0, 4), b"\2\0\0\0")
        self.assertEqual(program.control(0x40, 2, 0, 0), 0)
        self.assertEqual(program.control(0xC0, 1, 0, 0, 4), bytes(4))
        self.assertEqual(program.control(0xC0, 3, 0, 0, 4), PIPE)

    def test_a_stall_and_a_wait(self) -> None:
        program = self.plug_thing()
        program.write(0x02, b"stall")
        self.assertEqual(program.read(0x81), PIPE)
        self.assertEqual(program.clear_halt(0x81), 0)
        self.assertEqual(program.read(0x81, milliseconds=20), TIMEOUT)
        self.assertEqual(program.read(0x83, milliseconds=20), TIMEOUT)
        self.assertEqual(program.read(0x83), b"at last")

    def test_an_exception_is_a_stall_of_the_transfer(self) -> None:
        program = self.plug_thing()
        self.assertEqual(program.write(0x02, b"bug"), PIPE)
        self.assertEqual(program.clear_halt(0x02), 0)
        self.assertIn("ValueError: a bug of the device\nThing: an exception at `out 02 627567`", self.errors.read_text())
        self.assertEqual(program.write(0x02, b"ab"), 2)
        self.assertEqual(program.read(0x81), b"ba")

    def test_events(self) -> None:
        program = self.plug_thing()
        program.write(0x02, b"lost")
        self.assertEqual(program.reset(), 0)
        self.assertEqual(program.read(0x81, milliseconds=20), TIMEOUT)
        program.write(0x02, b"stall")
        program.read(0x81)
        program.clear_halt(0x81)
        program.close()
        program.open(0x1209, 0x0022)
        self.assertEqual(program.write(0x02, b"behind the events"), 17)
        self.assertEqual(self.events.read_text().splitlines(), ["claimed 0", "reset", "cleared 81", "released 0", "claimed 0"])

    def test_it_leaves_and_comes_back(self) -> None:
        program = self.plug_thing()
        program.write(0x02, b"lost")
        self.assertEqual(program.library.tirnouch_pull(0), 0)
        self.assertEqual(program.write(0x02, b"a"), NO_DEVICE)
        program.close()
        self.assertEqual(program.library.tirnouch_show(0), 0)
        self.assertTrue(program.open(0x1209, 0x0022))
        self.assertEqual(program.read(0x81, milliseconds=20), TIMEOUT)
        told = self.events.read_text().splitlines()
        self.assertEqual([it for it in told if it[0] == "p"], ["pulled", "plugged"])

    def test_a_program_that_ends_is_pulled_out(self) -> None:
        program = self.plug_thing()
        with logged() as text:
            self.assertEqual(program.write(0x02, b"end"), NO_DEVICE)
        self.assertEqual(text(), "libusb: error device 0: its program ended: it is pulled out\n")
        program.close()
        self.assertFalse(program.open(0x1209, 0x0022))
