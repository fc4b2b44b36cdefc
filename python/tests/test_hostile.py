"""Whatever a host sends, the classes that others are made from answer it, and none raises: an exception is a fault of theirs. Requests,
packets and events come by dice, of which each run has the same."""
from __future__ import annotations

import random
import unittest
from typing import Any, List, Type

from tests.harness import Host, told
from tirnouch import Device, interrupt_out
from tirnouch.dfu import Dfu, Runtime
from tirnouch.endpoints import Fields
from tirnouch.hid import Hid, keyboard, vendor
from tirnouch.scpi import Scpi, command
from tirnouch.serial import Serial
from tirnouch.storage import Storage
from tirnouch.usbtmc import Usbtmc

ROUNDS = 2500
# What begins like something that a class knows.
BEGINNINGS = (b"", b"USBC" + bytes(10) + b"\x0a", b"*IDN?\n", b"VOLT #15", b"VOLT 1e999,", b"'\n", b"\x01\x01\xfe\x00",
              b"\x02\x07\xf8\x00\x10\x00\x00\x00\x02\x0a\x00\x00", b"USBC" + bytes(5) + b"\2\0\0\x80\0\x0a\x28\0\0\0\0",
              b"USBC" + bytes(5) + b"\2\0\0\0\0\x0a\x2a\0\0\0\0")
VALUES = 0, 1, 0x0100, 0x0201, 0x0302, 0xFFFF


class Keys(Hid, Runtime):
    """Reports with ids, and one of several packets."""

    report_descriptor = keyboard(1) + vendor(input=100, output=100, feature=9, report_id=2)
    outputs = interrupt_out(0x02, 8)


class Echoing(Serial):
    """It answers each line."""

    def line(self, text: str) -> str:
        return text


class Instrument(Scpi):
    """One command of each type."""

    answers = {"*IDN?": "ACME"}

    @command("VOLTage#")
    def volts(self, output: int, value: float, name: str = "", is_on: bool = False) -> None:
        """Nothing."""

    @command("DATA?")
    def data(self, block: bytes = b"") -> bytes:
        """It comes back."""
        return block


class Usb(Usbtmc):
    """The same by USBTMC."""

    answers = Instrument.answers
    volts, data = Instrument.volts, Instrument.data


class Loader(Dfu):
    """It isn't tolerant."""

    is_tolerant, will_detach, transfer = False, True, 64


class Stick(Storage):
    """Eight blocks."""

    medium = bytes(4096)


class Hosts(unittest.TestCase):
    def question(self, device: Device, dice: random.Random) -> str:
        """A question by dice: the device's own requests and endpoints more often than others."""
        kind = dice.randrange(10)
        if kind == 9:
            return self.event(dice)
        data = dice.choice(BEGINNINGS) + bytes(dice.randrange(256) for _ in range(dice.choice((0, 0, 1, 7, 11, 16, 64, 500))))
        if kind < 4 or not device.endpoints:
            own = device.controls and dice.random() < 0.8
            fields: Any = dice.choice(device.controls)[0] if own else Fields(*(dice.randrange(256) for _ in range(4)))
            value, index = (dice.choice(VALUES) if it is None else it for it in (fields.value, fields.index))
            inward = fields.type & 0x80
            length = dice.choice((0, 1, 8, 4096)) if inward else len(data)
            head = bytes((fields.type, fields.request)) + b"".join(it.to_bytes(2, "little") for it in (value, index, length))
            return f"control {head.hex()} {'' if inward else data.hex()}"
        address = dice.choice(sorted(device.endpoints))
        return f"in {address:02x} {dice.choice((1, 64, 512))}" if address & 0x80 else f"out {address:02x} {data[:512].hex()}"

    def event(self, dice: random.Random) -> str:
        """An event by dice."""
        return dice.choice(("reset", "plugged", "cleared 02", "cleared 81", "claimed 0", "released 0", "pulled"))

    def test_no_class_raises(self) -> None:
        kinds: List[Type[Any]] = [Keys, Echoing, Instrument, Usb, Loader, Stick]
        for kind in kinds:
            for seed in range(3):
                dice, device = random.Random(seed), kind()
                host = Host(device)
                with told() as errors:
                    for number in range(ROUNDS):
                        asked = self.question(device, dice)
                        host.ask(asked)
                        self.assertEqual(errors.getvalue(), "", f"{kind.__name__}, seed {seed}, question {number}: {asked}")
