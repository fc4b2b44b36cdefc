"""USB devices in Python, for programs that use libusb over Tirnouch's libusb-1.0.so.0 (docs/PYTHON.md).

    import tirnouch as t

    class Echo(t.Device):
        ids, serial = (0x1209, 0x0020), "E1"
        config = t.config(t.bulk_out(0x02), t.bulk_in(0x81))

        def out_02(self, packet):                # a packet of the host's
            self.send(0x81, packet[::-1])        # what is read at 81 behind it

        def control(self, setup, data):          # a request
            return b"1.0" if setup.type == 0xC0 else t.DEFAULT

    with t.bus(Echo()) as bus: ..                # or a test that is marked by @pytest.mark.tirnouch(Echo)

device.py has the class of devices, configurations.py its descriptors as an expression, endpoints.py the decorators that say the same of
methods, answers.py what a method may return, faults.py what a test makes fail, descriptors.py what a device says of itself, questions.py
what it is asked; inprocess.py plugs it into this process, protocol.py makes a program of it. buses.py has the bus, ports.py its devices,
sources.py those of a text or a recording; plugin.py is pytest's. The base classes of devices, as Hid of hid.py, are loaded when they are
asked for."""
from __future__ import annotations

import importlib
from typing import TYPE_CHECKING, Any, List

from tirnouch.answers import ACK, AS_TEXT, BROKEN, DEFAULT, GONE, NAK, SILENT, STALL, UNPLUG, After, Answer, after, later
from tirnouch.configurations import config, interface
from tirnouch.descriptors import Interface, hid_descriptor
from tirnouch.device import Device
from tirnouch.endpoints import Request, bulk_in, bulk_out, control, interrupt_in, interrupt_out
from tirnouch.library import LibraryError
from tirnouch.limits import LimitOver
from tirnouch.sources import SourceError, becomes, file, recorded, text
from tirnouch.buses import Bus, Differs, bus, plug
from tirnouch.programs import Completed, run
from tirnouch.protocol import main

if TYPE_CHECKING:
    from tirnouch import dfu, hid, scpi, serial, storage, usbtmc
    from tirnouch.dfu import Dfu
    from tirnouch.hid import Hid
    from tirnouch.scpi import Scpi
    from tirnouch.serial import Serial
    from tirnouch.storage import Storage
    from tirnouch.usbtmc import Usbtmc

# The base classes, and the modules that have them.
BASES = {"Dfu": "dfu", "Hid": "hid", "Scpi": "scpi", "Serial": "serial", "Storage": "storage", "Usbtmc": "usbtmc"}

__all__ = ["ACK", "AS_TEXT", "BROKEN", "DEFAULT", "GONE", "NAK", "SILENT", "STALL", "UNPLUG", "After", "Answer", "Bus", "Completed",
           "Device", "Dfu", "Differs", "Hid", "Interface", "LibraryError", "LimitOver", "Request", "Scpi", "Serial", "SourceError",
           "Storage", "Usbtmc", "after", "becomes", "bulk_in", "bulk_out", "bus", "config", "control", "dfu", "file", "hid",
           "hid_descriptor", "interface", "interrupt_in", "interrupt_out", "later", "main", "plug", "recorded", "run", "scpi", "serial",
           "storage", "text", "usbtmc"]


def __getattr__(name: str) -> Any:
    """A base class, or the module of one, is loaded when it is asked for first."""
    if name in BASES.values():
        return importlib.import_module(f"tirnouch.{name}")
    if name in BASES:
        return getattr(importlib.import_module(f"tirnouch.{BASES[name]}"), name)
    raise AttributeError(f"module 'tirnouch' has no attribute {name!r}")


def __dir__() -> List[str]:
    """What it has, the base classes among it."""
    return sorted({*globals(), *__all__})
