"""A device in this process: the library calls functions of ours, by ctypes (tirnouch.h). pyusb, usb1 and other packages that call libusb by
ctypes let go of Python's lock while the library works. A C extension that keeps the lock, and calls libusb in two threads, can lock up with
such a device: make the device a program there (protocol.py)."""
from __future__ import annotations

import _thread
import ctypes
import sys
import traceback
from typing import Any, Callable, List

from tirnouch import questions
from tirnouch.answers import STALL, Answer
from tirnouch.device import Device
from tirnouch.endpoints import IN
from tirnouch.library import Library
from tirnouch.limits import LimitOver

# What there is room for where a packet is read (tirnouch.h).
MOST_PACKET = 2048
BYTES = ctypes.POINTER(ctypes.c_uint8)
PACKET = ctypes.CFUNCTYPE(ctypes.c_int, ctypes.c_void_p, ctypes.c_uint8, BYTES, ctypes.c_int)
CONTROL = ctypes.CFUNCTYPE(ctypes.c_int, ctypes.c_void_p, BYTES, BYTES, ctypes.c_int)
LISTENER = ctypes.CFUNCTYPE(None, ctypes.c_void_p, ctypes.c_int, ctypes.c_int)


def told(call: Callable[..., int], *words: Any) -> int:
    """The answer of a function that the library calls: nothing is raised into the library. An interrupt of the terminal's is raised behind
    it, in the main thread."""
    try:
        return call(*words)
    except KeyboardInterrupt:
        _thread.interrupt_main()
        return STALL.number
    except LimitOver:
        return STALL.number
    except BaseException:  # pylint: disable=broad-except
        traceback.print_exc()
        return STALL.number


def moved(answer: Any, data: Any, room: int, inward: bool) -> int:
    """An answer as tirnouch.h has it: how many bytes moved, or the number of what else it is."""
    if isinstance(answer, Answer):
        return answer.number
    if not inward:
        return room
    if len(answer) > room:
        print(f"a packet of {len(answer)} bytes is cut to {room}", file=sys.stderr)
    count = min(len(answer), room)
    ctypes.memmove(data, answer, count)
    return count


class Functions:
    """The functions that answer for a device: those of a number, of which the device may change from bus to bus. None answers nothing."""

    def __init__(self) -> None:
        self.device: Any = None
        self.packet, self.control, self.listener = PACKET(self._packet), CONTROL(self._control), LISTENER(self._event)

    def _packet(self, _user: Any, address: int, data: Any, length: int) -> int:
        def answer() -> int:
            if address & IN:
                return moved(questions.packet_in(self.device, address, length), data, MOST_PACKET, True)
            return moved(questions.packet_out(self.device, address, ctypes.string_at(data, length)), data, length, False)

        return told(answer)

    def _control(self, _user: Any, setup: Any, data: Any, length: int) -> int:
        def answer() -> int:
            fields = ctypes.string_at(setup, 8)
            inward = bool(fields[0] & IN)
            written = b"" if inward or not length else ctypes.string_at(data, length)
            return moved(questions.request(self.device, fields, written), data, length, inward)

        return told(answer)

    def _event(self, _user: Any, kind: int, number: int) -> None:
        def tell() -> int:
            if 1 <= kind <= len(questions.EVENTS):
                questions.event(self.device, questions.EVENTS[kind - 1], number)
            return 0

        told(tell)


# Those of devices that were taken back. The library calls them with its lock held, so it is in none of them then: they are used again.
FREE: List[Functions] = []


class Plugged:
    """A device at its number, and the functions that answer for it."""

    def __init__(self, library: Library, number: int, device: Device) -> None:
        self.library, self.number, self.device = library, number, device
        self.functions = FREE.pop() if FREE else Functions()
        self.functions.device = device
        self.set(self.functions.packet, self.functions.control, self.functions.listener)
        device._wake = self.wake

    def set(self, packet: Any, control: Any, listener: Any) -> None:
        """The functions that the library calls; None stands for none."""
        c = self.library.c
        answers = [c.tirnouch_on_packet(self.number, ctypes.c_uint8(address), packet, None) for address in self.device.endpoints]
        answers.append(c.tirnouch_on_control(self.number, control, None))
        answers.append(c.tirnouch_on_event(self.number, listener, None))
        if any(answers):
            raise RuntimeError(f"{self.device}: the library has no device {self.number}")

    def take_back(self) -> None:
        """The device's functions are called no more."""
        self.set(None, None, None)
        self.device._wake = self.device._watcher = self.device._clock = None
        self.functions.device = None
        FREE.append(self.functions)

    def wake(self) -> None:
        """The device is asked again now."""
        self.library.c.tirnouch_ready(self.number)
