"""A few calls of libusb by ctypes, for tests with devices in this process: the library lets go of Python's lock meanwhile."""
from __future__ import annotations

import contextlib
import ctypes
import os
import pathlib
import tempfile
from typing import Any, Callable, Iterator, List, Optional, Tuple

# The names of libusb's errors (libusb.h).
IO, NO_DEVICE, TIMEOUT, PIPE, OTHER = -1, -4, -7, -9, -99
PATH = pathlib.Path(os.environ.get("TIRNOUCH_LIBRARY") or pathlib.Path(__file__).resolve().parents[2] / "bin" / "libusb-1.0.so.0")


def lacking() -> Optional[str]:
    """Why there is no library for these tests; None where there is one."""
    if not PATH.is_file():
        return f"there is no {PATH}: build it by `make c-try`, or name one by TIRNOUCH_LIBRARY"
    if not hasattr(ctypes.CDLL(str(PATH)), "tirnouch_on_packet"):
        return f"{PATH} is older than devices that compute: build it anew by `make c-try`"
    return None


@contextlib.contextmanager
def logged() -> Iterator[Callable[[], str]]:
    """What the library says on standard error meanwhile, as it is told behind."""
    with tempfile.TemporaryFile() as file:
        kept = os.dup(2)
        os.dup2(file.fileno(), 2)
        said: List[str] = []
        try:
            yield lambda: said[0]
        finally:
            os.dup2(kept, 2)
            os.close(kept)
            file.seek(0)
            said.append(file.read().decode())


class Program:
    """A program that uses libusb: one context, and one handle of a device."""

    def __init__(self) -> None:
        self.library = ctypes.CDLL(str(PATH))
        self.library.libusb_open_device_with_vid_pid.restype = ctypes.c_void_p
        self.context, self.handle = ctypes.c_void_p(), ctypes.c_void_p()
        self.call("init", ctypes.byref(self.context))

    def call(self, name: str, *words: Any) -> int:
        """A function of libusb; its answer, which is an error below 0."""
        return int(getattr(self.library, f"libusb_{name}")(*words))

    def open(self, vendor: int, product: int) -> bool:
        """Opens a device of these ids, and claims its interface 0; whether it is there."""
        self.close()
        found = self.library.libusb_open_device_with_vid_pid(self.context, ctypes.c_uint16(vendor), ctypes.c_uint16(product))
        self.handle = ctypes.c_void_p(found)
        return bool(found) and self.call("claim_interface", self.handle, 0) == 0

    def close(self) -> None:
        """Closes the handle, if there is one."""
        if self.handle:
            self.library.libusb_close(self.handle)
        self.handle = ctypes.c_void_p()

    def end(self) -> None:
        """Closes the handle and the context."""
        self.close()
        self.library.libusb_exit(self.context)

    def transfer(self, endpoint: int, data: Any, length: int, milliseconds: int) -> Tuple[int, int]:
        """A bulk transfer: its status, and how many bytes moved."""
        moved = ctypes.c_int()
        status = self.call("bulk_transfer", self.handle, ctypes.c_uint8(endpoint), data, length, ctypes.byref(moved), milliseconds)
        return status, moved.value

    def write(self, endpoint: int, data: bytes, milliseconds: int = 5000) -> int:
        """The status of a write, or how many bytes were taken."""
        status, moved = self.transfer(endpoint, data, len(data), milliseconds)
        return status or moved

    def read(self, endpoint: int, length: int = 512, milliseconds: int = 5000) -> "bytes | int":
        """What is read, or the status."""
        data = ctypes.create_string_buffer(length)
        status, moved = self.transfer(endpoint, data, length, milliseconds)
        return status or data.raw[:moved]

    def control(self, kind: int, request: int, value: int, index: int, data: "bytes | int" = b"") -> "bytes | int":
        """What a request reads; the status, or how many bytes moved, where it writes or fails."""
        length = data if isinstance(data, int) else len(data)
        room = ctypes.create_string_buffer(b"" if isinstance(data, int) else data, max(length, 1))
        fields = (ctypes.c_uint8(kind), ctypes.c_uint8(request), ctypes.c_uint16(value), ctypes.c_uint16(index))
        moved = self.call("control_transfer", self.handle, *fields, room, ctypes.c_uint16(length), 5000)
        return room.raw[:moved] if kind & 0x80 and moved >= 0 else moved

    def clear_halt(self, endpoint: int) -> int:
        """Ends an endpoint's halt."""
        return self.call("clear_halt", self.handle, ctypes.c_uint8(endpoint))

    def reset(self) -> int:
        """Resets the device."""
        return self.call("reset_device", self.handle)
