"""Tirnouch's library in this process: where it is found, and its functions of tirnouch.h, by ctypes.

It is loaded for all that ask for libusb-1.0.so.0 behind it: the system's loader has one library of a name in a process."""
from __future__ import annotations

import ctypes
import os
import pathlib
from typing import Any, Dict, List, Union

from tirnouch.device import ASKED

NAME = "libusb-1.0.so.0"
HERE = pathlib.Path(__file__).resolve().parent
# Inside the package, as a wheel has it; and in the repository, where `make c-try` and `make c-usb` build it.
PLACES = (HERE / "lib" / NAME, HERE.parents[1] / "bin" / NAME)
VARIABLE = "TIRNOUCH_LIBRARY"
# libusb's errors (libusb.h), in the words of these functions.
BUSY, NOT_FOUND = -6, -5
SENTENCES = {-2: "its options aren't taken", -4: "it is gone", -5: "there is none to do that with", -6: "there is a bus already",
             -11: "there is no memory", -12: "time is real here, or there is no bus", -99: "a line isn't taken, or a file can't be written"}
# How many bytes of text there is room for at first, and of a packet.
ROOM, MOST_TAKEN = 4096, 4096
REQUEST = 64
# The functions that answer within a device's method, too.
READING = ("left", "report", "error", "trace", "now", "took", "requests")
# The file of a trace; True keeps it in memory.
Trace = Union[str, "os.PathLike[str]", bool, None]


class Options(ctypes.Structure):
    """struct tirnouch_options"""

    _fields_ = [("size", ctypes.c_size_t), ("devices", ctypes.c_char_p), ("devices_length", ctypes.c_size_t), ("trace", ctypes.c_char_p),
                ("seed", ctypes.c_uint64), ("limit", ctypes.c_uint), ("is_virtual", ctypes.c_int), ("keeps_trace", ctypes.c_int)]


class LibraryError(RuntimeError):
    """The library can't be had, or refuses a call; the sentence says what to do."""


def find(named: Union[str, os.PathLike[str], None] = None) -> str:
    """The path of the library: the one that is named, by the call or by TIRNOUCH_LIBRARY; that of the package; that of the repository;
    else its name, which the system's loader looks for."""
    chosen = named or os.environ.get(VARIABLE)
    if chosen:
        return os.fspath(chosen)
    return next((str(it) for it in PLACES if it.is_file()), NAME)


def sentence(status: int) -> str:
    """What a status means."""
    return SENTENCES.get(status, f"status {status}")


class Library:
    """The functions of tirnouch.h. Those that change something aren't called from a method that is asked: the library waits for its
    answer."""

    def __init__(self, path: str) -> None:
        self.path = path
        try:
            self.c = ctypes.CDLL(path, mode=ctypes.RTLD_GLOBAL)
        except OSError as error:
            raise LibraryError(f"{path} isn't there ({error}): name Tirnouch's {NAME} by `library` or {VARIABLE}; in its repository "
                               "`make c-try` builds it") from error
        if not hasattr(self.c, "tirnouch_trace"):
            raise LibraryError(f"{path} isn't Tirnouch's library, or an older one: name its {NAME} by `library` or {VARIABLE}; in its "
                               "repository `make c-try` builds it")
        for name in ("left", "report", "error", "trace"):
            getattr(self.c, f"tirnouch_{name}").restype = ctypes.c_size_t
        self.c.tirnouch_now.restype = ctypes.c_uint64

    def call(self, name: str, *words: Any) -> int:
        """A function's answer."""
        return int(self.free(name)(*words))

    def free(self, name: str) -> Any:
        """A function, where none of its calls waits for this thread's answer."""
        if name not in READING and getattr(ASKED, "is_asked", False):
            raise RuntimeError(f"{name} isn't called from a method that is asked: the library waits for its answer"
                               + (": return GONE there to be pulled out" if name in ("pull", "replug") else ""))
        return getattr(self.c, f"tirnouch_{name}")

    def lines(self, name: str) -> List[str]:
        """The lines of a text that the library puts into memory, which says how many bytes that are."""
        function, room = self.free(name), ROOM
        while True:
            memory = ctypes.create_string_buffer(room)
            length = function(memory, ctypes.c_size_t(room))
            if length < room:
                return memory.value.decode("ascii", "backslashreplace").splitlines()
            room = length + 1

    def error(self) -> str:
        """What went wrong last; "" where nothing did."""
        return "".join(self.lines("error"))

    def clock(self) -> int:
        """The clock of timeouts, in milliseconds, which a device's method may ask for, too."""
        return int(self.c.tirnouch_now())

    def begin(self, text: bytes, seed: int, trace: Trace, is_virtual: bool) -> int:
        """The bus begins: the status."""
        file = None if isinstance(trace, bool) or trace is None else os.fsencode(trace)
        options = Options(ctypes.sizeof(Options), text, len(text), file, seed, 0, int(is_virtual), int(trace is True))
        return self.call("begin", ctypes.byref(options))

    def took(self, device: int, endpoint: int, index: int) -> bytes:
        """A packet that a device took. IndexError past the last."""
        room = ctypes.create_string_buffer(MOST_TAKEN)
        length = self.call("took", device, ctypes.c_uint8(endpoint), ctypes.c_size_t(index), room, ctypes.c_size_t(MOST_TAKEN))
        if length < 0:
            what = "keeps no packet" if length == -2 else "took no packet"
            raise IndexError(f"device {device} {what} {index} at {endpoint:02x}")
        return room.raw[:length]

    def requests(self, device: int) -> List[bytes]:
        """The requests that a device was sent, the first 4,096: 8 bytes of setup, and at most 56 of what was written, with zeros behind."""
        room = ctypes.create_string_buffer(REQUEST)
        count = min(self.call("requests", device, ctypes.c_size_t(0), None), 4096)
        found = []
        for index in range(count):
            self.call("requests", device, ctypes.c_size_t(index), room)
            found.append(room.raw)
        return found


LOADED: Dict[str, Library] = {}


def load(named: Union[str, os.PathLike[str], None] = None) -> Library:
    """The library, loaded once. LibraryError where there is none, or where it is another libusb."""
    path = find(named)
    if path not in LOADED:
        LOADED[path] = Library(path)
    return LOADED[path]
