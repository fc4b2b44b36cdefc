"""A bus in this process: its devices, what a test asks of it, and what is wrong behind it."""
from __future__ import annotations

import atexit
import os
import re
import traceback
from typing import Any, Dict, Iterator, List, NamedTuple, Optional, Tuple, Union

from tirnouch import contexts
from tirnouch.device import Device
from tirnouch.inprocess import Plugged
from tirnouch.library import BUSY, LibraryError, Trace, load, sentence
from tirnouch.limits import Limit, LimitOver, milliseconds_of
from tirnouch.ports import Port
from tirnouch.sources import Becomes, PathLike, Text

# How many devices a bus has (tirnouch.h).
MOST_DEVICES = 16
MOST_SEED = (1 << 64) - 1
TIMES = ("real", "virtual")
Entry = Union[Device, Text, Becomes]
LINE = re.compile("the text of tirnouch_begin, line ([0-9]+)")
# Why a bus doesn't begin.
ANOTHER = "there is a bus already, which another test or another `with` began: it ends first, since a process has one"
OF_CONTEXTS = ("there is a bus already, which a context of libusb began with the devices that TIRNOUCH_DEVICES names, or this is within a "
               "callback of libusb's: close that context, or begin behind the callback")


class Fault(NamedTuple):
    """An exception in a device's method."""

    device: Device
    what: str
    error: Exception
    traceback: str

    def __str__(self) -> str:
        return f"{self.device}: an exception at `{self.what}`, which was answered by a stall"


class Differs(AssertionError):
    """What the program wrote differs from what a recording or a text expects."""


def entry_of(it: Any) -> Entry:
    """What a bus takes as devices."""
    __tracebackhide__ = True
    given = it
    if callable(it) and not isinstance(it, Device):
        it = it()
    if isinstance(it, (Device, Text, Becomes)):
        return it
    it = given
    hint = ": a file's name goes into file(..)" if isinstance(it, str) else ""
    raise TypeError("a bus takes devices: a class of Device, an object of one or a function that makes one, text(..), file(..), "
                    f"recorded(..) or becomes(..), and not {it!r}{hint}")


class Places:
    """The devices of a bus, by their numbers; its text; and from which numbers on what they write isn't judged."""

    def __init__(self, entries: List[Entry]) -> None:
        self.devices: List[Optional[Device]] = []
        self.described: List[str] = []
        self.successors: Dict[int, int] = {}
        self.lenient: List[int] = []
        self.text = ""
        self.begins: List[Tuple[int, str]] = []     # behind which line of the text each entry's begin, and what it is called
        for it in entries:
            self.add(it)
        found = [it for it in self.devices if it is not None]
        if len(set(map(id, found))) != len(found):
            raise ValueError("a bus takes each device once")
        if len(self.devices) > MOST_DEVICES:
            raise ValueError(f"a bus takes at most {MOST_DEVICES} devices, and not {len(self.devices)}")

    def add(self, entry: Entry) -> None:
        """The devices of an entry have the next numbers."""
        first = len(self.devices)
        self.begins.append((self.text.count("\n"), entry.name if isinstance(entry, Text) else f"the text of device {first}"))
        if isinstance(entry, Text):
            self.text += entry.text(first)
            self.devices += [None] * entry.count
            self.described += [f"of {entry.name}"] * entry.count
            self.lenient += range(first, first + entry.count) if entry.lenient else []
            return
        devices = entry.devices() if isinstance(entry, Becomes) else [entry]
        for number, it in enumerate(devices, first):
            self.text += it.text(number)
            self.devices.append(it)
            self.described.append(str(it))
        for number in range(first, first + len(devices) - 1):
            line = f"comes back {number} as {number + 1}\n"
            self.text += "" if line in self.text else line      # one of dfu.chain says it itself
            self.successors[number] = number + 1

    def placed(self, sentence: str) -> str:
        """A sentence about a line of the whole text, as one about a line of the entry that has it."""
        found = LINE.match(sentence)
        if not found:
            return sentence
        begins, name = max(it for it in self.begins if it[0] < int(found[1]))
        return f"{name}, line {int(found[1]) - begins}{sentence[found.end():]}"

    def is_lenient(self, line: str) -> bool:
        """Whether a difference is of a device whose program may write what it wants."""
        return any(line.startswith((f"device {number},", f"device {number} ")) for number in self.lenient)


class Bus:
    """A bus of this process. It is there until `close`, or the end of `with`; a process has one at a time."""

    faults: List[Fault]
    limit: Optional[Limit]

    def __init__(self, entries: List[Entry], library: Optional[PathLike], seed: int = 0, watches: bool = True) -> None:
        self.places = Places(entries)
        self.library = load(library)
        self.seed, self.judges, self.faults, self.limit, self.is_open = seed, watches, [], None, False
        self.plugged: List[Plugged] = []
        self.ports = [Port(self.library, number, *it) for number, it in enumerate(zip(self.places.devices, self.places.described))]
        for number, other in self.places.successors.items():
            self.ports[number].successor = self.ports[other]
        try:
            for number, device in enumerate(self.places.devices):
                if device is not None:
                    self._answer(number, device, watches)
        except BaseException:
            self._take_back()
            raise

    def _answer(self, number: int, device: Device, watches: bool) -> None:
        if device._wake is not None:
            raise ValueError(f"{device} is in a bus already: that one is closed first")
        self.plugged.append(Plugged(self.library, number, device))
        device._renew()
        device._faults.begin(number, self.seed)
        device._clock = self.library.clock
        if watches:
            device._watcher = self._watch

    def _watch(self, device: Device, what: str, error: Exception) -> None:
        error = error.with_traceback(own_part(error))
        text = "".join(traceback.format_exception(type(error), error, error.__traceback__))
        self.faults.append(Fault(device, what, error, text))

    def _take_back(self) -> None:
        for it in self.plugged:
            it.take_back()
        self.plugged = []

    # Its beginning and its end

    def begin(self, time: str, trace: Trace, limit: Optional[int]) -> None:
        """It begins now. LibraryError where there is another one, or a line isn't taken."""
        __tracebackhide__ = True
        status = self.library.begin(self.places.text.encode("utf-8"), self.seed, trace, time == "virtual")
        if status == BUSY:
            raise LibraryError(ANOTHER if OPEN else OF_CONTEXTS)
        if status:
            raise LibraryError(self.places.placed(self.library.error()) or sentence(status))
        self.is_open = True
        OPEN.append(self)
        contexts.introduce(self.library)
        self.limit = Limit(self, limit) if limit else None

    def end(self) -> None:
        """It ends; contexts may be open. LibraryError within a callback of libusb's: it goes on then, and its limit begins anew."""
        if self.limit:
            self.limit.stop()
        if self.is_open:
            contexts.dispose_devices()
            if self.library.call("end") == BUSY:
                self.limit = Limit(self, self.limit.milliseconds) if self.limit else None
                raise LibraryError("a bus isn't ended within a callback of libusb's, of a transfer or of hotplug: end it behind that")
            OPEN.remove(self)
            atexit.unregister(self.close)
        self.is_open = False

    def close(self) -> None:
        """It ends, and the devices' methods are called no more. Contexts that are open have no devices then."""
        self.end()
        self._take_back()

    def __enter__(self) -> Bus:
        return self

    def __exit__(self, _kind: Any, error: Optional[BaseException], _trace: Any) -> None:
        verdict = self.verdict() if self.judges else None
        self.close()
        if verdict is not None and (error is None or isinstance(verdict, LimitOver)):
            raise verdict
        if error is not None and self.faults:
            because(error, self.faults[0].error)

    def verdict(self) -> Optional[BaseException]:
        """What is wrong so far, as an exception: the limit is over, a device's method failed, something else was written than is expected.
        None where nothing is."""
        if self.limit and self.limit.told:
            return LimitOver(self.limit.told)
        if self.faults:
            return self.faults[0].error
        differences = [it for it in self.report() if not self.places.is_lenient(it)]
        return Differs("\n".join(["what was written isn't what the devices expect:", *differences])) if differences else None

    # Its devices

    def __getitem__(self, number: int) -> Port:
        __tracebackhide__ = True
        if isinstance(number, int) and not -len(self.ports) <= number < len(self.ports):
            raise IndexError(f"the bus has no device {number}: {', '.join(map(repr, self.ports)) or 'it is empty'}")
        return self.ports[number]

    def __len__(self) -> int:
        return len(self.ports)

    def __iter__(self) -> Iterator[Port]:
        return iter(self.ports)

    def _port(self, device: Device) -> Port:
        found = next((it for it in self.ports if it.device is device), None)
        if found is None or not self.plugged:
            raise ValueError(f"{device} isn't plugged in here: it is none of the devices of this bus")
        return found

    def pull(self, device: Device) -> None:
        """Pulls a device out: what is in flight ends with LIBUSB_TRANSFER_NO_DEVICE."""
        self._port(device).call("pull", "pull")

    def show(self, device: Device) -> None:
        """Plugs a device in: one that was pulled out, or one that has the line ("hidden",)."""
        self._port(device).call("show", "show")

    def replug(self, device: Device) -> None:
        """Pulls a device out, where it is there, and plugs it in again: handles of before are answered LIBUSB_ERROR_NO_DEVICE."""
        self._port(device).replug()

    def took(self, endpoint: int, index: int = 0, device: int = 0) -> bytes:
        """The packet of this index, from 0 on, that a device took at an endpoint since it was plugged in. IndexError past the last."""
        return self.library.took(device, endpoint, index)

    # What a test asks

    def left(self) -> List[str]:
        """What isn't finished and why, a sentence for each transfer; empty where nothing is in flight."""
        return self.library.lines("left")

    def report(self) -> List[str]:
        """What differs so far from what lines of a device expect: the first difference, and what hasn't come."""
        return self.library.lines("report")

    def trace(self) -> List[str]:
        """The steps so far, the lines of docs/FORMATS.md, of a bus that began with `trace=True`; there are none else."""
        return self.library.lines("trace")

    def error(self) -> str:
        """What went wrong last with the bus, as a device's line that isn't taken, and why; "" where nothing did."""
        return self.library.error()

    def now(self) -> int:
        """The milliseconds since the bus began, by the clock of timeouts; 0 where there is none."""
        return self.library.call("now")

    def advance(self, milliseconds: int) -> None:
        """So many milliseconds of virtual time pass. RuntimeError where time is real, or there is no bus."""
        if not 0 <= milliseconds < 1 << 32:
            raise ValueError(f"advance takes milliseconds from 0 to {(1 << 32) - 1}, and not {milliseconds}")
        if self.library.call("advance", milliseconds):
            raise RuntimeError("time is real here, or there is no bus: time=\"virtual\", or TIRNOUCH_TIME=virtual, makes it pass where "
                               "nothing else is to be done")


def own_part(error: BaseException) -> Any:
    """The traceback of an exception from where it is of the device's, without what asked it."""
    part = error.__traceback__
    while part and part.tb_next and part.tb_frame.f_globals.get("__name__", "").startswith("tirnouch."):
        part = part.tb_next
    return part


# The bus that was begun and hasn't ended.
OPEN: List[Bus] = []


def because(error: BaseException, cause: BaseException) -> None:
    """Behind an error stands what caused it: whoever prints the one prints the other."""
    seen = {id(error)}
    while error.__cause__ or error.__context__:
        error = error.__cause__ or error.__context__ or error
        if id(error) in seen or error is cause:
            return
        seen.add(id(error))
    if error is not cause:
        error.__cause__ = cause


def bus(*devices: Any, seed: int = 0, time: str = "real", trace: Trace = None, limit: Any = None,
        library: Optional[PathLike] = None) -> Bus:
    """A bus with these devices, numbered 0, 1, ..: objects or classes of Device, text(..), file(..), recorded(..), becomes(..). It begins
    now, and ends behind `with`, or by `close`. `seed`, from 1 on, makes devices and controller go ahead by dice; 0 is none. With the time
    "virtual" it passes where nothing else is to be done, and then at once. `trace` is a file for its steps; True keeps them for
    `trace()`. `limit`, as "10s", pulls all devices out when it is over, and raises LimitOver. `library` is the path of Tirnouch's
    libusb-1.0.so.0."""
    __tracebackhide__ = True
    if isinstance(seed, bool) or not isinstance(seed, int) or not 0 <= seed <= MOST_SEED:
        raise ValueError(f"a seed is a whole number, 0 for none, to {MOST_SEED}, and not {seed!r}")
    if time not in TIMES:
        raise ValueError(f"time is \"real\" or \"virtual\", and not {time!r}")
    return begun(Bus([entry_of(it) for it in devices], library, seed), time, trace, milliseconds_of(limit))


def begun(made: Bus, time: str, trace: Trace, limit: Optional[int]) -> Bus:
    """A bus that begins; where it can't, its devices are free for another."""
    __tracebackhide__ = True
    try:
        made.begin(time, trace, limit)
    except BaseException:
        made._take_back()
        raise
    return made


def plug(*devices: Device, library: Optional[PathLike] = None) -> Bus:
    """Plugs devices into this process, with the numbers 0, 1, ..: a bus begins with them, which the variables TIRNOUCH_SEED, TIRNOUCH_TIME
    and TIRNOUCH_TRACE steer, till it is closed, or the process ends. Nothing is raised behind it: an exception in a device's method is told
    on standard error. `library` is the path of Tirnouch's libusb-1.0.so.0."""
    for it in devices:
        if not isinstance(it, Device):
            hint = f": plug({it.__name__}())" if isinstance(it, type) else ""
            raise TypeError(f"plug takes devices, and not {it!r}{hint}")
    said = os.environ.get("TIRNOUCH_SEED") or "0"
    if not said.isdecimal() or int(said) > MOST_SEED:
        raise ValueError(f"TIRNOUCH_SEED is a whole number, 0 for none, to {MOST_SEED}, and not {said!r}")
    time = "virtual" if os.environ.get("TIRNOUCH_TIME") == "virtual" else "real"
    made = begun(Bus(list(devices), library, int(said), watches=False), time, os.environ.get("TIRNOUCH_TRACE") or None, None)
    atexit.register(made.close)
    return made
