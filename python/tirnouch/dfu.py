"""Devices whose firmware is renewed (USB Device Firmware Upgrade 1.1): in DFU mode, `Dfu`; and the part of an application that leaves for
that mode, `Runtime`.

    class Loader(Dfu):
        def written(self, block: int, data: bytes) -> Optional[Status]:
            return Status.ERR_VERIFY if block == 3 else None

    plug(*chain(Application(), Loader()))        # where the application is told to detach, the loader stands at its port"""
from __future__ import annotations

import enum
import time
from typing import Any, ClassVar, List, Optional, Tuple, Union

from tirnouch.answers import AS_TEXT, GONE, STALL, Answer, later
from tirnouch.bases import Renewed, says, typed
from tirnouch.descriptors import Interface
from tirnouch.device import Device
from tirnouch.endpoints import Request, control, whole

__all__ = ["Dfu", "Runtime", "State", "Status", "chain"]

# Requests (3), and the bits of bmAttributes (4.1.3).
DETACH, DNLOAD, UPLOAD, GETSTATUS, CLRSTATUS, GETSTATE, ABORT = 0, 1, 2, 3, 4, 5, 6
CAN_DOWNLOAD, CAN_UPLOAD, TOLERANT, WILL_DETACH = 1, 2, 4, 8
TO_DEVICE, TO_HOST = 0x21, 0xA1
CLASS, SUBCLASS, RUNTIME, LOADER = 0xFE, 1, 1, 2
MOST_MILLISECONDS = 0xFFFFFF


class State(enum.IntEnum):
    """bState (6.1.2)."""

    APP_IDLE = 0
    APP_DETACH = 1
    IDLE = 2
    DNLOAD_SYNC = 3
    DNBUSY = 4
    DNLOAD_IDLE = 5
    MANIFEST_SYNC = 6
    MANIFEST = 7
    MANIFEST_WAIT_RESET = 8
    UPLOAD_IDLE = 9
    ERROR = 10


class Status(enum.IntEnum):
    """bStatus (6.1.2)."""

    OK = 0
    ERR_TARGET = 1
    ERR_FILE = 2
    ERR_WRITE = 3
    ERR_ERASE = 4
    ERR_CHECK_ERASED = 5
    ERR_PROG = 6
    ERR_VERIFY = 7
    ERR_ADDRESS = 8
    ERR_NOTDONE = 9
    ERR_FIRMWARE = 10
    ERR_VENDOR = 11
    ERR_USBR = 12
    ERR_POR = 13
    ERR_UNKNOWN = 14
    ERR_STALLEDPKT = 15


def functional(attributes: int, timeout: int, transfer: int) -> bytes:
    """A DFU functional descriptor of DFU 1.1: what the device can do, the milliseconds that it waits for a reset behind a detach, and the
    bytes of a block (4.1.3)."""
    return bytes((9, 0x21, attributes)) + timeout.to_bytes(2, "little") + transfer.to_bytes(2, "little") + b"\x10\x01"


class Chained(Renewed):
    """A device that may leave, and in whose place another one may come."""

    # bitWillDetach: it leaves by itself at DETACH. wDetachTimeOut in milliseconds, and wTransferSize.
    will_detach: bool = False
    detach_timeout: int = 255
    transfer: int = 1024
    has_next: bool = False

    _is_leaving: bool

    @classmethod
    def _judge(cls) -> None:
        """TypeError or ValueError where an attribute can't be."""
        typed(cls, "will_detach", bool, "True or False")
        whole(says(cls, "detach_timeout"), cls.detach_timeout, 0xFFFF)
        whole(says(cls, "transfer"), cls.transfer, 4096, 1)

    def begin(self) -> None:
        super().begin()
        self._is_leaving = False

    def text(self, number: int = 0) -> str:
        """Its lines of a text of devices; the next device of a chain has the next number."""
        return super().text(number) + (f"comes back {number} as {number + 1}\n" if self.has_next else "")


def chain(*devices: Device) -> List[Device]:
    """Devices for `plug`: where one of them leaves, the next one stands at its port, which isn't there before. All but the last are of Dfu
    or Runtime. They stand behind each other in the bus. Where the devices are programs their text says so: `comes back 0 as 1`."""
    for it in devices[:-1]:
        if not isinstance(it, Chained):
            raise TypeError(f"chain takes devices of Dfu and Runtime, and a last one of any class, and not {it!r}")
        it.has_next = True
    if len(devices) < 2 or not isinstance(devices[-1], Device):
        raise TypeError(f"chain takes two or more devices, as chain(Application(), Loader()), and not {devices!r}")
    return list(devices)


class Runtime(Chained):
    """An application with a run-time DFU interface (4.2), which stands behind its other interfaces. Beside other base classes it is the
    last one: class Meter(Scpi, Runtime).

    With `will_detach` it leaves at DETACH: that request ends with LIBUSB_ERROR_NO_DEVICE. Else it waits for a reset, and leaves at the
    first request behind that."""

    will_detach = True
    attributes_of_loader: int = CAN_DOWNLOAD | CAN_UPLOAD | TOLERANT

    _interface: ClassVar[int] = 0
    state: State

    def __init_subclass__(cls, **words: Any) -> None:
        behind = cls.__mro__[cls.__mro__.index(Runtime) + 1 : cls.__mro__.index(Device)]
        late = [it.__name__ for it in behind if it not in (Chained, Renewed)]
        if late:
            raise TypeError(f"{cls.__name__}: Runtime stands behind the other classes: class {cls.__name__}({', '.join(late)}, Runtime)")
        cls._judge()
        bits = whole(says(cls, "attributes_of_loader"), cls.attributes_of_loader, 7) | (WILL_DETACH if cls.will_detach else 0)
        others = [it for it in cls.interfaces if tuple(it)[:3] != (CLASS, SUBCLASS, RUNTIME)]
        own = Interface(CLASS, SUBCLASS, RUNTIME, "", functional(bits, cls.detach_timeout, cls.transfer))
        cls.interfaces, cls._interface = (*others, own), len(others)
        super().__init_subclass__(**words)
        cls.controls = [(it._replace(index=cls._interface) if name in OWN else it, name) for it, name in cls.controls]

    def begin(self) -> None:
        self.state = State.APP_IDLE
        super().begin()

    def on_reset(self) -> None:
        is_leaving = self.state == State.APP_DETACH
        super().on_reset()
        self._is_leaving = is_leaving

    @control(TO_DEVICE, DETACH)
    def detach(self, _request: Request) -> Optional[Answer]:
        """DFU_DETACH (5.1)."""
        if self.will_detach or self._is_leaving:
            return GONE
        self.state = State.APP_DETACH
        return None

    @control(TO_HOST, GETSTATUS, 0)
    def runtime_status(self, _request: Request) -> Union[bytes, Answer]:
        """DFU_GETSTATUS, which an application may answer too (6.1.2)."""
        return GONE if self._is_leaving else bytes((Status.OK, 0, 0, 0, self.state, 0))

    @control(TO_HOST, GETSTATE, 0)
    def runtime_state(self, _request: Request) -> Union[bytes, Answer]:
        """DFU_GETSTATE (6.1.5)."""
        return GONE if self._is_leaving else bytes((self.state,))

    @control(0x80, 0x06)
    def runtime_descriptor(self, _request: Request) -> Answer:
        """GET_DESCRIPTOR, for which it may be gone already."""
        return GONE if self._is_leaving else AS_TEXT


OWN = ("detach", "runtime_status", "runtime_state")


class Dfu(Chained):
    """A device in DFU mode, whose state machine is that of appendix A: a request that a state doesn't allow stalls, and is an error.

    `firmware` is what an upload reads, and what a download becomes when it is manifested; `size` is the bytes of its memory. `writing` and
    `manifesting` are bwPollTimeout in milliseconds: the next GETSTATUS isn't answered before so many have passed, which virtual time does
    at once. With `is_strict` a GETSTATUS that comes before so many have passed by the machine's clock is an error.

    A device that isn't `is_tolerant` waits for a reset behind the manifestation. With `will_detach` it leaves at DETACH, and at the first
    request behind a reset that follows a manifestation."""

    firmware: bytes = b""
    size: int = 65536
    memory: str = "memory"
    can_download: bool = True
    can_upload: bool = True
    is_tolerant: bool = True
    is_strict: bool = False
    writing: int = 20
    manifesting: int = 50
    device_class = (CLASS, SUBCLASS, LOADER)

    _has_first_interface = True
    state: State
    status: Status
    is_manifested: bool
    # What of a download came, the number and the bytes of its last block, where an upload stands, and when the device is ready again:
    # whether that was waited for, and the moment on the machine's clock.
    _came: bytes
    _last: Tuple[int, bytes]
    _at: int
    _is_waited: bool
    _moment: float

    def __init_subclass__(cls, **words: Any) -> None:
        cls._judge()
        for name in ("can_download", "can_upload", "is_tolerant", "is_strict"):
            typed(cls, name, bool, "True or False")
        typed(cls, "firmware", bytes, "bytes")
        typed(cls, "memory", str, "the name of the memory, a str")
        for name in ("writing", "manifesting"):
            whole(says(cls, name), getattr(cls, name), MOST_MILLISECONDS)
        whole(says(cls, "size"), cls.size, 1 << 30, 1)
        if "interfaces" not in vars(cls):
            cls.interfaces = (cls._interface(),)
        super().__init_subclass__(**words)

    @classmethod
    def _interface(cls) -> Interface:
        bits = ((cls.can_download, CAN_DOWNLOAD), (cls.can_upload, CAN_UPLOAD), (cls.is_tolerant, TOLERANT), (cls.will_detach, WILL_DETACH))
        attributes = sum(bit for is_set, bit in bits if is_set)
        return Interface(CLASS, SUBCLASS, LOADER, cls.memory, functional(attributes, cls.detach_timeout, cls.transfer))

    def begin(self) -> None:
        super().begin()
        self._idle()
        self.is_manifested = False

    def _idle(self) -> None:
        self.state, self.status = State.IDLE, Status.OK
        self._came, self._last, self._at, self._is_waited, self._moment = b"", (-1, b""), 0, True, 0.0

    def on_reset(self) -> None:
        is_leaving = self.will_detach and self.is_manifested
        super().on_reset()
        self._is_leaving = is_leaving

    # What a class may do

    def written(self, block: int, data: bytes) -> Optional[Status]:
        """A block was written: None where that went well, or why it didn't, as Status.ERR_WRITE. `block` is the host's number of it."""

    def manifested(self, firmware: bytes) -> Optional[Status]:
        """A whole firmware is there: None where it is sound, which it becomes then, or why it isn't, as Status.ERR_FIRMWARE."""

    def read(self) -> bytes:
        """What an upload reads."""
        return self.firmware

    # Requests (6)

    @control(TO_DEVICE, DETACH, index=0)
    def detach(self, _request: Request) -> Optional[Answer]:
        """DFU_DETACH, by which a loader leaves that can (5.1)."""
        return GONE if self.will_detach else self._fail()

    @control(TO_DEVICE, DNLOAD, index=0)
    def download(self, request: Request) -> Optional[Answer]:
        """DFU_DNLOAD: a block of the firmware; an empty one ends it (6.1.1)."""
        is_first = self.state == State.IDLE
        if self._is_leaving:
            return GONE
        if not self.can_download or not (is_first or self.state == State.DNLOAD_IDLE) or request.length > self.transfer:
            return self._fail()
        if is_first:
            self._came, self._last = b"", (request.value - 1, b"")
        if not request.length:
            if is_first:
                return self._fail()
            self.state = State.MANIFEST_SYNC
            return None
        if request.value != self._last[0] + 1 & 0xFFFF or len(self._came) + len(request.data) > self.size:
            return self._fail(Status.ERR_ADDRESS)
        self._came, self._last, self.state = self._came + request.data, (request.value, request.data), State.DNLOAD_SYNC
        return None

    @control(TO_HOST, UPLOAD, index=0)
    def upload(self, request: Request) -> Union[bytes, Answer]:
        """DFU_UPLOAD: the next bytes of the firmware; fewer than were asked for end it (6.2.1)."""
        if self._is_leaving:
            return GONE
        if not self.can_upload or self.state not in (State.IDLE, State.UPLOAD_IDLE) or not 0 < request.length <= self.transfer:
            return self._fail()
        if self.state == State.IDLE:
            self._came, self._at = self.read(), 0
        data = self._came[self._at : self._at + request.length]
        self._at += len(data)
        self.state = State.UPLOAD_IDLE if len(data) == request.length else State.IDLE
        return data

    @control(TO_HOST, GETSTATUS, 0, 0)
    def get_status(self, _request: Request) -> Union[bytes, Answer]:
        """DFU_GETSTATUS: status, milliseconds, state and no string (6.1.2)."""
        if self._is_leaving:
            return GONE
        wait = 0
        if self.state in (State.DNLOAD_SYNC, State.MANIFEST_SYNC):
            wait = self._begin_work()
        elif self.state in (State.DNBUSY, State.MANIFEST):
            answer = self._await()
            if answer:
                return answer
        if not wait and self.state in (State.DNBUSY, State.MANIFEST):
            self._end_work()
        return bytes((self.status, *wait.to_bytes(3, "little"), self.state, 0))

    @control(TO_DEVICE, CLRSTATUS, 0, 0)
    def clear_status(self, _request: Request) -> Optional[Answer]:
        """DFU_CLRSTATUS: the error is over (6.1.3)."""
        if self.state != State.ERROR:
            return self._fail()
        self._idle()
        return None

    @control(TO_HOST, GETSTATE, 0, 0)
    def get_state(self, _request: Request) -> Union[bytes, Answer]:
        """DFU_GETSTATE: the state, which stays as it is (6.1.5)."""
        return GONE if self._is_leaving else bytes((self.state,))

    @control(TO_DEVICE, ABORT, 0, 0)
    def abort(self, _request: Request) -> Optional[Answer]:
        """DFU_ABORT: idle again (6.1.4)."""
        if self.state not in (State.IDLE, State.DNLOAD_IDLE, State.UPLOAD_IDLE):
            return self._fail()
        self._idle()
        return None

    @control(0x80, 0x06)
    def loader_descriptor(self, _request: Request) -> Answer:
        """GET_DESCRIPTOR, for which it may be gone already."""
        return GONE if self._is_leaving else AS_TEXT

    # The state machine

    def _fail(self, status: Status = Status.ERR_STALLEDPKT) -> Answer:
        """A request is refused; GETSTATUS tells why (6.1.2)."""
        self.state, self.status = State.ERROR, status
        return STALL

    def _begin_work(self) -> int:
        """The device is busy with a block or with the firmware: its milliseconds."""
        is_block = self.state == State.DNLOAD_SYNC
        self.state = State.DNBUSY if is_block else State.MANIFEST
        wait = self.writing if is_block else self.manifesting
        self._is_waited, self._moment = not wait, time.monotonic() + wait / 1000
        return wait

    def _await(self) -> Optional[Answer]:
        """What answers GETSTATUS before the work is done; None where it is."""
        if self.is_strict:
            return self._fail() if time.monotonic() < self._moment else None
        is_waited, self._is_waited = self._is_waited, True
        return None if is_waited else later(self.writing if self.state == State.DNBUSY else self.manifesting)

    def _end_work(self) -> None:
        """A block is written, or the firmware is there."""
        if self.state == State.DNBUSY:
            self._settle(self.written(*self._last), State.DNLOAD_IDLE)
            return
        self._settle(self.manifested(self._came), State.IDLE if self.is_tolerant else State.MANIFEST_WAIT_RESET)
        if self.state != State.ERROR:
            self.firmware, self.is_manifested = self._came, True

    def _settle(self, status: Any, state: State) -> None:
        if status is not None and not isinstance(status, Status):
            raise TypeError(f"{self}: written and manifested return None, or a Status, as Status.ERR_WRITE, and not {status!r}")
        self.state, self.status = (State.ERROR, status) if status else (state, Status.OK)


Dfu.interfaces = (Dfu._interface(),)  # pylint: disable=protected-access
