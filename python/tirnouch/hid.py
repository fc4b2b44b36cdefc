"""Human interface devices (HID 1.11): a class says its report descriptor, and what it does with reports.

    class Buttons(Hid):
        report_descriptor = vendor(input=2, output=1)

        def on_output(self, report_id: int, data: bytes) -> None:
            self.report(data + b"!")             # an input report

reports.py has the report descriptors."""
from __future__ import annotations

from typing import Any, ClassVar, Dict, Optional, Tuple, Union

from tirnouch.answers import AS_TEXT, STALL, Answer
from tirnouch.bases import Renewed, bytes_of, chosen, endpoint_of, gives, joined, says, typed, waits
from tirnouch.descriptors import HID, REPORT, Interface, hid_descriptor, size_of
from tirnouch.endpoints import INTERRUPT, Endpoint, Request, control, interrupt_in
from tirnouch.reports import FEATURE, INPUT, NAMES, OUTPUT, keyboard, mouse, sizes, vendor

__all__ = ["FEATURE", "INPUT", "OUTPUT", "Hid", "keyboard", "mouse", "vendor"]

# The protocols of interfaces whose subclass is 1 (4.2 and 4.3).
BOOT = {"": 0, "keyboard": 1, "mouse": 2}
GET_REPORT, GET_IDLE, GET_PROTOCOL, SET_REPORT, SET_IDLE, SET_PROTOCOL = 0x01, 0x02, 0x03, 0x09, 0x0A, 0x0B
READ, WRITE, READ_STANDARD, GET_DESCRIPTOR = 0xA1, 0x21, 0x81, 0x06
# SET_IDLE counts in these milliseconds (7.2.4).
IDLE_UNIT = 4


class Hid(Renewed):
    """A device with one HID interface, number 0. What stands in a report never has the report's id in it: that is a word of its own, and 0
    where the report descriptor has no ids.

    `report_descriptor` is bytes: what keyboard(), mouse() and vendor() of this module make, or a device's own. `boot` is "keyboard" or
    "mouse" for a device that speaks a boot protocol. `outputs = interrupt_out(0x02)` adds an endpoint for output reports, which else come
    by SET_REPORT. A report of another length than the report descriptor says is a stall, unless `any_length` is True."""

    report_descriptor: bytes = b""
    boot: str = ""
    country: int = 0
    any_length: bool = False
    reports = interrupt_in(0x81)
    outputs: Optional[Endpoint] = None

    _has_first_interface = True
    _sizes: ClassVar[Dict[Tuple[int, int], int]] = {}

    def __init_subclass__(cls, **words: Any) -> None:
        typed(cls, "report_descriptor", bytes, "bytes, as keyboard(), mouse() or vendor(input=8) make them")
        chosen(cls, "boot", tuple(BOOT))
        joined(cls, "reports", INTERRUPT, True)
        joined(cls, "outputs", INTERRUPT, False, "_output", is_needed=False)
        if cls.report_descriptor and gives(cls, "report_descriptor"):
            try:
                cls._sizes = sizes(cls.report_descriptor)
            except ValueError as error:
                raise ValueError(f"{says(cls, 'report_descriptor')}: {error}") from error
        if gives(cls, "report_descriptor", "boot", "country") and not gives(cls, "interfaces"):
            own = hid_descriptor(cls.report_descriptor, cls.country)
            cls.interfaces = (Interface(0x03, 1 if cls.boot else 0, BOOT[cls.boot], "", own),)
        super().__init_subclass__(**words)

    def __new__(cls, *words: Any, **named: Any) -> Any:
        if not cls.report_descriptor:
            raise TypeError(f"{says(cls, 'report_descriptor')} is missing: bytes, as keyboard(), mouse() or vendor(input=8) make them")
        return super().__new__(cls, *words, **named)

    # The reports of each kind and id that were sent or written last, and the bytes of one that isn't whole yet.
    _kept: Dict[Tuple[int, int], bytes]
    _part: bytes
    _idle: Dict[int, int]
    is_boot: bool

    def begin(self) -> None:
        super().begin()
        self._kept, self._part, self._idle, self.is_boot = {}, b"", {}, False

    # What a class calls, and what it may do

    def report(self, data: Union[bytes, bytearray, memoryview], report_id: int = 0) -> None:
        """An input report is read next, behind those that were sent before; from any thread. ValueError where the report descriptor has no
        such report, or another length of it."""
        whole = self._whole(INPUT, report_id, data)
        self._kept[INPUT, report_id] = whole
        self._offer("reports", self._with_id(report_id, whole))

    def on_output(self, report_id: int, data: bytes) -> Optional[Answer]:
        """An output report came. None takes it; STALL refuses it; NAK and later(ms) have it come again."""

    def on_feature(self, report_id: int, data: bytes) -> Optional[Answer]:
        """A feature report was written; as above."""

    def feature(self, report_id: int) -> Union[bytes, bytearray, memoryview, Answer]:
        """A feature report is read: its bytes, or an Answer. Where a class doesn't say otherwise it is what was written last, and zeros
        before."""
        return self._last(FEATURE, report_id)

    def idle(self, report_id: int = 0) -> int:
        """The milliseconds of SET_IDLE, a multiple of 4; 0 where a report is sent but when it changes. The class sends each report once."""
        return self._idle.get(report_id, self._idle.get(0, 0)) * IDLE_UNIT

    # Requests (7.1, 7.2)

    @control(READ_STANDARD, GET_DESCRIPTOR, index=0)
    def get_descriptor(self, request: Request) -> Union[bytes, Answer]:
        """The report descriptor, and the HID descriptor by itself (7.1.1)."""
        own = {REPORT: self.report_descriptor, HID: hid_descriptor(self.report_descriptor, self.country)}
        return own.get(request.value >> 8, AS_TEXT)

    @control(READ, GET_REPORT, index=0)
    def get_report(self, request: Request) -> Union[bytes, Answer]:
        """A report by its kind and id: what was sent or written last, and `feature` of a feature report (7.2.1)."""
        kind, report_id = request.value >> 8, request.value & 0xFF
        if (kind, report_id) not in self._sizes:
            return STALL
        data = self.feature(report_id) if kind == FEATURE else self._last(kind, report_id)
        return data if isinstance(data, Answer) else self._with_id(report_id, self._whole(kind, report_id, data))

    @control(WRITE, SET_REPORT, index=0)
    def set_report(self, request: Request) -> Optional[Answer]:
        """An output or a feature report (7.2.2)."""
        kind, report_id = request.value >> 8, request.value & 0xFF
        if kind not in (OUTPUT, FEATURE) or request.data[: report_id > 0] != self._with_id(report_id, b""):
            return STALL
        return self._written(kind, report_id, request.data[report_id > 0 :])

    @control(READ, GET_IDLE, index=0)
    def get_idle(self, request: Request) -> Union[bytes, Answer]:
        """A report's idle rate (7.2.3)."""
        return bytes((self.idle(request.value & 0xFF) // IDLE_UNIT,))

    @control(WRITE, SET_IDLE, index=0)
    def set_idle(self, request: Request) -> Optional[Answer]:
        """The idle rate of a report, or of all, whose id is 0 then (7.2.4)."""
        report_id = request.value & 0xFF
        if not report_id:
            self._idle.clear()
        self._idle[report_id] = request.value >> 8
        return None

    @control(READ, GET_PROTOCOL, 0, 0)
    def get_protocol(self, _request: Request) -> Union[bytes, Answer]:
        """0 is the boot protocol, 1 the report protocol (7.2.5)."""
        return bytes((not self.is_boot,)) if self.boot else STALL

    @control(WRITE, SET_PROTOCOL, index=0)
    def set_protocol(self, request: Request) -> Optional[Answer]:
        """The protocol of a boot device; others have none (7.2.6)."""
        if not self.boot or request.value > 1:
            return STALL
        self.is_boot = not request.value
        return None

    def _output(self, packet: bytes) -> Optional[Answer]:
        """A packet of an output report, which is whole with its last byte, or by a short packet (8.4)."""
        data = self._part + packet
        has_ids = (OUTPUT, 0) not in self._sizes
        report_id = data[0] if has_ids and data else 0
        most = size_of(self, endpoint_of(self, "outputs"))
        if len(data) < self._sizes.get((OUTPUT, report_id), 0) + has_ids and len(packet) == most:
            self._part = data
            return None
        answer = self._written(OUTPUT, report_id, data[has_ids:])
        if not waits(answer):
            self._part = b""
        return answer

    def _written(self, kind: int, report_id: int, data: bytes) -> Optional[Answer]:
        if (kind, report_id) not in self._sizes or (len(data) != self._sizes[kind, report_id] and not self.any_length):
            return STALL
        answer = (self.on_output if kind == OUTPUT else self.on_feature)(report_id, data)
        if answer is None:
            self._kept[kind, report_id] = data
        return answer

    def _last(self, kind: int, report_id: int) -> bytes:
        return self._kept.get((kind, report_id), bytes(self._sizes[kind, report_id]))

    def _with_id(self, report_id: int, data: bytes) -> bytes:
        return (bytes((report_id,)) if report_id else b"") + data

    def _whole(self, kind: int, report_id: int, data: Any) -> bytes:
        """The bytes of a report, which are as many as the report descriptor says."""
        found = bytes_of(f"{self}: an {NAMES[kind]} report", data)
        if (kind, report_id) not in self._sizes:
            ids = ", ".join(str(number) for its, number in sorted(self._sizes) if its == kind) or "none"
            raise ValueError(f"{self}: the report descriptor has no {NAMES[kind]} report {report_id}; its ids are: {ids} (0 is no id)")
        if len(found) != self._sizes[kind, report_id] and not self.any_length:
            size = self._sizes[kind, report_id]
            raise ValueError(f"{self}: {NAMES[kind]} report {report_id} has {size} bytes by the report descriptor, and not {len(found)}")
        return found
