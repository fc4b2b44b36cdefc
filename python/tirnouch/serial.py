"""Serial ports: the abstract control model of CDC 1.2 (PSTN 1.2 for its requests and notifications). A class says what it does with lines,
or with bytes.

    class Modem(Serial):
        def line(self, text: str) -> str:
            return "OK" if text.startswith("AT") else "ERROR"

A driver reaches it by its endpoints: the system has no port of it, as /dev/ttyACM0."""
from __future__ import annotations

import codecs
from typing import Any, NamedTuple, Optional, Sequence, Tuple, Union

from tirnouch.answers import STALL, Answer
from tirnouch.bases import Renewed, bytes_of, chosen, declared, joined, says, typed
from tirnouch.descriptors import Interface
from tirnouch.endpoints import BULK, INTERRUPT, Endpoint, Request, bulk_in, bulk_out, control, interrupt_in

# Requests and a notification (PSTN 1.2, 6.3 and 6.5), and what an abstract control model can do (5.3.2): line coding and state; a break.
SET_LINE_CODING, GET_LINE_CODING, SET_CONTROL_LINE_STATE, SEND_BREAK, SERIAL_STATE = 0x20, 0x21, 0x22, 0x23, 0x20
LINE_CODING, BREAK = 2, 4
READ, WRITE = 0xA1, 0x21
# Header of CDC 1.20; call management, which the device doesn't do; abstract control; the union of interfaces 0 and 1 (CDC 1.2, 5.2.3).
FUNCTIONAL = bytes((5, 0x24, 0x00, 0x20, 0x01, 5, 0x24, 0x01, 0, 1, 4, 0x24, 0x02, LINE_CODING | BREAK, 5, 0x24, 0x06, 0, 1))
DTR, RTS = 1, 2
# The bits of SERIAL_STATE (table 31).
CARRIER, READY, BROKEN_LINE, RING, FRAMING, PARITY, OVERRUN = 1, 2, 4, 8, 16, 32, 64
ENDS = {"\n": b"\n", "\r": b"\r", "\r\n": b"\r\n"}


class Coding(NamedTuple):
    """How bytes stand on the line (table 17): bits a second; stop bits, 0, 1 and 2 for 1, 1.5 and 2; parity, 0 to 4 for none, odd, even,
    mark and space; data bits, 5 to 8 or 16."""

    rate: int = 9600
    stop: int = 0
    parity: int = 0
    bits: int = 8

    @property
    def is_sound(self) -> bool:
        """Whether a line can have it."""
        return self.rate > 0 and self.stop <= 2 and self.parity <= 4 and self.bits in (5, 6, 7, 8, 16)

    def pack(self) -> bytes:
        """Its 7 bytes."""
        return self.rate.to_bytes(4, "little") + bytes((self.stop, self.parity, self.bits))


class Serial(Renewed):
    """A serial port: interface 0 with notifications at 83, interface 1 with bytes at 81 and 02.

    What comes is told line by line to `line`, whose answer is written with `end` behind it; a line ends with a line feed, a carriage
    return, or both. A class that takes bytes gives `received` anew. `encoding` is that of lines; bytes that it has no letter for stand as
    \\xNN."""

    interfaces: Sequence[Tuple[Any, ...]] = (Interface(0x02, 0x02, 0x01, "", FUNCTIONAL), Interface(0x0A, 0, 0))
    device_class = (0x02, 0, 0)
    end: str = "\r\n"
    encoding: str = "ascii"
    written = bulk_in(0x81, interface=1)
    packets = bulk_out(0x02, interface=1)
    notifications: Optional[Endpoint] = interrupt_in(0x83, 16, interface=0)

    _has_first_interface = True
    coding: Coding
    dtr: bool
    rts: bool
    _line: bytes
    _is_return: bool

    def __init_subclass__(cls, **words: Any) -> None:
        typed(cls, "end", str, r'a str, "\n", "\r" or "\r\n"')
        chosen(cls, "end", tuple(ENDS))
        try:
            codecs.lookup(typed(cls, "encoding", str, 'the name of an encoding, as "ascii"'))
        except LookupError as error:
            raise ValueError(f"{says(cls, 'encoding')} is the name of an encoding, as \"ascii\", and not {cls.encoding!r}") from error
        joined(cls, "written", BULK, True)
        joined(cls, "packets", BULK, False, "_packet")
        joined(cls, "notifications", INTERRUPT, True, is_needed=False)
        super().__init_subclass__(**words)

    def begin(self) -> None:
        super().begin()
        self.coding, self.dtr, self.rts = Coding(), False, False
        self._line, self._is_return = b"", False

    # What a class calls

    def write(self, data: Union[str, bytes, bytearray, memoryview]) -> None:
        """Bytes, or text in the device's encoding, are read next; from any thread. UnicodeEncodeError where it has a letter that isn't of
        it."""
        found = data.encode(self.encoding) if isinstance(data, str) else bytes_of(f"{self}: what is written", data)
        if found:
            self._offer("written", found, zero=True)

    # pylint: disable-next=too-many-arguments
    def notify(self, carrier: bool = False, ready: bool = False, is_broken: bool = False, ring: bool = False, framing: bool = False,
               parity: bool = False, overrun: bool = False) -> None:
        """SERIAL_STATE is told (6.5.4): the carrier (DCD), that the other end is ready (DSR), a break, a ring, and errors of framing, of
        parity and by an overrun. RuntimeError where the class has no `notifications`."""
        if not declared(type(self), "notifications"):
            raise RuntimeError(f"{says(self, 'notifications')} is None: where states are told it is an endpoint, as interrupt_in(0x83)")
        bits = (carrier, ready, is_broken, ring, framing, parity, overrun)
        state = sum(bit for bit, is_set in zip((CARRIER, READY, BROKEN_LINE, RING, FRAMING, PARITY, OVERRUN), bits) if is_set)
        self._offer("notifications", bytes((READ, SERIAL_STATE, 0, 0, 0, 0, 2, 0, state, 0)))

    # What a class may do

    def line(self, text: str) -> Optional[str]:
        """A line came, without its end. What is returned is written with `end` behind it; None is no answer."""

    def received(self, data: bytes) -> Optional[Answer]:
        """Bytes came. None takes them; NAK and later(ms) have them come again. Where a class doesn't say otherwise they are lines."""
        for at in range(len(data)):
            self._byte(data[at : at + 1])
        return None

    def on_coding(self, coding: Coding) -> Optional[Answer]:
        """The line is to have another coding: STALL refuses it."""

    def on_signals(self, dtr: bool, rts: bool) -> None:
        """The host set its signals."""

    def on_break(self, milliseconds: Optional[int]) -> None:
        """The host sends a break: of so many milliseconds, until the next one where that is None; 0 ends it."""

    # Requests (PSTN 1.2, 6.3)

    @control(WRITE, SET_LINE_CODING, 0, 0)
    def set_line_coding(self, request: Request) -> Optional[Answer]:
        """Another coding; one that no line can have is refused (6.3.10)."""
        if len(request.data) != 7:
            return STALL
        coding = Coding(int.from_bytes(request.data[:4], "little"), *request.data[4:])
        answer = self.on_coding(coding) if coding.is_sound else STALL
        if answer is None:
            self.coding = coding
        return answer

    @control(READ, GET_LINE_CODING, 0, 0)
    def get_line_coding(self, _request: Request) -> bytes:
        """The coding (6.3.11)."""
        return self.coding.pack()

    @control(WRITE, SET_CONTROL_LINE_STATE, index=0)
    def set_control_line_state(self, request: Request) -> None:
        """DTR and RTS (6.3.12)."""
        self.dtr, self.rts = bool(request.value & DTR), bool(request.value & RTS)
        self.on_signals(self.dtr, self.rts)

    @control(WRITE, SEND_BREAK, index=0)
    def send_break(self, request: Request) -> None:
        """A break (6.3.13)."""
        self.on_break(None if request.value == 0xFFFF else request.value)

    def _packet(self, packet: bytes) -> Optional[Answer]:
        return self.received(packet) if packet else None

    def _byte(self, byte: bytes) -> None:
        """A line feed behind a carriage return is of the same end."""
        is_rest, self._is_return = byte == b"\n" and self._is_return, byte == b"\r"
        if byte not in (b"\n", b"\r"):
            self._line += byte
        elif not is_rest:
            text, self._line = self._line.decode(self.encoding, "backslashreplace"), b""
            answer = self.line(text)
            if answer is not None:
                self.write(answer + self.end)


joined(Serial, "packets", BULK, False, "_packet")
