"""Instruments by the USB Test and Measurement Class (USBTMC 1.0) with the subclass USB488 (1.0): messages of SCPI, each transfer with a
header."""
from __future__ import annotations

import struct
from typing import Any, Optional, Sequence, Tuple, Union

from tirnouch.answers import STALL, Answer, later
from tirnouch.bases import endpoint_of
from tirnouch.descriptors import size_of
from tirnouch.endpoints import IN, Request, bulk_in, bulk_out, control
from tirnouch.scpi import Scpi

# MsgID, bTag and its inverse; for these two messages TransferSize, bmTransferAttributes, and the TermChar of a request (3.2, table 1).
HEADER = struct.Struct("<BBBxIBBxx")
MESSAGE, REQUEST = 1, 2
END, BY_CHARACTER = 1, 2
# The messages of 4.2.1 and of USB488, 4.3.1, and their status values (table 16).
ABORT_OUT, CHECK_ABORT_OUT, ABORT_IN, CHECK_ABORT_IN, CLEAR, CHECK_CLEAR, CAPABILITIES, STATUS_BYTE = 1, 2, 3, 4, 5, 6, 7, 128
SUCCESS, FAILED, NOT_IN_PROGRESS = 0x01, 0x80, 0x81
TO_INTERFACE, TO_ENDPOINT = 0xA1, 0xA2
# The bits of a status byte: the error queue isn't empty (SCPI-1999, volume 1, 9), and there is an answer (IEEE 488.2, 11.2).
ERRORS, ANSWER = 4, 16


class Usbtmc(Scpi):
    """An instrument whose messages come by USBTMC: no `end` is needed, as a header says where a message ends. A transfer whose header isn't
    one, or that is shorter than its header says, halts the endpoint, and nothing of it is done (3.2.2)."""

    interfaces: Sequence[Tuple[Any, ...]] = ((0xFE, 0x03, 0x01),)
    replies = bulk_in(0x81)
    packets = bulk_out(0x02)

    # The transfer that isn't whole, what is left of an answer, and the request for it that wasn't answered: tag, size, and character.
    _transfer: bytes
    _rest: bytes
    _asked: Optional["tuple[int, int, bytes]"]
    _last: int

    def _forget(self) -> None:
        super()._forget()
        self._transfer, self._rest, self._asked, self._last = b"", b"", None, 0

    def _packet(self, packet: bytes) -> Optional[Answer]:
        """A packet of a transfer: its header, and data, which are filled up to a multiple of 4 bytes."""
        data, endpoint = self._transfer + packet, endpoint_of(self, "packets")
        self._transfer = b""
        if not self._is_header(data):
            return STALL
        kind, tag, _, length, attributes, character = HEADER.unpack_from(data)
        whole = HEADER.size + (length if kind == MESSAGE else 0)
        if len(data) < (whole + 3) // 4 * 4 and len(packet) == size_of(self, endpoint):
            self._transfer = data
        elif len(data) < whole:
            return STALL
        elif kind == MESSAGE:
            self._message(tag, data[HEADER.size : whole], bool(attributes & END))
        else:
            self._asked, self._last = (tag, length, bytes((character,)) if attributes & BY_CHARACTER else b""), tag
        return None

    def _is_header(self, data: bytes) -> bool:
        """Whether a transfer begins with a header that may stand here."""
        if len(data) < HEADER.size:
            return False
        kind, tag, inverse, length, _, _ = HEADER.unpack_from(data)
        is_asked = kind == REQUEST and self._asked is None
        return (kind == MESSAGE or is_asked) and 1 <= tag == inverse ^ 0xFF and length > 0

    def _message(self, tag: int, data: bytes, is_last: bool) -> None:
        self._last = tag
        self._came += data.decode("latin-1")
        if is_last:
            message, self._came = self._came, ""
            self.do(message.rstrip("\r\n"))

    def _reply(self, _room: int) -> Optional[Answer]:
        """As much of an answer as was asked for, when there is one."""
        if self._asked is None or not (self._rest or self._answers):
            return None
        if not self._rest:
            wait, data = self._answers[0]
            if wait and not self._is_waited:
                self._is_waited = True
                return later(wait)
            self._is_waited, self._rest = False, data
            self._answers.popleft()
        (tag, length, character), self._asked = self._asked, None
        at = self._rest.find(character, 0, length) if character else -1
        count = min(length, len(self._rest)) if at < 0 else at + 1
        part, self._rest = self._rest[:count], self._rest[count:]
        attributes = (0 if self._rest else END) | (BY_CHARACTER if at >= 0 else 0)
        endpoint = endpoint_of(self, "replies")
        whole = HEADER.pack(REQUEST, tag, tag ^ 0xFF, len(part), attributes, 0) + part
        self.send(endpoint, whole.ljust((len(whole) + 3) // 4 * 4, b"\0"), zero=True)
        return None

    def _halt(self) -> None:
        endpoint = endpoint_of(self, "packets")
        self.discard(endpoint)
        self.stall(endpoint)

    def on_cleared(self, endpoint: int) -> None:
        if not endpoint & IN:
            self.discard(endpoint)

    # Requests (4.2.1)

    @control(TO_ENDPOINT, ABORT_OUT)
    def abort_out(self, request: Request) -> bytes:
        """INITIATE_ABORT_BULK_OUT: the transfer of this tag is forgotten, and the endpoint halts (4.2.1.2)."""
        if not self._transfer:
            return bytes((FAILED, self._last))
        tag = self._transfer[1]
        if tag != request.value & 0xFF:
            return bytes((NOT_IN_PROGRESS, tag))
        self._transfer, self._came, self._last = b"", "", tag
        self._halt()
        return bytes((SUCCESS, tag))

    @control(TO_ENDPOINT, CHECK_ABORT_OUT)
    def check_abort_out(self, _request: Request) -> bytes:
        """CHECK_ABORT_BULK_OUT_STATUS: it is done (4.2.1.3)."""
        return bytes((SUCCESS, 0, 0, 0, 0, 0, 0, 0))

    @control(TO_ENDPOINT, ABORT_IN)
    def abort_in(self, request: Request) -> bytes:
        """INITIATE_ABORT_BULK_IN: a request for an answer is forgotten, and what is queued of the answer (4.2.1.4)."""
        tag, asked = request.value & 0xFF, self._asked
        if asked and asked[0] != tag:
            return bytes((NOT_IN_PROGRESS, asked[0]))
        endpoint = endpoint_of(self, "replies")
        is_there = bool(asked or self.waiting(endpoint))
        self.discard(endpoint)
        self._asked = None
        return bytes((SUCCESS if is_there else FAILED, self._last))

    @control(TO_ENDPOINT, CHECK_ABORT_IN)
    def check_abort_in(self, _request: Request) -> bytes:
        """CHECK_ABORT_BULK_IN_STATUS: it is done, and nothing is queued (4.2.1.5)."""
        return bytes((SUCCESS, 0, 0, 0, 0, 0, 0, 0))

    @control(TO_INTERFACE, CLEAR, 0, 0)
    def clear(self, _request: Request) -> bytes:
        """INITIATE_CLEAR: what came and what was to be read is forgotten, and the endpoint of messages halts (4.2.1.6)."""
        for address in self.endpoints:
            if address & IN:
                self.discard(address)
        self._forget()
        self._halt()
        return bytes((SUCCESS,))

    @control(TO_INTERFACE, CHECK_CLEAR, 0, 0)
    def check_clear(self, _request: Request) -> bytes:
        """CHECK_CLEAR_STATUS: it is done, and nothing is queued (4.2.1.7)."""
        return bytes((SUCCESS, 0))

    @control(TO_INTERFACE, CAPABILITIES, 0, 0)
    def capabilities(self, _request: Request) -> bytes:
        """GET_CAPABILITIES: USBTMC 1.0; it listens and talks, and ends an answer by a character; USB488 1.0, and nothing of what that has
        (4.2.1.8; USB488, 4.2.2)."""
        return bytes((SUCCESS, 0, 0x00, 0x01, 0, 1, 0, 0, 0, 0, 0, 0, 0x00, 0x01)).ljust(24, b"\0")

    @control(TO_INTERFACE, STATUS_BYTE, index=0)
    def status_byte(self, request: Request) -> Union[bytes, Answer]:
        """READ_STATUS_BYTE, of an interface without an interrupt endpoint (USB488, 4.3.1)."""
        tag = request.value & 0xFF
        if not 2 <= tag <= 127:
            return STALL
        has_answer = self._rest or self._answers
        return bytes((SUCCESS, tag, (ERRORS if self.errors else 0) | (ANSWER if has_answer else 0)))
