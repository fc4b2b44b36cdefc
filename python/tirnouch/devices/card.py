"""A smart card with one application, by ISO/IEC 7816-4: it is selected by its name, has a file that is read, a PIN with three tries, and a
key that answers challenges. A reader powers it on and passes it commands (ccid.py)."""
from __future__ import annotations

import hashlib
import hmac
import os
from typing import Callable, Dict, NamedTuple, Optional

# ISO/IEC 7816-3, 8.2: direct convention; TD1 alone follows, and offers T=1 alone; the last is the exclusive or of those behind the first.
ATR = bytes((0x3B, 0x80, 0x01, 0x81))
# A name of the proprietary category: its first digit is F.
NAME = bytes.fromhex("f07469726e6f756368")
# Instructions
VERIFY, GET_CHALLENGE, INTERNAL_AUTHENTICATE, SELECT, READ_BINARY = 0x20, 0x84, 0x88, 0xA4, 0xB0
# Status words
DONE, TRIES, WRONG_LENGTH, NOT_ALLOWED, BLOCKED = 0x9000, 0x63C0, 0x6700, 0x6982, 0x6983
CONDITIONS, WRONG_PARAMETERS, NO_FILE, WRONG_OFFSET, NO_INSTRUCTION, NO_CLASS = 0x6985, 0x6A86, 0x6A82, 0x6B00, 0x6D00, 0x6E00
MOST_TRIES, MOST_CHALLENGE = 3, 32


class Failed(Exception):
    """A command ends with a status word, and without data."""

    def __init__(self, status: int) -> None:
        super().__init__(f"status {status:04x}")
        self.status = status


class Command(NamedTuple):
    """A command of a short length: its header, its data, and the bytes that it expects at most; None where it expects none."""

    kind: int
    instruction: int
    first: int
    second: int
    data: bytes
    expected: Optional[int]


def parsed(apdu: bytes) -> Command:
    """The four cases of a command (ISO/IEC 7816-3, 12.1); Le of 0 stands for 256."""
    if len(apdu) < 4:
        raise Failed(WRONG_LENGTH)
    head, rest = apdu[:4], apdu[4:]
    data, tail = b"", rest
    if len(rest) > 1:
        data, tail = rest[1 : 1 + rest[0]], rest[1 + rest[0] :]
        if len(data) != rest[0] or not rest[0] or len(tail) > 1:
            raise Failed(WRONG_LENGTH)
    return Command(head[0], head[1], head[2], head[3], data, (tail[0] or 256) if tail else None)


class Card:
    """The card. Its tries are kept while it has no power, as long as the object lives."""

    def __init__(self, pin: bytes = b"123456", key: bytes = b"tirnouch's key", content: bytes = b"a file of the card") -> None:
        self.pin, self.key, self.content = pin, key, content
        self.tries = MOST_TRIES
        self.instructions: Dict[int, Callable[[Command], bytes]] = {
            SELECT: self.select, READ_BINARY: self.read_binary, VERIFY: self.verify, GET_CHALLENGE: self.get_challenge,
            INTERNAL_AUTHENTICATE: self.internal_authenticate}
        self.power_on()

    def power_on(self) -> bytes:
        """Its answer to a reset: no application is selected, and no PIN is verified."""
        self.is_selected, self.is_verified = False, False
        return ATR

    def answer(self, apdu: bytes) -> bytes:
        """The data of a response, and its status word."""
        try:
            command = parsed(apdu)
            if command.kind:
                raise Failed(NO_CLASS)
            if command.instruction not in self.instructions:
                raise Failed(NO_INSTRUCTION)
            return self.instructions[command.instruction](command) + DONE.to_bytes(2, "big")
        except Failed as failed:
            return failed.status.to_bytes(2, "big")

    def select(self, command: Command) -> bytes:
        """SELECT by the application's name, or the beginning of it, with its control information where P2 asks for it."""
        if command.first != 0x04 or command.second not in (0x00, 0x0C):
            raise Failed(WRONG_PARAMETERS)
        if not command.data or not NAME.startswith(command.data):
            raise Failed(NO_FILE)
        self.is_selected, self.is_verified = True, False
        name = bytes((0x84, len(NAME))) + NAME
        return bytes((0x6F, len(name))) + name if command.second == 0x00 else b""

    def read_binary(self, command: Command) -> bytes:
        """READ BINARY: bytes of the file from an offset on."""
        self.need_application()
        at = command.first << 8 | command.second
        if command.first & 0x80 or at >= len(self.content):
            raise Failed(WRONG_OFFSET)
        return self.content[at : at + self.expected(command)]

    def verify(self, command: Command) -> bytes:
        """VERIFY: the PIN; without data, how many tries are left."""
        self.need_application()
        if command.first or command.second != 0x01:
            raise Failed(WRONG_PARAMETERS)
        if not self.tries:
            raise Failed(BLOCKED)
        if not command.data:
            if self.is_verified:
                return b""
            raise Failed(TRIES + self.tries)
        self.is_verified = hmac.compare_digest(command.data, self.pin)
        self.tries = MOST_TRIES if self.is_verified else self.tries - 1
        if not self.is_verified:
            raise Failed(TRIES + self.tries)
        return b""

    def get_challenge(self, command: Command) -> bytes:
        """GET CHALLENGE: random bytes."""
        if command.first or command.second:
            raise Failed(WRONG_PARAMETERS)
        return os.urandom(min(self.expected(command), MOST_CHALLENGE))

    def internal_authenticate(self, command: Command) -> bytes:
        """INTERNAL AUTHENTICATE: what the key makes of a challenge, by HMAC with SHA-256, where the PIN is verified."""
        self.need_application()
        if not self.is_verified:
            raise Failed(NOT_ALLOWED)
        if not command.data:
            raise Failed(WRONG_LENGTH)
        return hmac.new(self.key, command.data, hashlib.sha256).digest()[: self.expected(command)]

    def need_application(self) -> None:
        """A command of the application's."""
        if not self.is_selected:
            raise Failed(CONDITIONS)

    def expected(self, command: Command) -> int:
        """The bytes that a command asks for."""
        if command.expected is None:
            raise Failed(WRONG_LENGTH)
        return command.expected
