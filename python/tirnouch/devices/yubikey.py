"""A key that answers challenges, as ykinfo and ykchalresp ask a YubiKey: a HID keyboard with a feature report of 8 bytes.

    yubikey.py [NUMBER [KEY]]    its serial number, and the 20 bytes of slot 2 in hexadecimal digits, which answer by HMAC with SHA-1

What is written and read is by Yubico's library ykpers (ykcore.c, ykdef.h): a frame of 70 bytes in pieces of 7, each with its number behind
it. Slot 1 is empty."""
from __future__ import annotations

import hashlib
import hmac
import struct
from typing import Callable, Dict, List, Union

from tirnouch import AS_TEXT, Answer, Request, interrupt_in, main
from tirnouch.hid import FEATURE, Hid, keyboard

SIZE, PIECE = 8, 7
# A frame: payload, slot, check sum, filler.
FRAME = struct.Struct("<64sBH3x")
LAST = FRAME.size // PIECE - 1
# The last byte of a report has a piece's number, and says that the host writes it, or that it is one of an answer.
WRITTEN, PENDING = 0x80, 0x40
SERIAL, CHALLENGE_2 = 0x10, 0x38
VERSION, SEQUENCE, SLOT_2_VALID = (4, 3, 1), 1, 0x02
# RFC 2202, test case 1 of HMAC with SHA-1.
KEY = "0b" * 20


def check_sum(data: bytes) -> int:
    """CRC-16 of ISO/IEC 13239, without its last complement."""
    value = 0xFFFF
    for byte in data:
        value ^= byte
        for _ in range(8):
            value = value >> 1 ^ (0x8408 if value & 1 else 0)
    return value


class Yubikey(Hid):
    """The key. It types nothing by itself."""

    vendor, product, release = 0x1050, 0x0010, 0x0431
    # A feature report of 8 bytes stands in front of the end of its collection.
    report_descriptor = keyboard()[:-1] + bytes.fromhex("0903750895" "08b102c0")
    boot = "keyboard"
    any_length = True
    strings = ("Works", "Key that answers")
    speed = "full"
    reports = interrupt_in(0x81, SIZE, 10)

    def __init__(self, number: str = "1234567", key: str = KEY) -> None:
        self.number, self.key = int(number), bytes.fromhex(key)
        self.commands: Dict[int, Callable[[bytes], bytes]] = {SERIAL: self.tell_number, CHALLENGE_2: self.answer_challenge}

    def begin(self) -> None:
        super().begin()
        self.forget()

    def forget(self) -> None:
        """Nothing is written, and no answer is there."""
        self.frame = bytearray(FRAME.size)
        self.pieces: List[bytes] = []

    def get_report(self, request: Request) -> Union[bytes, Answer]:
        """It is asked for its feature report alone."""
        return super().get_report(request) if request.value == FEATURE << 8 else AS_TEXT

    def feature(self, report_id: int) -> bytes:
        """A piece of an answer with its number; else the status: version, sequence, which slots are in use."""
        if self.pieces:
            return self.pieces.pop(0)
        return bytes((0, *VERSION, SEQUENCE, SLOT_2_VALID, 0, 0))

    def on_feature(self, report_id: int, data: bytes) -> None:
        """A piece of a frame; pieces of zeros needn't be written, and the last one ends it. A number behind the last piece's ends what is
        written or read: 8F is written for that."""
        if len(data) != SIZE or not data[-1] & WRITTEN:
            return
        number = data[-1] & ~WRITTEN
        if number == 0 or number > LAST:
            self.forget()
        if number <= LAST:
            self.frame[PIECE * number : PIECE * (number + 1)] = data[:PIECE]
        if number == LAST:
            self.command(bytes(self.frame))

    def command(self, frame: bytes) -> None:
        """A whole frame; one with a wrong check sum, or for a slot that isn't here, gets no answer."""
        self.forget()
        payload, slot, found = FRAME.unpack(frame)
        if found == check_sum(payload) and slot in self.commands:
            self.pieces = in_pieces(self.commands[slot](payload))

    def tell_number(self, _payload: bytes) -> bytes:
        """The serial number, the highest byte first."""
        return self.number.to_bytes(4, "big")

    def answer_challenge(self, payload: bytes) -> bytes:
        """HMAC with SHA-1 of a challenge, which ends before the bytes that are like its last one."""
        return hmac.new(self.key, payload.rstrip(payload[-1:]), hashlib.sha1).digest()


def in_pieces(answer: bytes) -> List[bytes]:
    """An answer with its check sum, as reports: each has its number, and the one behind the last has number 0 again."""
    whole = answer + (check_sum(answer) ^ 0xFFFF).to_bytes(2, "little")
    pieces = [whole[at : at + PIECE].ljust(PIECE, b"\0") for at in range(0, len(whole), PIECE)]
    return [*(piece + bytes((PENDING | number,)) for number, piece in enumerate(pieces)), bytes(PIECE) + bytes((PENDING,))]


if __name__ == "__main__":
    main(Yubikey)
