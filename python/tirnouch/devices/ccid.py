"""A reader of smart cards with one slot (USB Chip/Smart Card Interface Devices 1.1), with a card in it (card.py).

    ccid.py [VENDOR:PRODUCT]    in hexadecimal digits; libccid looks for readers that its list has, scdaemon takes any

It exchanges short commands of ISO/IEC 7816-4 as they are; how they go to the card is the reader's own affair (dwFeatures)."""
from __future__ import annotations

import struct
from typing import Callable, Dict, Optional, Tuple

from tirnouch import Interface, Request, bulk_in, bulk_out, control, interrupt_in, main
from tirnouch.bases import Renewed
from tirnouch.devices.card import Card

REPLIES, COMMANDS, CHANGES, PACKET = 0x81, 0x02, 0x83, 64
# The message types of 6.1, and of 6.2.
SET_PARAMETERS, POWER_ON, POWER_OFF, SLOT_STATUS, GET_PARAMETERS, RESET_PARAMETERS, TRANSFER = 0x61, 0x62, 0x63, 0x65, 0x6C, 0x6D, 0x6F
DATA_BLOCK, SLOT_STATUS_REPLY, PARAMETERS = 0x80, 0x81, 0x82
HEAD = struct.Struct("<BIBB3s")
MOST_COMMAND = 261
MOST_MESSAGE = HEAD.size + MOST_COMMAND
# bmICCStatus and bmCommandStatus (6.2.6), and errors: what isn't supported; the offset of a field that is wrong; no answer of the card.
ACTIVE, INACTIVE, COMMAND_FAILED = 0, 1, 0x40
UNSUPPORTED, WRONG_LENGTH, WRONG_SLOT, WRONG_PROTOCOL, CARD_MUTE = 0, 1, 5, 7, 0xFE
# T=1 at 372 clocks a bit, LRC, no more guard time, BWI 4 and CWI 13, IFSC 254 (6.1.7)
T_1 = bytes.fromhex("1110004d00fe00")
# Parameters, voltage, clock and bit rate are found by the reader, as is IFSD (5.1).
FEATURES = 0x00020000 | 0x400 | 0x40 | 0x20 | 0x10 | 0x08 | 0x02
# One slot, three voltages, T=1, 4 MHz, 10,752 bits a second; no display and no keypad (5.1).
FUNCTIONAL = struct.pack("<BBHBBIIIBIIBIIIIIBBHBB", 54, 0x21, 0x0110, 0, 0x07, 2, 4000, 4000, 0, 10752, 10752, 0, 254, 0, 0, FEATURES,
                         MOST_MESSAGE, 0xFF, 0xFF, 0, 0, 1)


class Fault(Exception):
    """A message fails with this error."""

    def __init__(self, error: int) -> None:
        super().__init__(f"error {error:02x}")
        self.error = error


class Reader(Renewed):
    """The reader. Its card is there from the beginning."""

    product = 0x000D
    interfaces = (Interface(0x0B, 0, 0, "", FUNCTIONAL),)
    strings = ("Works", "Reader", "READER-1")
    speed = "full"
    replies = bulk_in(REPLIES, PACKET)

    def __init__(self, ids: str = "") -> None:
        if ids:
            self.vendor, self.product = (int(it, 16) for it in ids.split(":"))
        self.card = Card()
        self.messages: Dict[int, Tuple[int, Callable[[bytes], bytes]]] = {
            POWER_ON: (DATA_BLOCK, self.power_on), POWER_OFF: (SLOT_STATUS_REPLY, self.power_off),
            SLOT_STATUS: (SLOT_STATUS_REPLY, self.slot_status), TRANSFER: (DATA_BLOCK, self.transfer),
            GET_PARAMETERS: (PARAMETERS, self.get_parameters), RESET_PARAMETERS: (PARAMETERS, self.get_parameters),
            SET_PARAMETERS: (PARAMETERS, self.set_parameters)}

    def begin(self) -> None:
        """The card is there, without power, and that wasn't told yet (6.3.1)."""
        super().begin()
        self.is_active, self.is_told, self.command = False, False, b""

    @interrupt_in(CHANGES, 8, 16)
    def changes(self, _room: int) -> Optional[bytes]:
        """RDR_to_PC_NotifySlotChange: there is a card in slot 0, and there was none."""
        if self.is_told:
            return None
        self.is_told = True
        return bytes((0x50, 0x03))

    @control(0x21, 0x01, index=0)
    def abort(self, _request: Request) -> None:
        """ABORT (5.3.1): what came of a message is forgotten."""
        self.command = b""

    @bulk_out(COMMANDS, PACKET)
    def packet(self, data: bytes) -> None:
        """A message, in packets, which ends with its own length, or early by a short packet."""
        self.command += data
        whole = HEAD.size + int.from_bytes(self.command[1:5], "little")
        if len(self.command) >= HEAD.size and (len(self.command) >= whole or len(data) < PACKET):
            message, self.command = self.command, b""
            self.message(message)
        elif len(data) < PACKET:
            self.command = b""                          # no header: there is nothing to answer

    def message(self, message: bytes) -> None:
        """A message is answered with its slot and its number, and in the kind of its answers where it fails, too."""
        kind, length, slot, number, _ = HEAD.unpack_from(message)
        answer, do = self.messages.get(kind, (SLOT_STATUS_REPLY, self.unsupported))
        error, data = None, b""
        try:
            if slot and kind in self.messages:
                raise Fault(WRONG_SLOT)
            if len(message) != HEAD.size + length or length > MOST_COMMAND:
                raise Fault(WRONG_LENGTH)
            data = do(message)
        except Fault as fault:
            error = fault.error
        self.reply(answer, slot, number, data, error)

    def reply(self, kind: int, slot: int, number: int, data: bytes, error: Optional[int]) -> None:
        """A message of the reader's (6.2). One that fills its last packet is ended by an empty one."""
        status = (ACTIVE if self.is_active else INACTIVE) | (COMMAND_FAILED if error is not None else 0)
        last = 1 if kind == PARAMETERS else 0           # bProtocolNum is T=1; no chain; the clock runs
        self.send(REPLIES, HEAD.pack(kind, len(data), slot, number, bytes((status, error or 0, last))) + data, zero=True)

    # Messages, and the data of their answers

    def unsupported(self, _message: bytes) -> bytes:
        """A message that isn't here."""
        raise Fault(UNSUPPORTED)

    def power_on(self, _message: bytes) -> bytes:
        """PC_to_RDR_IccPowerOn (6.1.1): the answer to a reset."""
        self.is_active = True
        return self.card.power_on()

    def power_off(self, _message: bytes) -> bytes:
        """PC_to_RDR_IccPowerOff (6.1.2)."""
        self.is_active = False
        return b""

    def slot_status(self, _message: bytes) -> bytes:
        """PC_to_RDR_GetSlotStatus (6.1.3)."""
        return b""

    def transfer(self, message: bytes) -> bytes:
        """PC_to_RDR_XfrBlock (6.1.4): a command for the card, and its response."""
        if not self.is_active:
            raise Fault(CARD_MUTE)
        return self.card.answer(message[HEAD.size :])

    def get_parameters(self, _message: bytes) -> bytes:
        """PC_to_RDR_GetParameters and ResetParameters (6.1.5, 6.1.6)."""
        return T_1

    def set_parameters(self, message: bytes) -> bytes:
        """PC_to_RDR_SetParameters (6.1.7): T=1 alone; bProtocolNum stands at 7."""
        if message[7] != 1:
            raise Fault(WRONG_PROTOCOL)
        return T_1


if __name__ == "__main__":
    main(Reader)
