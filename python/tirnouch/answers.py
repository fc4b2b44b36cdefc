"""What a device's method may answer beside bytes and None, in the words of a device that is a program and in the numbers of tirnouch.h."""
from dataclasses import dataclass
from typing import Any, Union

MOST_MILLISECONDS = 999_999_999
# TIRNOUCH_LATER(0): a wait of so many milliseconds is so much less.
LATER = -1000


@dataclass(frozen=True)
class Answer:
    """An answer that moves no bytes."""

    name: str
    word: str
    number: int

    def __repr__(self) -> str:
        return self.name


# A stall: an endpoint halts until its halt is cleared, a request is refused (USB 2.0, 8.4.5).
STALL = Answer("STALL", "s", -1)
# Not ready: the packet is asked for again (USB 2.0, 8.4.5). It makes no step, so polling costs nothing.
NAK = Answer("NAK", "n", -3)
# A transaction that failed all its retries: LIBUSB_TRANSFER_ERROR.
BROKEN = Answer("BROKEN", "b", -4)
# The device is pulled out.
GONE = UNPLUG = Answer("GONE", "gone", -5)
# Of a request: what the device's text says answers it, and its descriptors.
AS_TEXT = DEFAULT = Answer("AS_TEXT", "t", -2)
# Where the host writes: what it wrote is taken. None says the same.
ACK = Answer("ACK", "a", 0)
# The endpoint isn't ready any more, until the device is reset or plugged in again. Of a request: that one is never answered.
SILENT = Answer("SILENT", "n", -3)


def milliseconds_of(call: str, milliseconds: Any) -> int:
    """A time that a device may wait."""
    if not isinstance(milliseconds, int) or isinstance(milliseconds, bool):
        raise TypeError(f"{call} takes a whole number of milliseconds, and not {milliseconds!r}")
    if not 0 <= milliseconds <= MOST_MILLISECONDS:
        raise ValueError(f"{call} takes 0 to {MOST_MILLISECONDS} milliseconds, and not {milliseconds}")
    return milliseconds


def later(milliseconds: int) -> Answer:
    """Not ready, and not asked again before so many milliseconds have passed, 0 to 999,999,999."""
    milliseconds_of("later", milliseconds)
    return Answer(f"later({milliseconds})", f"later {milliseconds}", LATER - milliseconds)


@dataclass(frozen=True)
class After:
    """An answer that is given when a time has passed; the method isn't asked once more for it."""

    milliseconds: int
    answer: Union[bytes, Answer, None]


def after(milliseconds: int, answer: Union[bytes, bytearray, memoryview, Answer, None]) -> After:
    """Not ready for so many milliseconds, 0 to 999,999,999, and then this answer: bytes, ACK, None, STALL, BROKEN, GONE or SILENT."""
    milliseconds_of("after", milliseconds)
    if isinstance(answer, (bytes, bytearray, memoryview)):
        return After(milliseconds, bytes(answer))
    if answer is None or (isinstance(answer, Answer) and answer in (ACK, STALL, BROKEN, GONE, SILENT)):
        return After(milliseconds, answer)
    raise TypeError(f"after takes the milliseconds and then an answer, bytes, ACK, STALL, BROKEN, GONE or SILENT, and not {answer!r}")
