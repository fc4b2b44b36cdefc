"""A device as a program: the library starts it by a line `program D COMMAND` of a text of devices, and asks it over its standard input and
output, a line a question.

    hello D            its lines of the text, then ok
    out EP HEX         a packet was sent:  a | n | s | b | later MS | gone
    in EP ROOM         a packet is read:   d:HEX | n | s | b | later MS | gone
    control SETUP HEX  a request:          d:HEX | a | n | s | b | later MS | gone | t, as the text has it
    claimed I, released I, reset, cleared EP, plugged, pulled: told, and not answered"""
from __future__ import annotations

import contextlib
import inspect
import os
import signal
import sys
from typing import BinaryIO, Callable, Iterable, List, Optional, Type, Union

from tirnouch import questions
from tirnouch.answers import Answer
from tirnouch.device import Device
from tirnouch.endpoints import IN

HEXADECIMAL, DECIMAL = 16, 10
# The bytes of a setup packet (USB 2.0, 9.3), and more than any host reads at once.
SETUP, MOST_ROOM = 8, 1 << 31


class NotAQuestion(ValueError):
    """A line that isn't of the protocol."""


def said(answer: Union[bytes, Answer, None], inward: bool) -> str:
    """An answer's word."""
    if isinstance(answer, Answer):
        return answer.word
    return "d:" + (answer or b"").hex() if inward else "a"


def number(word: str, base: int, most: int) -> int:
    """A number of a question."""
    value = int(word, base)
    if not 0 <= value <= most:
        raise ValueError(word)
    return value


def endpoint(device: Device, word: str, inward: bool) -> int:
    """An endpoint of the device's, of this direction."""
    address = number(word, HEXADECIMAL, 0xFF)
    if address not in device.endpoints or bool(address & IN) != inward:
        raise ValueError(word)
    return address


def question(device: Device, words: List[str]) -> Callable[[], Optional[str]]:
    """What answers a question of these words; its answer is None where the library waits for none. ValueError where they don't fit."""
    kind, *rest = words
    if kind == "hello":
        (word,) = rest
        own = number(word, DECIMAL, 0xFF)
        return lambda: device.text(own) + "ok"
    if kind == "in":
        word, length = rest
        address, room = endpoint(device, word, True), number(length, DECIMAL, MOST_ROOM)
        return lambda: said(questions.packet_in(device, address, room), True)
    if kind == "out":
        word, *digits = rest
        address, packet = endpoint(device, word, False), bytes.fromhex("".join(digits))
        return lambda: said(questions.packet_out(device, address, packet), False)
    if kind == "control":
        word, *digits = rest
        setup, written = bytes.fromhex(word), bytes.fromhex("".join(digits))
        if len(setup) != SETUP:
            raise ValueError(word)
        return lambda: said(questions.request(device, setup, written), bool(setup[0] & IN))
    return event(device, kind, rest)


def event(device: Device, kind: str, rest: List[str]) -> Callable[[], None]:
    """What tells the device of an event."""
    if kind not in questions.EVENTS or len(rest) != (kind in questions.NUMBERED):
        raise ValueError(kind)
    about = number(rest[0], HEXADECIMAL if kind == "cleared" else DECIMAL, 0xFF) if rest else 0
    return lambda: questions.event(device, kind, about)


def answered(device: Device, line: bytes) -> Optional[str]:
    """The answer to a line. NotAQuestion where it isn't one: the library would wait in vain for an answer, so the device had better end."""
    try:
        answer = question(device, line.decode("ascii").split(" "))
    except ValueError as error:
        raise NotAQuestion(f"{device}: this isn't a question of the protocol: {line[:60]!r}") from error
    return answer()


def serve(device: Device, asked: Iterable[bytes], answers: BinaryIO) -> None:
    """Answers what is asked, until there is no question any more. A last line without its end isn't asked."""
    for line in asked:
        answer = answered(device, line[:-1]) if line.endswith(b"\n") else None
        if answer is not None:
            answers.write(answer.encode("ascii") + b"\n")
            answers.flush()


def apart() -> tuple[BinaryIO, BinaryIO]:
    """Standard input and output for the protocol alone: what the device prints goes to standard error, and it reads nothing."""
    asked, answers = os.fdopen(os.dup(0), "rb"), os.fdopen(os.dup(1), "wb")
    nothing = os.open(os.devnull, os.O_RDONLY)
    os.dup2(nothing, 0)
    os.close(nothing)
    os.dup2(2, 1)
    sys.stdout.flush()
    sys.stdout = sys.stderr
    return asked, answers


def made(kind: Union[Device, Type[Device]], words: List[str]) -> Device:
    """The device, of the program's words. A sentence says which words a class takes."""
    if isinstance(kind, Device):
        return kind
    if not isinstance(kind, type) or not issubclass(kind, Device):
        raise TypeError(f"main takes a class of devices, as main(Echo), and not {kind!r}")
    signature = inspect.signature(kind.__init__) if kind.__init__ is not object.__init__ else inspect.Signature()
    try:
        signature.bind(*([None] if signature.parameters else []), *words)
    except TypeError as error:
        sys.exit(f"{sys.argv[0]}: {error}; its words are those of {kind.__name__}{signature}")
    return kind(*words)


def main(kind: Union[Device, Type[Device]]) -> None:
    """Makes the device of the program's words, and answers for it until the library ends. The library ends the device: an interrupt from
    the terminal is meant for the program that uses it."""
    if sys.stdin.isatty():
        print(f"{sys.argv[0]} is a device: a text of devices starts it by `program 0 python3 {sys.argv[0]}`. Its questions are read here",
              file=sys.stderr)
    else:
        signal.signal(signal.SIGINT, signal.SIG_IGN)
    asked, answers = apart()
    device = made(kind, sys.argv[1:])
    try:
        serve(device, asked, answers)
    except NotAQuestion as error:
        sys.exit(str(error))
    except (BrokenPipeError, ConnectionResetError):
        with contextlib.suppress(OSError):      # nobody is there any more who would hear the rest
            answers.close()
