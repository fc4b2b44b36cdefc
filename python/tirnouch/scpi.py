"""Instruments that speak SCPI: lines over a pair of bulk endpoints, or USBTMC (usbtmc.py). A class says what it answers, and has a method
for each command that computes.

    class Meter(Scpi):
        answers = {"*IDN?": "ACME,PM-1,0,1.0"}

        @command("MEASure:VOLTage[:DC]?")
        def voltage(self, channel: int = 1) -> float:
            return 2.3

messages.py reads what an instrument is told."""
from __future__ import annotations

import collections
import inspect
from typing import Any, Callable, ClassVar, Deque, List, Mapping, NamedTuple, Optional, Tuple

from tirnouch.answers import Answer, later
from tirnouch.bases import Renewed, chosen, endpoint_of, joined, says, typed
from tirnouch.descriptors import size_of
from tirnouch.endpoints import BULK, bulk_in, bulk_out
from tirnouch.messages import HEADER, TAKEN, Error, Unit, answer_of, marks, pattern, taken, units

__all__ = ["Error", "Scpi", "command"]

MOST_ERRORS = 20
ENDS = ("\n", "\r\n", "\r", "")


class Command(NamedTuple):
    """A command: what its header may be, whether it asks, the types of its parameters and whether each is needed, the milliseconds that its
    answer takes, and the method's name."""

    header: str
    matches: Any
    kinds: List[Tuple[str, bool]]
    takes: int
    name: str


def kinds_of(header: str, method: Callable[..., Any]) -> List[Tuple[str, bool]]:
    """The types of a method's parameters behind `self`, and whether each is needed."""
    found = []
    for it in list(inspect.signature(method).parameters.values())[1:]:
        kind = it.annotation if isinstance(it.annotation, str) else getattr(it.annotation, "__name__", "")
        kind = "str" if it.annotation is it.empty else kind
        if it.kind not in (it.POSITIONAL_ONLY, it.POSITIONAL_OR_KEYWORD) or kind not in TAKEN:
            types = ", ".join(TAKEN)
            raise TypeError(f"command({header!r}): parameter `{it.name}` of {method.__name__} is of one of the types {types}, and not {it}")
        found.append((kind, it.default is it.empty))
    return found


def command(header: str, takes: int = 0) -> Callable[[Callable[..., Any]], Any]:
    """The method does the commands of this header, and returns the answer where the header has a question mark: a str, a number, a bool,
    bytes (a block), or a tuple of these. Its parameters are those of the command, by their types: int, float, bool, str or bytes; one with
    a default may be missing; in front of them stand the numbers that `#` takes. `raise Error(-222)` puts an error into the queue. The
    answer isn't ready for `takes` milliseconds. TypeError and ValueError say what else stands there."""
    if not isinstance(header, str):
        raise TypeError(f"command takes a header, as @command(\"MEASure:VOLTage?\"), and not {header!r}")
    matches = pattern(header)
    later(takes)                                # it says which milliseconds there are

    def mark(method: Callable[..., Any]) -> Callable[..., Any]:
        if not callable(method):
            raise TypeError(f"command decorates a method, and not {method!r}")
        made = Command(header, matches, kinds_of(header, method), takes, method.__name__)
        if any(kind != "int" for kind, _ in made.kinds[: matches.groups]) or len(made.kinds) < matches.groups:
            raise TypeError(f"command({header!r}): the first parameters of {method.__name__} are those of #, each an int")
        method.commands = [made, *getattr(method, "commands", [])]  # type: ignore[attr-defined]
        return method

    return mark


class Scpi(Renewed):
    """An instrument. What it is told comes at 02 and ends with `end`, and its answers are read at 81 with `end` behind them; where `end` is
    "" a short packet ends a message.

    `answers` has what is always the same: a header, with parameters behind it where they count, and its answer; "" is none. Methods that
    `command` marks come before them. *CLS, *OPC? and SYSTem:ERRor[:NEXT]? are there, and *RST calls `reset`. A command that isn't there, or
    has wrong parameters, puts an error into the queue."""

    answers: Mapping[str, str] = {}
    end: str = "\n"
    replies = bulk_in(0x81)
    packets = bulk_out(0x02)

    _has_first_interface = True
    commands: ClassVar[List[Command]] = []
    _texts: ClassVar[List[Tuple[Any, str, str]]] = []

    def __init_subclass__(cls, **words: Any) -> None:
        chosen(cls, "end", ENDS)
        joined(cls, "replies", BULK, True, "_reply")
        joined(cls, "packets", BULK, False, "_packet")
        cls.commands, cls._texts = found_commands(cls), found_texts(cls)
        super().__init_subclass__(**words)

    def __new__(cls, *words: Any, **named: Any) -> Any:
        device = super().__new__(cls, *words, **named)
        device.errors = []
        return device

    errors: List[Error]
    # What came of a message, and answers that weren't read, each with the milliseconds that it takes.
    _came: str
    _answers: Deque[Tuple[int, bytes]]
    _is_waited: bool

    def begin(self) -> None:
        super().begin()
        self._forget()

    def _forget(self) -> None:
        """Nothing came, and nothing is to be read."""
        self._came, self._answers, self._is_waited = "", collections.deque(), False

    def on_plugged(self) -> None:
        super().on_plugged()
        self.errors.clear()

    # What a class may do, and call

    def reset(self) -> None:
        """*RST: the instrument is set as it was at first."""

    def fail(self, error: Error) -> None:
        """An error goes into the queue; where that is full its last one is -350."""
        if len(self.errors) < MOST_ERRORS:
            self.errors.append(error)
        else:
            self.errors[-1] = Error(-350)

    def do(self, message: str) -> None:
        """A whole message, whose answers are read next, with `;` between them."""
        found, takes = [], 0
        for unit in units(message):
            try:
                wait, answer = self._unit(unit)
            except Error as error:
                self.fail(error)
                continue
            if answer:
                found.append(answer)
                takes += wait
        if found:
            self._answers.append((takes, (";".join(found) + self.end).encode("latin-1")))

    # Common commands (IEEE 488.2, 10), and the queue (SCPI-1999, volume 2, 21.8)

    def _clear(self) -> str:
        self.errors.clear()
        return ""

    def _reset(self) -> str:
        self.reset()
        return ""

    def _next_error(self) -> str:
        return str(self.errors.pop(0)) if self.errors else '0,"No error"'

    # How it is told

    def _unit(self, unit: Unit) -> Tuple[int, str]:
        """The milliseconds that a command's answer takes, and the answer; "" is none."""
        for it in self.commands:
            found = it.matches.fullmatch(unit.header)
            if found:
                numbers = [number or "1" for number in found.groups()]
                return it.takes, self._answer(it, taken(it.kinds, [*numbers, *unit.parameters]))
        fitting = [(words, answer) for matches, words, answer in self._texts if matches.fullmatch(unit.header)]
        for words, answer in fitting:
            if words in ("", unit.words):
                return 0, answer
        own = [do for matches, do in OWN if matches.fullmatch(unit.header)]
        if own and not fitting:
            taken([], unit.parameters)
            return 0, own[0](self)
        raise Error(-224 if fitting else -113 if HEADER.fullmatch(unit.header) else -102)

    def _answer(self, it: Command, words: List[Any]) -> str:
        answer = getattr(self, it.name)(*words)
        if answer is None and it.header.endswith("?"):
            raise TypeError(f"{self}.{it.name} returned None, and {it.header} is a question: return its answer, or raise Error")
        return "" if answer is None else answer_of(answer)

    def _packet(self, packet: bytes) -> Optional[Answer]:
        """A packet of what it is told."""
        self._came += packet.decode("latin-1")
        if not self.end and len(packet) < size_of(self, endpoint_of(self, "packets")):
            message, self._came = self._came, ""
            self.do(message)
        while self.end:
            at = next(marks(self._came, self.end[-1], self.end[-1]), None)
            if at is None:
                break
            message, self._came = self._came[:at], self._came[at + 1 :]
            self.do(message.rstrip("\r"))
        return None

    def _reply(self, _room: int) -> Optional[Answer]:
        """The next answer, when its time is over."""
        if not self._answers:
            return None
        wait, data = self._answers[0]
        if wait and not self._is_waited:
            self._is_waited = True
            return later(wait)
        self._is_waited = False
        self._answers.popleft()
        self.send(endpoint_of(self, "replies"), data, zero=True)
        return None


joined(Scpi, "replies", BULK, True, "_reply")
joined(Scpi, "packets", BULK, False, "_packet")
# pylint: disable=protected-access
OWN: List[Tuple[Any, Callable[[Scpi], str]]] = [
    (pattern("*CLS"), Scpi._clear), (pattern("*RST"), Scpi._reset), (pattern("*OPC?"), lambda _device: "1"),
    (pattern("SYSTem:ERRor[:NEXT]?"), Scpi._next_error)]


def found_commands(kind: type) -> List[Command]:
    """The commands of a class: its own before those of its bases, and else in their order."""
    found: List[Command] = []
    for base in kind.__mro__:
        for it in vars(base).values():
            found += getattr(it, "commands", ()) if callable(it) and not isinstance(it, type) else ()
    return found


def found_texts(kind: type) -> List[Tuple[Any, str, str]]:
    """The answers that are always the same: what their headers may be, their parameters, and the text. Those with parameters come first."""
    found = []
    for key, answer in typed(kind, "answers", Mapping, 'a dict of texts, as {"*IDN?": "ACME,PM-1,0,1.0"}').items():
        if not isinstance(key, str) or not isinstance(answer, str):
            raise TypeError(f"{says(kind, 'answers')} has texts, as {{\"*IDN?\": \"ACME,PM-1,0,1.0\"}}, and not {key!r}: {answer!r}")
        header, _, words = key.partition(" ")
        try:
            answer.encode("latin-1")
            found.append((pattern(header), words.strip(), answer))
        except ValueError as error:
            raise ValueError(f"{says(kind, 'answers')}: {error}") from error
    return sorted(found, key=lambda it: not it[1])
