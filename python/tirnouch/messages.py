"""What an instrument is told: messages of commands, by SCPI-1999 (volume 1, chapters 5 to 7 for headers, volume 2, chapter 21 for errors)
and by IEEE 488.2 (chapter 7 for parameters). Text has a letter for each byte, as latin-1 has them."""
from __future__ import annotations

import math
import re
from typing import Any, Callable, Dict, Iterator, List, NamedTuple, Tuple

QUOTES = "\"'"
BLOCK = re.compile(r"#([1-9])")
# A node that may be left out with its colon behind it, as "[SOURce:]VOLTage" has it.
FIRST = re.compile(r"\[(\w+#?):\]")
NODE = re.compile(r"(\[?):?([A-Z]+)([a-z]*)(\d*)(#?)(\]?)")
COMMON = re.compile(r"\*[A-Za-z]+\??")
HEADER = re.compile(r"(\*|(:\w+)*:)\w+\??", re.ASCII)
NUMBER = re.compile(r"[+-]?(\d+\.?\d*|\.\d+)([eE][+-]?\d+)?")
BASES = {"H": 16, "Q": 8, "B": 2}
WORDS = {"ON": True, "OFF": False}
# The errors of volume 2, 21.8, as far as they are made here.
SENTENCES = {-102: "Syntax error", -104: "Data type error", -108: "Parameter not allowed", -109: "Missing parameter",
             -113: "Undefined header", -222: "Data out of range", -224: "Illegal parameter value", -350: "Queue overflow"}


class Error(Exception):
    """A command isn't done: an error goes into the queue, -32768 to 32767, but not 0; without a text that of the standard, where it is one
    of -102, -104, -108, -109, -113, -222, -224 and -350."""

    def __init__(self, number: int, text: str = "") -> None:
        if not isinstance(number, int) or not -32768 <= number <= 32767 or not number:
            raise ValueError(f"an error's number is -32768 to 32767, and not 0, as Error(-222), and not {number!r}")
        if not text and number not in SENTENCES:
            raise ValueError(f"error {number} needs a text, as Error({number}, \"Overheated\")")
        self.number, self.text = number, text or SENTENCES[number]
        super().__init__(f"{number}, {self.text}")

    def __str__(self) -> str:
        quoted = self.text.replace('"', '""')
        return f'{self.number},"{quoted}"'


def marks(text: str, signs: str, ends: str = "") -> Iterator[int]:
    """The places of these signs outside of strings and blocks; an end counts in a string, too."""
    at, quote = 0, ""
    while at < len(text):
        block = None if quote else BLOCK.match(text, at)
        if quote:
            if text[at] in ends:
                yield at
            quote = "" if text[at] == quote else quote
        elif block:
            at = block_end(text, at) - 1
        elif text[at] in QUOTES:
            quote = text[at]
        elif text[at] in signs:
            yield at
        at += 1


def block_end(text: str, at: int) -> int:
    """The place behind a block of definite length (IEEE 488.2, 7.7.6): `#`, how many digits follow, those of its length, and its bytes."""
    begin = at + 2 + int(text[at + 1])
    digits = text[at + 2 : begin]
    return begin + (int(digits) if digits.isdecimal() else 0)


def parted(text: str, sign: str) -> List[str]:
    """The parts between signs, without blanks around them."""
    parts, begin = [], 0
    for at in marks(text, sign):
        parts.append(text[begin:at].strip(" \t"))
        begin = at + 1
    return [*parts, text[begin:].strip(" \t")]


def pattern(header: str) -> "re.Pattern[str]":
    """What a command's header may be, from the colon of the root on: its keywords in their long form or in the short one, which stands in
    capitals; a node in brackets may be left out; `#` takes a number, 1 where there is none: `OUTPut#:VOLTage[:LEVel]?`. ValueError where it
    isn't such a header."""
    if COMMON.fullmatch(header):
        return re.compile(re.escape(header), re.IGNORECASE)
    made, at, body = "", 0, FIRST.sub(r"[:\1]:", header[: len(header) - header.endswith("?")])
    for node in NODE.finditer(body):
        opened, short, rest, digits, number, closed = node.groups()
        if node.start() != at or bool(opened) != bool(closed) or (at and ":" not in node[0]) or (number and digits):
            break
        keyword = f"(?:{short}(?:{rest.upper()})?)" if rest else short
        whole = f":{keyword}{digits}" + (r"(\d*)" if number else "")
        made, at = made + (f"(?:{whole})?" if opened else whole), node.end()
    if not body or at != len(body):
        raise ValueError(f"{header!r} is no header: keywords stand there with their short form in capitals, as \"MEASure:VOLTage[:DC]?\", "
                         "or a common command, as \"*IDN?\"")
    return re.compile(made + (r"\?" if header.endswith("?") else ""), re.IGNORECASE)


class Unit(NamedTuple):
    """A command of a message: its header, with a colon for the root where it isn't a common one, and its parameters as they came."""

    header: str
    words: str

    @property
    def parameters(self) -> List[str]:
        """Each parameter."""
        return parted(self.words, ",") if self.words else []


def units(message: str) -> Iterator[Unit]:
    """The commands of a message. Behind `;` a header without a colon in front goes on where the one before it stood (volume 1, 6.2.4)."""
    path = ":"
    for text in parted(message, ";"):
        if not text:
            continue
        header, _, words = text.replace("\t", " ", 1).partition(" ")
        if not header.startswith("*"):
            header = header if header.startswith(":") else path + header
            path = header[: header.rfind(":") + 1]
        yield Unit(header, words.strip(" \t"))


# Parameters

def number_of(text: str) -> float:
    """A decimal number (7.7.2), or one by `#H`, `#Q` or `#B` (7.7.4)."""
    if text[:1] == "#" and text[1:2].upper() in BASES:
        try:
            return int(text[2:], BASES[text[1].upper()])
        except ValueError:
            raise Error(-104) from None
    if not NUMBER.fullmatch(text):
        raise Error(-104)
    if math.isinf(float(text)):
        raise Error(-222)
    return float(text)


def whole_of(text: str) -> int:
    """A number, rounded."""
    return round(number_of(text))


def truth_of(text: str) -> bool:
    """ON, OFF, or a number, which is false where it rounds to 0 (SCPI, volume 1, 7.3)."""
    return WORDS[text.upper()] if text.upper() in WORDS else bool(whole_of(text))


def text_of(text: str) -> str:
    """What stands in a string (7.7.5), where a quote stands for two; other characters as they are."""
    if text[:1] not in QUOTES or not text:
        return text
    if len(text) < 2 or text[-1] != text[0]:
        raise Error(-104)
    return text[1:-1].replace(text[0] * 2, text[0])


def bytes_of_block(text: str) -> bytes:
    """The bytes of a block (7.7.6)."""
    block = BLOCK.match(text)
    begin = 2 + int(block[1]) if block else 0
    if not text[2:begin].isdecimal() or block_end(text, 0) != len(text):
        raise Error(-104)
    return text[begin:].encode("latin-1")


TAKEN: Dict[str, Callable[[str], Any]] = {"int": whole_of, "float": number_of, "bool": truth_of, "str": text_of, "bytes": bytes_of_block}


def answer_of(value: Any) -> str:
    """What is answered: text as it is, numbers in decimal digits, a bool as 1 or 0, bytes as a block, and a tuple or list of these with
    commas between them."""
    if isinstance(value, str):
        return value
    if isinstance(value, bool):
        return str(int(value))
    if isinstance(value, (int, float)):
        return str(value)
    if isinstance(value, (bytes, bytearray)):
        length = str(len(value))
        return f"#{len(length)}{length}" + bytes(value).decode("latin-1")
    if isinstance(value, (tuple, list)):
        return ",".join(map(answer_of, value))
    raise TypeError(f"{value!r} is no answer: a str, a number, a bool, bytes or a tuple of these stands there")


def taken(kinds: List[Tuple[str, bool]], words: List[str]) -> List[Any]:
    """Parameters of these types, of which those may be missing whose bool is False. Error -109 where one is missing, -108 where there are
    more, -104 where one is of another type."""
    if len(words) > len(kinds):
        raise Error(-108)
    if any(is_needed for _, is_needed in kinds[len(words) :]) or "" in words:
        raise Error(-109)
    return [TAKEN[kind](word) for (kind, _), word in zip(kinds, words)]
