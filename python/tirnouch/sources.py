"""Devices of a bus that no class computes: a text, a file of one, a recording; and a device that comes back as another one."""
from __future__ import annotations

import os
import pathlib
import re
import shlex
import subprocess
import sys
import tempfile
from typing import Any, Dict, List, NamedTuple, Optional, Tuple, Union

from tirnouch.answers import BROKEN, GONE, SILENT, STALL, Answer
from tirnouch.device import Device
from tirnouch.faults import MOST_PACKETS, kind_of
from tirnouch.endpoints import whole
from tirnouch.library import HERE

PathLike = Union[str, "os.PathLike[str]"]
# The first words of lines that have a device's number behind them (docs/DEVICES.md).
NUMBERED = ("device", "script", "ids", "class", "descriptor", "string", "speed", "control", "after", "leaves", "hidden", "anew", "lasts",
            "driver", "program")
EXPECTED = re.compile(r"a:[0-9a-f]*\*?$")
# tools/runs makes a text of a capture: inside the package, as a wheel has it, or in the repository; so has usbtrace its places.
RUNS = (HERE / "runs", HERE.parents[1] / "tools" / "runs")
USBTRACE = (HERE / "lib" / "usbtrace", HERE.parents[1] / "bin" / "usbtrace")
IDS = re.compile(r"[0-9a-fA-F]{4}:[0-9a-fA-F]{4}")
SECONDS = 120


class SourceError(ValueError):
    """A text, a file or a recording that can't be used; the sentence says why, and what to do."""


def place_of(places: Tuple[pathlib.Path, ...]) -> Optional[pathlib.Path]:
    """The first of these that is there."""
    return next((it for it in places if it.exists()), None)


class Text:
    """Lines of devices, which are numbered from 0 on in it; in a bus they have the numbers of their places there."""

    def __init__(self, lines: List[str], name: str, folder: Optional[pathlib.Path] = None, lenient: bool = False) -> None:
        self.lines, self.name, self.folder, self.lenient = lines, name, folder, lenient
        self.count = 1 + max((number for number in map(self.number_of, lines) if number is not None), default=-1)
        if not self.count:
            raise SourceError(f"{name} has no device: a line `device 0 HEX` has its configuration descriptor (docs/DEVICES.md)")

    def number_of(self, line: str) -> Optional[int]:
        """The device of a line; None where it is of none."""
        words = line.split(" ")
        return int(words[1]) if words[0] in NUMBERED and len(words) > 1 and words[1].isdigit() else None

    def text(self, first: int) -> str:
        """Its lines, where its first device has this number."""
        return "".join(f"{self.renumbered(line, first)}\n" for line in self.lines)

    def renumbered(self, line: str, first: int) -> str:
        """A line whose device's number is that of its place. Its programs run in the folder of its file."""
        words = line.split(" ")
        if self.number_of(line) is not None:
            words[1] = str(int(words[1]) + first)
        elif words[:2] == ["comes", "back"] and len(words) == 5 and words[2].isdigit() and words[4].isdigit():
            words[2], words[4] = str(int(words[2]) + first), str(int(words[4]) + first)
        if words[0] == "program" and self.folder and len(words) > 2:
            words[2:] = ["sh", "-c", shlex.quote(f"cd {shlex.quote(str(self.folder))} && exec {' '.join(words[2:])}")]
        return " ".join(words)

    def at(self, endpoint: int, index: int, device: int = 0) -> TextFault:
        """The packet of this index, from 0 on, that a script of it gives or takes: `.fail(kind)` makes a text in which it fails."""
        return TextFault(self, whole("an endpoint", endpoint, 0xFF), whole("the packet's index", index, MOST_PACKETS), device)

    def __repr__(self) -> str:
        return self.name


class TextFault(NamedTuple):
    """A packet of a text that is to fail."""

    source: Text
    endpoint: int
    packet: int
    device: int

    def fail(self, kind: Answer) -> Text:
        """The text with this fault: STALL and BROKEN stand before the packet, which comes behind them; UNPLUG is a line `leaves`; behind
        SILENT the script has no answer any more."""
        kind_of(kind)
        name, number, address = self.source.name, str(self.device), f"{self.endpoint:02x}"
        at = next((at for at, line in enumerate(self.source.lines) if line.split(" ")[:3] == ["script", number, address]), None)
        if at is None:
            raise SourceError(f"{name}: device {number} has no script of {address}, so no packet of it can fail")
        words = self.source.lines[at].split(" ")
        packets = [place for place, word in enumerate(words[3:]) if word[0] in "da"]
        if self.packet >= len(packets):
            raise SourceError(f"{name}: the script of device {number}, {address}, has {len(packets)} packets, and none of index "
                              f"{self.packet}")
        return self.placed(kind, at, words, packets[self.packet])

    def placed(self, kind: Answer, at: int, words: List[str], place: int) -> Text:
        """The text where the fault stands at this place of the script."""
        number, lines = str(self.device), list(self.source.lines)
        before, behind = words[: 3 + place], words[3 + place :]
        if kind is GONE:
            if any(line.split(" ")[:2] == ["leaves", number] for line in lines):
                raise SourceError(f"{self.source.name}: device {number} leaves already, by a line `leaves`")
            lines.append(f"leaves {number} {self.endpoint:02x} {place}")
        elif kind is SILENT:
            lines[at] = " ".join(before if place else [*before, "n"])
            lines = [line for line in lines if not self.is_behind(line, place)]
        else:
            lines[at] = " ".join([*before, {STALL: "s", BROKEN: "b"}[kind], *behind])
            lines = [self.moved(line, place) for line in lines]
        return Text(lines, self.source.name, self.source.folder, self.source.lenient)

    def counts(self, words: List[str]) -> bool:
        """Whether a line's fourth word counts answers of this endpoint."""
        return words[:3] in (["after", str(self.device), f"{self.endpoint:02x}"], ["leaves", str(self.device), f"{self.endpoint:02x}"])

    def waits(self, words: List[str]) -> bool:
        """Whether it is about answers of another endpoint, which wait for so many of this one, for IN, as its last word says."""
        address = f"{self.endpoint:02x}"
        return self.endpoint >= 0x80 and len(words) == 6 and words[:2] == ["after", str(self.device)] and words[4] == address != words[2]

    def is_behind(self, line: str, place: int) -> bool:
        """Whether a line is about answers that aren't there any more, or waits for one."""
        words = line.split(" ")
        return (self.counts(words) and int(words[3]) >= place) or (self.waits(words) and int(words[5]) > place)

    def moved(self, line: str, place: int) -> str:
        """A line that counts answers, where there is one more at this place."""
        words = line.split(" ")
        at = 3 if self.counts(words) else 5 if self.waits(words) else 0
        if at:
            words[at] = str(int(words[at]) + (int(words[at]) > place))
        return " ".join(words)


class Becomes:
    """Devices, of which each stands at the port of the one before when that has left."""

    def __init__(self, *devices: Any) -> None:
        self.given = devices
        wrong = [it for it in devices if not isinstance(it, Device) and not (isinstance(it, type) and issubclass(it, Device))]
        if wrong or len(devices) < 2:
            raise TypeError(f"becomes takes two devices or more, as becomes(Loader, Meter), and not {wrong[0] if wrong else devices!r}; a "
                            "text says it by a line `comes back 0 as 1`")

    def devices(self) -> List[Device]:
        """The devices: of a class a new one for each bus."""
        return [it() if isinstance(it, type) else it for it in self.given]


def becomes(*devices: Any) -> Becomes:
    """A firmware loader: where the first device leaves (GONE, or `replug`), it comes back as the second one, and that as the third, where
    there is one. They have the next numbers in the bus."""
    return Becomes(*devices)


def text(lines: str, lenient: bool = False) -> Text:
    """Devices as a text (docs/DEVICES.md). What the program writes beside what the text expects (`a:HEX`) fails the test, unless it is
    `lenient`."""
    if not isinstance(lines, str):
        raise TypeError(f"text takes the lines of devices as a str, and not {type(lines).__name__}; file(\"x.txt\") reads a file")
    return Text(lines.splitlines(), "the text", None, lenient)


def file(path: PathLike, lenient: bool = False) -> Text:
    """Devices of a file (docs/DEVICES.md), whose programs run in its folder. OSError where it can't be read."""
    where = pathlib.Path(path).resolve()
    try:
        lines = where.read_text(encoding="utf-8").splitlines()
    except UnicodeDecodeError as error:
        raise SourceError(f"{path} isn't a text of devices; a capture is for recorded(\"{path}\")") from error
    return Text(lines, str(path), where.parent, lenient)


MADE: Dict[Tuple[Any, ...], List[str]] = {}


def recorded(path: PathLike, device: Optional[str] = None, umockdev: Optional[PathLike] = None, descriptors: Optional[PathLike] = None,
             lenient: bool = False) -> Text:
    """The devices of a capture, pcap or pcapng (docs/CAPTURES.md): they answer as they were recorded, and expect what was written then;
    what differs fails the test, unless it is `lenient`. `device` is the one device that is meant, as "1209:0002"; `umockdev` or
    `descriptors` is a file that has what the capture lacks of it. SourceError says what is missing."""
    if umockdev is not None and descriptors is not None:
        raise SourceError("recorded: `umockdev` and `descriptors`: say one of them")
    if device is not None and not IDS.fullmatch(device):
        raise SourceError(f"recorded: `device` is vendor and product, four hexadecimal digits each, as \"1209:0002\", and not {device!r}")
    files = [pathlib.Path(it).resolve() for it in (path, umockdev, descriptors) if it is not None]
    for it in files:
        if not it.is_file():
            raise SourceError(f"recorded: there is no file {it}")
    key = (*((it, it.stat().st_mtime_ns) for it in files), device, umockdev is not None)
    if key not in MADE:
        more = [*(("--device", device) if device else ()), *(("--umockdev", str(files[1])) if umockdev is not None else ()),
                *(("--descriptors", str(files[1])) if descriptors is not None else ())]
        MADE[key] = converted(str(path), files[0], more)
    return Text(MADE[key], str(path), None, lenient)


def converted(name: str, capture: pathlib.Path, more: List[str]) -> List[str]:
    """The lines that tools/tirnouch-run makes of a capture, by the same program."""
    runs, usbtrace = place_of(RUNS), place_of(USBTRACE)
    if not runs or not usbtrace:
        raise SourceError(f"{name}: usbtrace reads captures, and there is no {USBTRACE[-1]}: build it by `make run`")
    with tempfile.TemporaryDirectory(prefix="tirnouch-") as folder:
        made = pathlib.Path(folder) / "devices.txt"
        words = [sys.executable, "-B", str(runs), "text", str(capture), str(made), str(usbtrace), *more]
        ran = subprocess.run(words, capture_output=True, text=True, timeout=SECONDS, check=False)
        if ran.returncode:
            sentences = [it[len("tirnouch-run: ") :] if it.startswith("tirnouch-run: ") else it for it in ran.stderr.splitlines()]
            hint = " (by the words of `recorded`: device=, umockdev=, descriptors=)" if "--" in ran.stderr else ""
            raise SourceError("; ".join(sentences) + hint)
        return made.read_text(encoding="ascii").splitlines()


def expects(lines: List[str]) -> bool:
    """Whether lines say what a program writes."""
    return any(EXPECTED.fullmatch(word) for line in lines if line.startswith(("script ", "control ")) for word in line.split(" "))
