"""A text of devices, made of the trace of a run (docs/CAPTURES.md): `usbtrace devices` makes the answers of each device from what moved at
it, and the trace says what the device is."""
import argparse
import pathlib
import re
import subprocess
from typing import Dict, List, Sequence, Set

from capture import pcap
from event import CONTROL, Event
from program import tell
from retold import Device, Run, Said, Unusable, buses_of
from unanswered import MOST_ANSWERS, request_lines, unanswered

REFUSED = 2
# A text has at most so many devices that are scripted.
MOST_DEVICES = 4
INTERFACE, HUB, VENDOR_SPECIFIC = 4, 9, 0xFF
READ_CONFIGURATION = b"\x80\x06\x00\x02"
# Comments name packets of the capture that was made; of the trace they are lines.
FRAME = re.compile(r"(#.* \((?:first|the next is) in )frame (\d+)\)")
# Statuses of a transfer that was withdrawn, or whose device was gone.
WITHDRAWN = (-2, -108)
# So many control requests never come: the most that a line may say.
NEVER = (1 << 32) - 1


def without_hub(config: bytes) -> bytes:
    """A configuration, of which no interface is a hub's: `usbtrace devices` leaves hubs out, whose requests are wanted here."""
    shown, at = bytearray(config), 0
    while at + 2 <= len(shown) and shown[at] >= 2:
        if shown[at + 1] == INTERFACE and shown[at] >= 9 and shown[at + 5] == HUB:
            shown[at + 5] = VENDOR_SPECIFIC
        at += shown[at]
    return bytes(shown)


def shown(events: Sequence[Event]) -> List[Event]:
    """The events, as `usbtrace devices` is to see them."""
    found: List[Event] = []
    for it in events:
        is_config = it.kind == "C" and it.type == CONTROL and found and (found[-1].setup or b"")[:4] == READ_CONFIGURATION
        found.append(it._replace(data=without_hub(it.data)) if is_config else it)
    return found


def left_waiting(events: Sequence[Event]) -> Set[int]:
    """The OUT endpoints at which a write was withdrawn, or never ended, behind all that was taken."""
    flying: Dict[int, int] = {}
    withdrawn: Set[int] = set()
    for it in events:
        if it.type == CONTROL or it.ep >= 0x80:
            continue
        if it.kind == "S":
            flying[it.id] = it.ep
            continue
        flying.pop(it.id, None)
        if it.status in WITHDRAWN:
            withdrawn.add(it.ep)
        else:
            withdrawn.discard(it.ep)
    return withdrawn | set(flying.values())


class Lines:
    """The lines of one device, by its number in the text that is made."""

    def __init__(self, device: Device, number: int) -> None:
        self.device, self.number = device, number

    def say(self, word: str, rest: str) -> str:
        """A line of this device; what stands behind its number begins with a space."""
        return f"{word} {self.number}{rest}"

    def said(self, *words: str) -> List[Said]:
        return [it for it in self.device.said if it.word in words]

    def in_trace(self, line: str) -> str:
        """A comment about the capture that was made, as one about the trace."""
        found = FRAME.fullmatch(line)
        if not found:
            return line
        at = int(found[2]) - 1
        return f"{found[1]}line {self.device.events[at].frame} of {self.device.files[at]})"

    def recorded(self, usbtrace: str) -> List[str]:
        """What usbtrace makes of the events: nothing where none of them is an answer."""
        ran = subprocess.run([usbtrace, "devices"], input=pcap(shown(self.device.events)), capture_output=True, check=False)
        fault = ran.stderr.decode(errors="replace").strip()
        if fault:
            raise Unusable(f"{self.device.files[0]}: {fault}")
        return ran.stdout.decode("ascii", "replace").splitlines() if ran.returncode == 0 else []

    def identity(self, recorded: Sequence[str]) -> List[str]:
        """Who it is. The strings that it was asked for are among those that the text didn't say; its descriptor stands behind them, since
        they change it."""
        strings = {it.rest.split(" ")[1] for it in self.said("string")}
        asked = [line.split(" ", 2) for line in recorded if line.startswith("string ")]
        more = [self.say("string", f" {rest}") for _, _, rest in asked if rest.split(" ")[0] not in strings]
        named = [self.say(it.word, it.rest) for it in self.said("string")]
        rest = [self.say(it.word, it.rest) for it in self.said("descriptor", "speed", "driver", "hidden")]
        return [f"device {self.number} {self.device.config}", *named, *more, *rest, self.say("lasts", "")]

    def answers(self, recorded: Sequence[str]) -> List[str]:
        """How it answers; with what it didn't take at the end, and the requests that it didn't answer."""
        waiting, lines = left_waiting(self.device.events), []
        silent = unanswered(self.device.events)
        counts: Dict[str, int] = {}
        for line in recorded:
            word, _, rest = line.partition(" 0 ")
            if word == "script":
                ep = rest[:2]
                counts[ep] = rest.count(" ")
                waits = int(ep, 16) in waiting and counts[ep] < MOST_ANSWERS
                lines.append(self.say(word, f" {rest}{' a' if waits else ''}"))
                lines += [self.say("after", f" {ep} {counts[ep]} 00 {NEVER}")] if waits else []
            elif word == "after" or (word == "control" and " ".join(rest.split(" ", 4)[:4]) not in silent):
                lines.append(self.say(word, f" {rest}"))
            elif line.startswith("#") and not line.startswith("# device 0 was "):
                lines.append(self.in_trace(line))
        requests = [line for fields, answers in silent.items() for line in request_lines(self.number, fields, answers)]
        return [*lines, *requests, *self.departure(counts)]

    def departure(self, counts: Dict[str, int]) -> List[str]:
        """It left behind the last answer of an endpoint, where the text said so and it came to that."""
        eps = [it.rest.split(" ")[1] for it in self.said("leaves")] if self.device.is_unplugged else []
        return [self.say("leaves", f" {ep} {counts[ep]}") for ep in eps if counts.get(ep)]

    def all(self, usbtrace: str) -> List[str]:
        recorded = self.recorded(usbtrace)
        return [*self.identity(recorded), *self.answers(recorded)]


def chosen(run: Run, wanted: str) -> List[Device]:
    """The devices that the text is to have, in order."""
    devices = [run.devices[number] for number in sorted(run.devices)]
    there = ", ".join(f"device {it.number} ({it.ids()})" for it in devices)
    if wanted:
        devices = [it for it in devices if it.ids() == wanted.lower()][-1:]
    if not devices:
        raise Unusable(f"{run.file} has no device {wanted}; it has {there}" if there else f"{run.file} has no device: it ran without any")
    if len(devices) > MOST_DEVICES:
        raise Unusable(f"{run.file} has more than {MOST_DEVICES} devices: {there}",
                       "say which one the program uses: --device VENDOR:PRODUCT")
    return devices


def lines_of(run: Run, wanted: str, usbtrace: str) -> List[str]:
    """The text of a run's devices, numbered from 0 on."""
    places = {it.number: place for place, it in enumerate(chosen(run, wanted))}
    lines = [line for number, place in places.items() for line in Lines(run.devices[number], place).all(usbtrace)]
    return lines + [f"comes back {places[one]} as {places[other]}" for one, other in sorted(run.successors.items())
                    if one in places and other in places]


def texts_of(file: pathlib.Path, wanted: str, usbtrace: str) -> List[List[str]]:
    """Of each bus of a process; one, where all are alike."""
    texts = [lines_of(Run(bus, usbtrace), wanted, usbtrace) for bus in buses_of(file)]
    return texts if any(it != texts[0] for it in texts) else texts[:1]


def write_texts(texts: Sequence[Sequence[str]], trace: pathlib.Path, file: pathlib.Path) -> None:
    """Writes them into files with the names that the library looks for."""
    for number, lines in enumerate(texts, 1):
        path = file if number == 1 else file.with_name(f"{file.name}.{number}")
        path.write_text("".join(f"{line}\n" for line in [f"# made by tirnouch-run of {trace}", *lines]))


def write_repeated(asked: argparse.Namespace) -> int:
    """Writes the text of a trace, and those of its process's further buses, and prints how many they are; the status."""
    try:
        texts = texts_of(asked.trace, asked.device or "", asked.usbtrace)
        write_texts(texts, asked.trace, asked.text)
        print(len(texts))
        return 0
    except Unusable as refusal:
        tell(*refusal.args)
    except OSError as error:
        tell(f"{error.filename}: {error.strerror}")
    return REFUSED
