"""A text of devices, made of a capture (docs/CAPTURES.md). `usbtrace devices` makes it; what the capture lacks of a device is from a file,
and comments say what came from where."""
import argparse
import re
import subprocess
from typing import Dict, List, Sequence, Tuple

from program import tell

REFUSED = 2
ORIGIN = re.compile(r"# device (\d+) was (bus \d+ device \d+)$")
DESCRIPTOR = re.compile(r"descriptor (\d+) ([0-9a-f]{36})")
LEFT_OUT = re.compile(r"# (bus \d+ device \d+(?: \([0-9a-f]{4}:[0-9a-f]{4}\))?) is left out: (.+) \(first in frame \d+\)$")
NO_DEVICE = re.compile(r"the capture has no device ([0-9a-f]{4}:[0-9a-f]{4})")
# What helps where a device isn't in the text.
REMEDIES = {
    "no configuration descriptor": "say which file has its descriptors: --descriptors FILE, a copy of its "
                                   "/sys/bus/usb/devices/*/descriptors; or --umockdev FILE, of umockdev-record. On Windows, USBPcapCMD "
                                   "with --inject-descriptors records them",
    "its configuration descriptor is refused": "FORMATS.md has the rules that it breaks",
    "no answers": "nothing moved at its bulk and interrupt endpoints while it was recorded: record the program's run from its beginning",
    "the fifth device": "say which device the program uses: --device VENDOR:PRODUCT",
}


class Unusable(Exception):
    """Why there is no text, in sentences for a person."""


def ids_of(device: bytes) -> str:
    """Vendor and product of a device descriptor, as lsusb has them (USB 2.0, 9.6.1)."""
    return f"{int.from_bytes(device[8:10], 'little'):04x}:{int.from_bytes(device[10:12], 'little'):04x}"


def devices_in(text: Sequence[str]) -> List[str]:
    """The devices that a text has or leaves out, with their ids where it has these."""
    ids = {found[1]: ids_of(bytes.fromhex(found[2])) for found in map(DESCRIPTOR.match, text) if found}
    places: Dict[str, str] = {}
    for line in text:
        if found := ORIGIN.match(line):
            places[found[2]] = f"{found[2]} ({ids[found[1]]})" if found[1] in ids else found[2]
        elif found := LEFT_OUT.match(line):
            places[found[1]] = found[1]
    return list(places.values())


class Text:
    """The text of a capture: its device, where one was asked for, and what a file says beside the capture."""

    def __init__(self, asked: argparse.Namespace, usbtrace: str) -> None:
        self.asked, self.usbtrace, self.name = asked, usbtrace, str(asked.capture)
        self.data = asked.capture.read_bytes()

    def words(self) -> List[str]:
        """The options of `usbtrace devices`."""
        given = {"--device": self.asked.device, "--descriptors": self.asked.descriptors, "--umockdev": self.asked.umockdev}
        return [word for option, value in given.items() if value for word in (option, str(value))]

    def made(self, *words: str) -> Tuple[int, List[str], str]:
        """The status of `usbtrace devices`, the text's lines, and what is wrong."""
        ran = subprocess.run([self.usbtrace, "devices", *words], input=self.data, capture_output=True, check=False)
        return ran.returncode, ran.stdout.decode("ascii", "replace").splitlines(), ran.stderr.decode(errors="replace").strip()

    def lines(self) -> List[str]:
        """The text's lines, with where they come from; a refusal where no device is left."""
        status, text, fault = self.made(*self.words())
        if status:
            raise Unusable(*self.refusals(text, fault))
        return [f"# made by tirnouch-run of {self.name}", *text]

    def refusals(self, text: Sequence[str], fault: str) -> List[str]:
        if missing := NO_DEVICE.search(fault):
            there = ", ".join(devices_in(self.made()[1]))
            return [f"{self.name} has no device {missing[1]}; it has {there or 'none'}"]
        if fault:
            return [fault.removeprefix("usbtrace: ") if self.is_of_file(fault) else f"{self.name}: {fault}"]
        found = [LEFT_OUT.match(line) for line in text]
        told = [f"{self.name}: {it[1]} is left out: {it[2]}" for it in found if it and it[2] != "a hub"]
        remedies = dict.fromkeys(REMEDIES[it[2]] for it in found if it and it[2] in REMEDIES)
        return [*told, *remedies] or [f"{self.name} has no device: record the run of a program that opens one"]

    def is_of_file(self, fault: str) -> bool:
        """Whether a fault is of the file that describes a device."""
        return any(fault.startswith(f"usbtrace: {file} ") for file in (self.asked.descriptors, self.asked.umockdev) if file)


def write_text(asked: argparse.Namespace) -> int:
    """Writes the text of a capture; the status."""
    try:
        text = Text(asked, asked.usbtrace)
        asked.text.write_text("".join(f"{line}\n" for line in text.lines()))
        return 0
    except Unusable as refusal:
        tell(*refusal.args)
    except OSError as error:
        tell(f"{error.filename}: {error.strerror}")
    return REFUSED
