"""A run that is recorded (tools/tirnouch-record): a library that stands before libusb appends what moves to a capture, which is begun
here; and what is told of it at the end."""
import argparse
import os
import pathlib
import tempfile
import time
from typing import Dict, List, NoReturn, Sequence

from capture import HEADER, events_of
from limit import NEVER, Watched, end_as
from program import Speaker, program_environment, tell

# The status of a program that ended well, and whose recording isn't whole.
NOT_WHOLE = 3


class Recording:
    """A capture; and a pipe by which the library tells what went wrong, since files may not grow any more then."""

    def __init__(self, file: pathlib.Path, folder: pathlib.Path) -> None:
        self.file, self.faults = file, folder / "faults"
        self.file.write_bytes(HEADER)
        os.mkfifo(self.faults)
        self.told = os.open(self.faults, os.O_RDONLY | os.O_NONBLOCK | os.O_CLOEXEC)

    def environment(self, asked: argparse.Namespace, before: Dict[bytes, bytes]) -> Dict[bytes, bytes]:
        preload = os.fsencode(asked.library)
        names = {b"TIRNOUCH_RECORD": os.fsencode(self.file.resolve()), b"TIRNOUCH_RECORD_FAULTS": os.fsencode(self.faults)}
        if asked.device:
            names[b"TIRNOUCH_RECORD_DEVICE"] = os.fsencode(asked.device)
        if asked.no_strings:
            names[b"TIRNOUCH_RECORD_NO_STRINGS"] = b"1"
        others = [before[b"LD_PRELOAD"]] if before.get(b"LD_PRELOAD") else []
        return {**before, **names, b"LD_PRELOAD": b":".join([preload, *others])}

    def is_faulty(self) -> bool:
        try:
            return os.read(self.told, 1) != b""
        except BlockingIOError:
            return False

    def sentences(self, program: str, device: str) -> List[str]:
        """What is wrong with it; nothing where it is whole."""
        if self.is_faulty():
            return [f"{self.file} isn't whole: what is missing is told above"]
        if any(True for _ in events_of(self.file.read_bytes())):
            return []
        what = f"didn't open a device {device}" if device else "opened no device"
        return [f"{self.file} has no event: {program} {what} by libusb 1.0; one that is linked statically, or runs setuid, isn't recorded"]


def run_recorded(asked: argparse.Namespace, words: Sequence[str]) -> NoReturn:
    """Runs the program, and ends as it does; with another status where that is 0 and the recording isn't whole."""
    Speaker.name = "tirnouch-record"
    with tempfile.TemporaryDirectory(prefix="tirnouch-record-") as folder:
        recording = Recording(asked.file, pathlib.Path(folder))
        program = Watched(words, recording.environment(asked, program_environment()))
        program.wait(time.monotonic() + NEVER)
        status = program.status or 0
        faults = recording.sentences(words[0], asked.device or "")
        tell(*faults)
        if faults and status == 0:
            status = NOT_WHOLE << 8
    end_as(program, status)
