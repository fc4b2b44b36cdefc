"""What a program wrote, where its devices' text says what is expected (docs/DEVICES.md), and what it did that libusb's manual forbids: the
library tells both by a file that a variable names. A run with either ends with a status of its own, though the program's was 0."""
import os
import pathlib
from typing import Dict, Optional, Sequence

from program import tell

# The status of a run that ended well, and in which something else was written than is expected, or libusb was misused.
DIFFERS = 3
NAME = b"TIRNOUCH_DIFFERENCES"


class Judgement:
    """The file that the library writes in a run: a line `begun` for each bus that is judged, `ended` where its end was, `differs ..`,
    `misused ..`, and `hint ..` for what may help where the run failed."""

    def __init__(self, folder: pathlib.Path) -> None:
        self.path = folder / "differences"

    def environment(self) -> Dict[bytes, bytes]:
        return {NAME: os.fsencode(self.path)}

    def lines(self) -> Sequence[str]:
        return self.path.read_text(errors="replace").splitlines() if self.path.is_file() else []

    def differs(self) -> bool:
        return any(it.startswith("differs ") for it in self.lines())

    def is_misused(self) -> bool:
        return any(it.startswith("misused ") for it in self.lines())

    def hints(self) -> Sequence[str]:
        """Each once, in order."""
        return list(dict.fromkeys(it[len("hint "):] for it in self.lines() if it.startswith("hint ")))

    def failure(self) -> Optional[str]:
        """What is wrong with a run that ended well, if something is."""
        if self.is_misused():
            return "it did what libusb's manual forbids"
        return "it wrote something else than is expected" if self.differs() else None

    def is_whole(self) -> bool:
        """Whether the end of each bus was judged."""
        lines = self.lines()
        return lines.count("begun") == lines.count("ended")

    def tell_hints(self) -> None:
        for it in self.hints():
            tell(f"hint: {it}")

    def status(self, program: str, devices: str, status: int) -> int:
        """The status of a run in the foreground, of which the program's own is this. Behind one that isn't 0 its hints are told."""
        judged = self.judged(program, devices, status)
        if judged:
            self.tell_hints()
        return judged

    def judged(self, program: str, devices: str, status: int) -> int:
        """The same without hints."""
        if status == 0 and self.differs():
            tell(f"what {program} wrote isn't what {devices} expects: status {DIFFERS} in place of 0 (--lenient only tells)")
            return DIFFERS
        if status == 0 and self.is_misused():
            tell(f"{program} did what libusb's manual forbids: status {DIFFERS} in place of 0 (--lenient only tells)")
            return DIFFERS
        if status == 0 and not self.is_whole():
            tell(f"{program} ended without exit and without libusb_exit: what it didn't write isn't known")
        return status
