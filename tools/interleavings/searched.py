"""A search of all runs of a scene, by its program, and what it found."""
import dataclasses
import os
import pathlib
import subprocess
from typing import Dict, List, Optional, Set

from programs import HERE, Program


@dataclasses.dataclass
class Limits:
    """How often a thread that could go on waits in a run; how many seconds of the processor's a scene may take; one schedule alone."""

    bound: int
    seconds: int
    schedule: Optional[str] = None


@dataclasses.dataclass
class Search:
    """What came of a search: how it ended, its numbers, and what is wrong, for a person."""

    bound: int
    how: str = "broken"
    numbers: Dict[str, int] = dataclasses.field(default_factory=dict)
    faults: List[str] = dataclasses.field(default_factory=list)

    def line(self) -> str:
        """All of it in a line."""
        told = {"complete": f"every schedule of bound {self.bound}", "stopped": "as many schedules as there was time for"}
        how = told.get(self.how, self.how)
        return (f"{how}: {self.numbers.get('runs', 0)} runs, {self.numbers.get('points', 0)} points, "
                f"{self.numbers.get('outcomes', 0)} outcomes")


def allowed(program: Program, scene: str) -> Set[str]:
    """The outcomes that a scene may have: what it prints, with its status as the last line."""
    text = (HERE / "outcomes" / f"{scene}.txt").read_text()
    parts, lines = set(), ""
    for line in text.splitlines(keepends=True):
        lines += line
        if line.startswith("status "):
            parts.add(lines)
            lines = ""
    return parts


def read_found(told: bytes, found: Search, may: Set[str]) -> None:
    """What the program told of its search."""
    at = 0
    while at < len(told):
        line, _, _ = told[at:].partition(b"\n")
        at += len(line) + 1
        words = line.decode().split()
        if words[0] == "outcome":
            length, _, rest = told[at:].partition(b"\n")
            at += len(length) + 1 + int(length)
            printed = rest[:int(length)].decode(errors="replace")
            if printed not in may:
                found.faults.append(f"  it printed what its scene doesn't allow, --schedule {words[1]}:\n{printed}")
        elif words[0] == "fault":
            text = told[at:told.rindex(b"failed ")].decode(errors="replace")
            at += len(text.encode())
            found.faults.append(f"  --schedule {words[1]}: {text}".rstrip())
        else:
            found.how = words[0]
            found.numbers = {name: int(number) for name, number in zip(words[1::2], words[2::2])}


def searched(program: Program, scene: str, limits: Limits, folder: pathlib.Path) -> Search:
    """Searches a scene."""
    told, found = folder / "told", Search(limits.bound)
    environment = {**os.environ, "INTERLEAVINGS": str(told), "INTERLEAVINGS_BOUND": str(limits.bound),
                   "INTERLEAVINGS_SECONDS": str(limits.seconds)}
    if limits.schedule:
        environment["INTERLEAVINGS_SCHEDULE"] = limits.schedule
    told.unlink(missing_ok=True)
    with program.text(scene).open("rb") as text:
        subprocess.run(program.words(scene), stdin=text, env=environment, cwd=folder, check=False)
    read_found(told.read_bytes() if told.is_file() else b"", found, allowed(program, scene))
    if found.how == "broken":
        found.faults.append("  the search itself ended early")
    return found
