"""The traces that a run leaves: the files, and their steps."""
import collections
import hashlib
import pathlib
import re
from typing import BinaryIO, Deque, Iterator, List

# The part of a step's line that is a time.
TIMING = re.compile(rb" timeout=\d+")


# How many devices may have a trace of their own.
DEVICES = 16


def numbered(name: str, since: float) -> Iterator[pathlib.Path]:
    """A file of this name, and those behind it whose names end in .2 and so on, as far as they are there."""
    for number in range(1, 1_000_000):
        path = pathlib.Path(name if number == 1 else f"{name}.{number}")
        try:
            if path.stat().st_mtime < since:
                break
        except OSError:
            break
        yield path


def buses_of(name: str, since: float) -> List[pathlib.Path]:
    """The files of a run's trace in order: a second bus of a process is traced in one whose name ends in .2, and so on."""
    return list(numbered(name, since))


def own_traces(bus: pathlib.Path, since: float) -> List[pathlib.Path]:
    """Those of devices that compute their answers, beside their bus's: each has a session after the other."""
    return [path for device in range(DEVICES) for path in numbered(f"{bus}.d{device}", since)]


def traces_of(name: str, since: float) -> List[pathlib.Path]:
    """All of them."""
    return [path for bus in buses_of(name, since) for path in (bus, *own_traces(bus, since))]


def last_lines(file: BinaryIO, count: int) -> List[str]:
    lines: Deque[bytes] = collections.deque(file, count)
    return [line.decode("utf-8", "replace").rstrip("\n") for line in lines]


def step_lines(trace: pathlib.Path) -> Iterator[bytes]:
    """The lines of a trace that are steps, without what a run's times make of them."""
    with trace.open("rb") as file:
        for line in file:
            if not line.startswith((b"#", b"device ", b"script ", b"feed ")):
                yield TIMING.sub(b"", line)


def steps_of(folder: pathlib.Path) -> bytes:
    """A number that two runs share, if they made the same steps."""
    digest = hashlib.sha256()
    for trace in traces_of(str(folder / "trace"), 0):
        digest.update(b"\0")
        for line in step_lines(trace):
            digest.update(line)
    return digest.digest()
