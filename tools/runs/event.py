"""An event of a bus, as usbmon has it (Linux's usbmon.rst)."""
from typing import NamedTuple, Optional

CONTROL = 2
IN_PROGRESS = -115


class Event(NamedTuple):
    """An event of the bus. `setup` is that of a request's submission, else None. `frame` is the number of the line of a trace that it is
    told by, from 1 on; 0 where it is read from a capture."""

    id: int
    kind: str
    type: int
    ep: int
    device: int
    bus: int
    seconds: int
    microseconds: int
    status: int
    length: int
    setup: Optional[bytes]
    flags: int
    data: bytes
    frame: int = 0
