"""The trace of a run, read again: its devices, and what moved at each (docs/CAPTURES.md, "Run against a run's own trace").

`usbtrace capture` makes events of a trace's steps; the requests of its comments are put among them, each at its line. What a device was in
several sessions of a core, in files of their own, becomes one history."""
import pathlib
import re
import subprocess
from typing import Dict, Iterator, List, NamedTuple, Optional, Set, Tuple

from capture import events_of
from event import CONTROL, IN_PROGRESS, Event
from traces import numbered

# Comments of the library's.
HERE = re.compile(r"# device (\d+) is device (\d+) here")
OWN = re.compile(r"# device (\d+) has a core of its own")
SUCCESSOR = re.compile(r"# device (\d+) comes back as device (\d+)")
MOVES = re.compile(r"# device (\d+) goes on in another session\b.*")
SAID = re.compile(r"# (descriptor|string|speed|driver|hidden|lasts|leaves) (\d+)((?: .*)?)")
REQUEST = re.compile(r"# request (\d+) ([0-9a-f]{2}) ([0-9a-f]{2}) ([0-9a-f]{4}) ([0-9a-f]{4}) (\d+) "
                     r"(?:(?P<fault>STALL|ERROR)|(?:COMPLETED (?P<moved>\d+)|(?P<waits>waits)) ?(?P<data>(?:[0-9a-f]{2})*))")
UNANSWERED = re.compile(r"# request (\d+) (?:CANCELLED|TIMED_OUT|NO_DEVICE)")
DEVICE = re.compile(r"device (\d+) ([0-9a-fA-F]+)")
UNPLUG = re.compile(r"unplug (\d+)")
# Steps by which a session takes out what is in flight, and the comment that numbers a transfer.
OPEN = re.compile(r"open (\d+) (\d+)")
SUBMIT = re.compile(r"submit (\d+) ")
NUMBER = re.compile(r"# number (\d+)")
CANCEL = re.compile(r"cancel (\d+) (\d+)")
LOOKED_AT = ("#", "device ", "unplug ", "open ", "submit ", "cancel ")
# Statuses of usbmon: a request that moved, stalled, or broke; a transfer that was withdrawn.
STATUSES = {None: 0, "STALL": -32, "ERROR": -71}
WITHDRAWN = -2
# The ids of requests: those of `usbtrace capture` for control transfers lie above, and those of transfers below.
FIRST_REQUEST, END_OF_REQUESTS = (1 << 64) - (1 << 33), (1 << 64) - (1 << 32)
# A further session counts its transfers anew.
SESSION = 1 << 48
READS, ASKS_TO_READ = 0x80, 0x200


class Unusable(Exception):
    """Why no text is made of a trace, in a sentence for a person."""


class Said(NamedTuple):
    """A line of the devices' text: its first word, and what stands behind the device's number."""

    word: str
    rest: str


class Device:
    """A device of a run by its number in the text that was run: what was said of it, its events in order, and whether it was pulled out.
    They are all of one device, whatever number it had in each file. An event's frame is the number of its line; `files` has the file of
    each."""

    def __init__(self, number: int, config: str) -> None:
        self.number, self.config = number, config
        self.said: List[Said] = []
        self.events: List[Event] = []
        self.files: List[str] = []
        self.is_unplugged = False

    def ids(self) -> str:
        """Vendor and product, as lsusb has them."""
        raw = bytes.fromhex(next((it.rest for it in self.said if it.word == "descriptor"), ""))
        return f"{int.from_bytes(raw[8:10], 'little'):04x}:{int.from_bytes(raw[10:12], 'little'):04x}"


def submission_of(line: int, there: int, found: "re.Match[str]") -> Event:
    """The submission of a request, with what it writes, as far as the trace has that."""
    kind, number = int(found[2], 16), int(found[3], 16)
    reads, length = kind & READS, int(found[6])
    words = (int(found[4], 16), int(found[5], 16), length)
    setup = bytes([kind, number]) + b"".join(it.to_bytes(2, "little") for it in words)
    return Event(FIRST_REQUEST + line, "S", CONTROL, reads, there + 1, 1, line // 1_000_000, line % 1_000_000, IN_PROGRESS, length, setup,
                 ASKS_TO_READ if reads else 0, b"" if reads else bytes.fromhex(found["data"] or ""), line)


def end_of(it: Event, line: int, there: int, found: "re.Match[str]") -> Event:
    """The end of a request."""
    return it._replace(kind="C", device=there + 1, seconds=line // 1_000_000, microseconds=line % 1_000_000, status=STATUSES[found["fault"]],
                       length=int(found["moved"] or 0), setup=None, flags=0, data=bytes.fromhex(found["data"] or "") if it.ep else b"",
                       frame=line)


def is_request(it: Event) -> bool:
    """Whether it is of a request that the trace tells of, and not of one that `usbtrace capture` makes of a step."""
    return FIRST_REQUEST <= it.id < END_OF_REQUESTS


class Session:
    """One file: a session of a core. Its devices have the numbers that they have there."""

    def __init__(self, file: pathlib.Path, own: Optional[int] = None, waiting: Optional[Dict[int, Event]] = None) -> None:
        self.file, self.own = file, own
        # The request that waits at a device of the text, from the session before on.
        self.waiting: Dict[int, Event] = dict(waiting or {})
        self.devices: Dict[int, str] = {}
        self.numbers: Dict[int, int] = {} if own is None else {own: 0}
        self.said: Dict[int, List[Said]] = {}
        self.successors: Dict[int, int] = {}
        # The devices that go on in another session.
        self.moves: Set[int] = set()
        # The device of each handle; the last submission, its handle and its line; and the lines of those by handle and number.
        self.opened: Dict[str, int] = {}
        self.submission = ("", 0)
        self.submissions: Dict[Tuple[str, str], int] = {}
        # The lines of the submissions that the session took out.
        self.taken_out: Set[int] = set()
        self.unplugged: List[int] = []
        self.elsewhere: List[int] = []
        self.requests: List[Event] = []
        raw = file.read_bytes()
        self.text = raw[:raw.rfind(b"\n") + 1]
        for number, line in enumerate(self.text.decode("utf-8", "replace").split("\n"), 1):
            if line.startswith(LOOKED_AT):
                self.read_line(number, line)

    def there(self, device: int) -> int:
        """The number that a device of the text has here; where one is here alone, it is that."""
        there = self.numbers.get(device, device)
        return there if there in self.devices or len(self.devices) != 1 else next(iter(self.devices))

    def number(self, there: int) -> int:
        return next((number for number, it in self.numbers.items() if it == there), there)

    def read_line(self, line: int, text: str) -> None:
        if found := REQUEST.fullmatch(text):
            self.read_request(line, found)
        elif found := UNANSWERED.fullmatch(text):
            self.waiting.pop(int(found[1]), None)
        elif found := DEVICE.fullmatch(text):
            self.devices[int(found[1])] = found[2]
        elif found := SAID.fullmatch(text):
            self.said.setdefault(int(found[2]), []).append(Said(found[1], found[3]))
        elif found := HERE.fullmatch(text):
            self.numbers[int(found[1])] = int(found[2])
        elif found := OWN.fullmatch(text):
            self.elsewhere.append(int(found[1]))
        elif found := SUCCESSOR.fullmatch(text):
            self.successors[int(found[1])] = int(found[2])
        elif found := MOVES.fullmatch(text):
            self.moves.add(int(found[1]))
        elif found := UNPLUG.fullmatch(text):
            self.unplugged.append(int(found[1]))
        else:
            self.read_step(line, text)

    def read_step(self, line: int, text: str) -> None:
        """What is cancelled at a device that goes on in another session is what the session takes out; the driver cancelled before that."""
        if found := SUBMIT.match(text):
            self.submission = (found[1], line)
        elif found := NUMBER.fullmatch(text):
            self.submissions[self.submission[0], found[1]] = self.submission[1]
        elif found := OPEN.fullmatch(text):
            self.opened[found[1]] = int(found[2])
        elif found := CANCEL.fullmatch(text):
            if self.opened.get(found[1]) in self.moves:
                self.taken_out.add(self.submissions.get((found[1], found[2]), 0))

    def read_request(self, line: int, found: "re.Match[str]") -> None:
        """A request is told where it waits and where it is answered, or there alone; a device has one at a time. One without an answer stays
        without an end."""
        device = int(found[1])
        there = self.there(device)
        it = None if found["waits"] else self.waiting.pop(device, None)
        if not it:
            it = submission_of(line, there, found)
            self.requests.append(it)
        if found["waits"]:
            self.waiting[device] = it
        else:
            self.requests.append(end_of(it, line, there, found))

    def leads_on(self, device: int) -> bool:
        """Whether a device has a core of its own from the beginning, or goes on in one."""
        return device in self.elsewhere or any(self.number(it) == device for it in self.moves)

    def events(self, usbtrace: str) -> List[Event]:
        """What moved, in order. An event's frame is its line."""
        ran = subprocess.run([usbtrace, "capture"], input=self.text, capture_output=True, check=False)
        if ran.returncode:
            raise Unusable(f"{self.file}: {ran.stderr.decode(errors='replace').strip()}")
        steps = [it._replace(frame=it.seconds * 1_000_000 + it.microseconds) for it in events_of(ran.stdout)]
        return sorted([*self.without_moved(steps), *self.requests], key=lambda it: it.frame)

    def without_moved(self, events: List[Event]) -> List[Event]:
        """Without the transfers that a session took out before anything moved: the driver knows nothing of that, and they go on in the
        next one."""
        taken_out = {(it.device, it.id) for it in events if it.kind == "S" and it.frame in self.taken_out}
        unmoved = taken_out & {(it.device, it.id) for it in events if it.kind == "C" and it.status == WITHDRAWN and not it.length}
        return [it for it in events if (it.device, it.id) not in unmoved]


def own_sessions(shared: Session) -> Iterator[Session]:
    """Those of the devices with a core of their own, each device's in order. A session follows another where that says so, or where it
    isn't older: else it is of an earlier run."""
    for device in range(16):
        if not shared.leads_on(device):
            continue
        first = pathlib.Path(f"{shared.file}.d{device}")
        if not first.is_file():
            raise Unusable(f"{first} isn't there, which has the steps of device {device}: keep it beside {shared.file}")
        before = Session(first, device, shared.waiting)
        yield before
        for number in range(2, 1_000_000):
            file = pathlib.Path(f"{first}.{number}")
            if not file.is_file() or (file.stat().st_mtime < before.file.stat().st_mtime and not before.moves):
                break
            before = Session(file, device, before.waiting)
            yield before


class Run:
    """The run of one bus: its devices by number, each over all its sessions."""

    def __init__(self, file: pathlib.Path, usbtrace: str) -> None:
        shared = Session(file)
        sessions = [shared, *own_sessions(shared)]
        self.file, self.successors = file, shared.successors
        self.devices: Dict[int, Device] = {}
        for place, session in enumerate(sessions):
            self.add(session, place, session.events(usbtrace))

    def add(self, session: Session, place: int, events: List[Event]) -> None:
        for there, config in session.devices.items():
            number = session.number(there)
            device = self.devices.get(number)
            if not device:
                device = self.devices[number] = Device(number, config)
                device.said = session.said.get(there, [])
            device.is_unplugged |= there in session.unplugged
            own = [it._replace(id=it.id + (SESSION * place if it.id < FIRST_REQUEST else 0), device=number + 1)
                   for it in events if it.device == there + 1]
            device.events += own
            device.files += [str(session.file)] * len(own)


def buses_of(file: pathlib.Path) -> List[pathlib.Path]:
    """The trace that was named, and those of the further buses of its process, which are younger."""
    return [file, *list(numbered(str(file), file.stat().st_mtime))[1:]]
