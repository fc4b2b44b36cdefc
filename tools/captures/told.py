"""A run told once more: from its scenario and the lines of `usbtrace run --steps`, by the rules of docs/FORMATS.md and docs/MODEL.md.

`Told` has the events that a capture of the run has to have, and the answers of the devices that its callbacks used."""
import collections
import struct

INTERRUPT, CONTROL, BULK = 1, 2, 3
KINDS = {"int": INTERRUPT, "bulk": BULK}
TRANSFER_TYPES = {2: BULK, 3: INTERRUPT}
IN_PROGRESS, SHORT, BROKEN = -115, -121, -71
STATUSES = {"COMPLETED": 0, "STALL": -32, "OVERFLOW": -75, "CANCELLED": -2, "TIMED_OUT": -2, "NO_DEVICE": -108}
# Completion codes of a transfer that wasn't at fault: it was filled, or read short.
WELL = (1, 13)
HUB = 9
SNAP_LENGTH = 64 + 262_144
FILE_HEADER = struct.pack("<IHHiIII", 0xA1B2C3D4, 2, 4, 0, 0, SNAP_LENGTH, 220)

# `kind`, `ep` and so on as usbmon numbers them; `setup` is 8 bytes or None.
Event = collections.namedtuple("Event", "id type kind ep device line status length data setup flags")
Request = collections.namedtuple("Request", "ep kind length data flags")
# A callback: what was printed of it, its request, the answers that it used, but for naks, and its event's number among all, from 1 on.
Callback = collections.namedtuple("Callback", "id device status actual data request answers number")


def is_in(ep):
    return ep >= 0x80


def data_flag(event):
    """`<` where bytes are still to be read, `>` where they were written before, else 0."""
    if event.type == "S" and is_in(event.ep):
        return 0x3C
    return 0x3E if event.type == "C" and not is_in(event.ep) else 0


def record(event):
    """The bytes of an event."""
    seconds, microseconds = divmod(event.line, 1_000_000)
    size = 64 + len(event.data)
    return struct.pack(
        "<IIII" "QBBBBHBB" "qii" "II8s" "iiII", seconds, microseconds, size, size, event.id, ord(event.type), event.kind, event.ep,
        event.device + 1, 1, 0x2D if event.setup is None else 0, data_flag(event), seconds, microseconds, event.status, event.length,
        len(event.data), event.setup or bytes(8), 0, 0, event.flags, 0) + event.data


class Device:
    """A device line: its number, its configuration's bytes, and of each endpoint interface, kind and packet size."""

    def __init__(self, words, line):
        raw = bytes.fromhex(words[2])
        self.number, self.line = int(words[1]), line
        self.raw = raw[: int.from_bytes(raw[2:4], "little")]
        self.value, self.classes, self.endpoints, self.scripts = self.raw[5], [], {}, {}
        interface, seen, at = None, set(), self.raw[0]
        while at < len(self.raw):
            piece = self.raw[at : at + self.raw[at]]
            if piece[1] == 4:
                interface = piece[2] if piece[3] == 0 and piece[2] not in seen else None
                seen.add(piece[2])
                self.classes.append(piece[5])
            elif piece[1] == 5 and interface is not None and piece[2] & 15:
                size = int.from_bytes(piece[4:6], "little") & 0x7FF
                self.endpoints[piece[2] & 0x8F] = interface, TRANSFER_TYPES.get(piece[3] & 3), size
            at += len(piece)

    def packet_size(self, ep):
        return self.endpoints[ep][2]

    def endpoints_of(self, interface):
        return [ep for ep, it in self.endpoints.items() if it[0] == interface]


class Told:
    """What a run's printed lines come to. `printed` is what `usbtrace run --steps` printed of the scenario."""

    def __init__(self, scenario, printed):
        self.events, self.callbacks, self.devices = [], [], {}
        self.opened, self.held, self.requests, self.codes = {}, set(), {}, {}
        self.used, self.halted, self.gone, self.shares = collections.Counter(), set(), set(), collections.defaultdict(list)
        for line, text in enumerate(scenario.decode("latin-1").split("\n"), 1):
            self.read(line, text.split(" "))
        for text in printed.decode().splitlines():
            if text.startswith("# "):
                continue  # behind a run stands what it wrote that isn't as expected
            step, _, entry = text.rpartition(" | ")
            line, *words = step.split(" ")
            owner, *reply = entry.split(" ")
            if owner != "-":
                self.take(int(line), int(owner[1:]), words, reply)
            elif words[0] == "unplug" and reply == ["done"]:
                self.gone.add(int(words[1]))

    def read(self, line, words):
        """A line of the scenario that isn't a step."""
        if words[0] == "device":
            device = self.devices[int(words[1])] = Device(words, line)
            total = len(device.raw)
            self.control(line, device.number, bytes((0x80, 6, 0, 2, 0, 0, total & 255, total >> 8)), device.raw)
            self.control(line, device.number, bytes((0, 9, device.value, 0, 0, 0, 0, 0)), second=1)
        elif words[0] in ("script", "feed"):
            script = self.devices[int(words[1])].scripts.setdefault(int(words[2], 16), [])
            script += ["a" if it.startswith("a") else it.lower() for it in words[3:]]

    def control(self, line, device, setup, data=b"", second=0):
        """A control transfer, which ends at once."""
        it = Event(2**64 - 2**32 + 2 * line + second, "S", CONTROL, setup[0] & 0x80, device, line, IN_PROGRESS,
                   int.from_bytes(setup[6:], "little"), b"", setup, 0x200 if is_in(setup[0]) else 0)
        self.events += [it, it._replace(type="C", status=0, length=len(data), data=data, setup=None)]

    def take(self, line, h, words, reply):
        """An entry of a handle."""
        if reply[0] == "done":
            self.do(line, h, *words)
        elif reply[0] == "number":
            self.submit(line, h, int(reply[1]), words)
        elif reply[0] in ("nak", "moved", "ended"):
            self.serve(h, int(reply[1]), (int(words[1]), int(words[2], 16)))
            if reply[0] == "ended":
                self.codes[h, int(reply[1])] = int(reply[3])
        elif reply[0] == "called":
            self.call(line, h, reply)

    def do(self, line, h, verb, *words):
        """A step that was done."""
        device = self.devices.get(self.opened.get(h))
        if verb == "open":
            self.opened[h] = int(words[1])
        elif verb == "close":
            del self.opened[h]
            self.held = {it for it in self.held if it[0] != h}
        elif verb == "release":
            self.held.discard((h, int(words[1])))
        elif verb == "claim" and (h, int(words[1])) not in self.held:
            interface = int(words[1])
            self.held.add((h, interface))
            self.control(line, device.number, bytes((1, 11, 0, 0, interface, 0, 0, 0)))
            self.make_new(device, device.endpoints_of(interface))
        elif verb == "reset":
            self.control(line, device.number, bytes((0, 9, device.value, 0, 0, 0, 0, 0)))
            self.make_new(device, device.endpoints)
        elif verb == "clear":
            ep = int(words[1], 16)
            self.control(line, device.number, bytes((2, 1, 0, 0, ep, 0, 0, 0)))
            self.halted.discard((device.number, ep))

    def make_new(self, device, endpoints):
        """Their scripts begin anew, and no halt is left."""
        for ep in endpoints:
            self.used[device.number, ep] = 0
            self.halted.discard((device.number, ep))

    def submit(self, line, h, n, words):
        """A transfer got this number: that of a submission, or of one whose callback submits it again."""
        request = self.requests[h, n] = request_of(words) if words[0] == "submit" else self.requests[h, int(words[2])]
        self.events.append(Event(id_of(h, n), "S", request.kind, request.ep, self.opened[h], line, IN_PROGRESS, request.length,
                                 request.data, None, request.flags))

    def serve(self, h, n, at):
        """A device was asked: it gave its next answer, where it is there, doesn't stall, and has one left."""
        device, ep = at
        script = self.devices[device].scripts.get(ep, [])
        if device in self.gone or at in self.halted or self.used[at] == len(script):
            return
        answer = script[self.used[at]]
        self.used[at] += 1
        if answer != "n":
            self.shares[h, n].append(answer)
        if answer == "s":
            self.halted.add(at)

    def call(self, line, h, reply):
        """A callback is called."""
        n, status, actual = int(reply[1]), reply[6], int(reply[7])
        data = b"" if reply[9] == "-" else bytes.fromhex(reply[9])
        request, device = self.requests[h, n], self.opened[h]
        number = STATUSES.get(status, SHORT if self.codes.get((h, n)) in WELL else BROKEN)
        self.events.append(Event(id_of(h, n), "C", request.kind, request.ep, device, line, number, actual, data, None, request.flags))
        answers = self.shares.pop((h, n), [])
        self.callbacks.append(Callback(id_of(h, n), device, status, actual, data, request, answers, len(self.events)))

    def capture(self):
        """The bytes of the capture."""
        return FILE_HEADER + b"".join(map(record, self.events))


def id_of(h, n):
    return 2**32 * (h + 1) + n % 2**32


def request_of(words):
    """A submit line's request."""
    ep, kind, body = int(words[2], 16), KINDS[words[3]], words[4]
    data = bytes.fromhex(body[2:]) if body.startswith("x:") else b""
    names = next((it[len("flags=") :].split("+") for it in words[5:] if it.startswith("flags=")), [])
    flags = 0x1 * ("SHORT_NOT_OK" in names) + 0x40 * ("ADD_ZERO_PACKET" in names) + 0x200 * is_in(ep)
    return Request(ep, kind, len(data) if body.startswith("x:") else int(body), data, flags)
