"""Each beginning of a descriptor, and each byte set to each value, by `check` and `run`, beside a reader of the tool's own."""
import itertools

from runs import Part, is_refusal, wrong_unless
from texts import refused_in

# The README's device; and one with a second setting, a descriptor of a class, and endpoints of all kinds.
DEVICES = (
    "0902300002010080320904000002ff00000007058102080000070502020800000904010001ff0000000705830308000a",
    "0902480001010080320904000003ff00000005240102030705810200020007050202400000070585010004010904000101ff000000"
    "0705860308000a0904010001ff0000000705870008000a",
)
LEAST = {"configuration": 9, "interface": 9, "endpoint": 7}
MOST_INTERFACES, MOST_SIZE = 32, 1_024
# The interfaces that are claimed of a device that is taken.
CLAIMS = (0, 1, 2, 128)
# The gate tries one in so many.
GATE_EACH = 60


def ends_at(at):
    return f"the input ends at byte {at}, before the configuration does"


def bad_length(at):
    return f"the descriptor at byte {at} has an impossible length"


def wrong_type(at):
    return f"the descriptor at byte {at} has a type that can't stand there"


class Reader:
    """A configuration's interfaces and endpoints, read by docs/FORMATS.md, and the sentence of its fault, if it has one."""

    def __init__(self, data):
        self.data, self.interfaces, self.endpoints = data, [], {}
        self.used = self.seen = False
        self.fault = self.head() or self.rest()

    def head(self):
        """The fault of the configuration's own descriptor."""
        size = len(self.data)
        if size < LEAST["configuration"]:
            return ends_at(size)
        if self.data[1] != 2:
            return wrong_type(0)
        self.total = self.data[2] | self.data[3] << 8
        if self.data[0] < LEAST["configuration"] or self.total < self.data[0]:
            return bad_length(0)
        return ends_at(size) if size < self.total else None

    def rest(self):
        """The first fault of the descriptors behind it."""
        at, fault = self.data[0], None
        while at < self.total and not fault:
            fault = self.descriptor(at)
            at += self.data[at]
        return fault

    def descriptor(self, at):
        length = self.data[at]
        if self.total - at < 2 or length < 2 or at + length > self.total:
            return bad_length(at)
        return {2: wrong_type, 4: self.interface, 5: self.endpoint}.get(self.data[at + 1], lambda _: None)(at)

    def interface(self, at):
        if self.data[at] < LEAST["interface"]:
            return bad_length(at)
        number, setting = self.data[at + 2], self.data[at + 3]
        self.seen, self.used = True, setting == 0 and number not in self.interfaces
        if self.used and len(self.interfaces) == MOST_INTERFACES:
            return "there are more than 32 interfaces"
        self.interfaces += [number] * self.used
        return None

    def endpoint(self, at):
        if self.data[at] < LEAST["endpoint"]:
            return bad_length(at)
        if not self.seen:
            return wrong_type(at)
        address, kind, size = self.data[at + 2] & 0x8F, self.data[at + 3] & 3, (self.data[at + 4] | self.data[at + 5] << 8) & 2047
        if not self.used or not address & 15:
            return None
        if address in self.endpoints:
            return f"two endpoints have the address {address:02x}"
        if kind > 1 and not 1 <= size <= MOST_SIZE:
            return f"endpoint {address:02x} has a packet size outside 1 to 1,024"
        self.endpoints[address] = kind, self.interfaces[-1], size
        return None

    def entries(self):
        """What `run` prints where the device is opened and the interfaces are claimed."""
        replies = ["done", *("done" if number in self.interfaces else "refused 3" for number in CLAIMS)]
        return "".join(f"h1 {reply}\n" for reply in replies).encode()


def cases(_):
    """Each beginning of a device's descriptor, and each of its bytes set to each value."""
    found = []
    for device in map(bytes.fromhex, DEVICES):
        found += [("a beginning", device[:size]) for size in range(len(device) + 1)]
        for at, value in itertools.product(range(len(device)), range(256)):
            found.append((f"byte {at} is {value}", device[:at] + bytes([value]) + device[at + 1:]))
    return found


def gate_cases(asked):
    return cases(asked)[::GATE_EACH]


def is_told(check, fault):
    """Whether `check` tells this fault of the first line."""
    return (check.status, check.err) == (1, b"") and check.out.startswith(f"line 1: the descriptor is refused: {fault}\n".encode())


def is_good(it, printed):
    return (it.status, it.out, it.err) == (0, printed, b"")


def is_checked(check, entries):
    """Whether `check` counts what is said, and tells which of these entries are refused."""
    counts, _, told = check.out.partition(b"\n")
    return (check.status, counts, check.err) == (0, b"1 device, 0 scripts, 5 steps", b"") and refused_in(told) == refused_in(entries)


def tried(runs, name, data):
    """A descriptor, which `check` finds good, or tells its fault, and `run` takes or refuses; its interfaces are claimed."""
    reader, name = Reader(data), f"{name} of {data.hex()}"
    text = f"device 0 {data.hex()}\nopen 1 0\n" + "".join(f"claim 1 {number}\n" for number in CLAIMS)
    check, run = runs.of("check", text.encode()), runs.of("run", text.encode())
    if reader.fault:
        yield wrong_unless(is_told(check, reader.fault), "refused", f"check: {name}", check)
        yield wrong_unless(is_refusal(run, 1), "refused", f"run: {name}", run)
    else:
        yield wrong_unless(is_checked(check, reader.entries()), "taken", f"check: {name}", check)
        yield wrong_unless(is_good(run, reader.entries()), "taken", f"run: {name}", run)


PART = Part(cases, gate_cases, tried)
