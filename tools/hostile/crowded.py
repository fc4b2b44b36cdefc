"""Random scenarios that come to the reasons of `explain`: devices with endpoints of all kinds, or none; floods of submissions, asks amid
them, callbacks that submit again, halts, unplugged devices; and steps at what isn't there."""
import random
from typing import Callable, NamedTuple, Optional

from scenarios import FLAGS, STATUSES

# The kinds of endpoints by their number in a descriptor, and as a submission names the two that it may.
CONTROL, ISOCHRONOUS, BULK, INTERRUPT = range(4)
NAMES = {BULK: "bulk", INTERRUPT: "int"}
ADDRESSES = (0x81, 0x02, 0x83, 0x04, 0x85, 0x05, 0x8F, 0x0E)
# Addresses and devices that mostly aren't there, and a handle that mostly does nothing.
STRANGE_ADDRESSES, STRANGE_DEVICES, STRANGE_HANDLE = ("81", "0f", "8a", "02"), ("2", "3"), 7
# What a scenario does, each as often as it is to come among so many: some do much of one thing.
ACTS = (
    "flood", "flood", "flood", "serve", "serve", "serve", "serve", "drain", "drain", "drain", "withdraw", "withdraw", "leave",
    "answer", "answer", "halt", "call", "strange",
)
RARE_ACTS = ("unplug", "reopen", "too_long")


class Endpoint(NamedTuple):
    """An endpoint of a device that a scenario has."""
    device: int
    interface: int
    address: int
    kind: int
    size: int

    @property
    def is_in(self) -> bool:
        return self.address > 127

    @property
    def named(self) -> str:
        return f"{self.address:02x}"


def endpoints_of(dice: random.Random, device: int) -> list[Endpoint]:
    """The endpoints of a device of up to two interfaces with endpoints, mostly of the kinds that are submitted to."""
    kinds = [BULK] * 5 + [INTERRUPT] * 4 + [CONTROL, ISOCHRONOUS]
    addresses = dice.sample(ADDRESSES, dice.choice((0, 2, 3, 4, 6)))
    return [Endpoint(device, dice.randint(0, 1), it, dice.choice(kinds), dice.choice((1, 8, 8, 8, 64))) for it in addresses]


def descriptor(endpoints: list[Endpoint]) -> str:
    """The configuration descriptor of the interfaces 0 and 1 with these endpoints."""
    body = b""
    for interface in (0, 1):
        own = [it for it in endpoints if it.interface == interface]
        body += bytes([9, 4, interface, 0, len(own), 255, 0, 0, 0])
        body += b"".join(bytes([7, 5, it.address, it.kind, it.size, 0, 1]) for it in own)
    return (bytes([9, 2, 9 + len(body), 0, 2, 1, 0, 128, 50]) + body).hex()


def answer(dice: random.Random, at: Endpoint, odds: float) -> str:
    """An answer of an endpoint's script, a whole packet but with these odds."""
    is_odd = dice.random() < odds
    if is_odd and (not at.is_in or dice.random() < 0.5):
        return dice.choice("nnsb")
    if not at.is_in:
        return "a"
    return "d:" + dice.randbytes(dice.choice((0, at.size - 1, at.size // 2, at.size // 2, at.size + 1)) if is_odd else at.size).hex()


class Maker:
    """Makes a scenario, line by line. It guesses who has what open and holds it, and which numbers there are."""

    def __init__(self, dice: random.Random) -> None:
        self.dice = dice
        self.devices = {number: endpoints_of(dice, number) for number in range(dice.choice((1, 2, 2, 3)))}
        self.endpoints = [it for own in self.devices.values() for it in own]
        self.opened: dict[int, int] = {}
        self.holders: dict[tuple[int, int], int] = {}
        self.given = {1: 0, 2: 0, 3: 0}
        self.focus: Optional[Endpoint] = None
        self.lines = [f"device {number} {descriptor(own)}" for number, own in self.devices.items()]
        self.feeds: list[str] = []
        for at in self.endpoints:
            self.add_script(at)

    def add_script(self, at: Endpoint) -> None:
        """Most endpoints that may have a script have one, and some of these are fed amid the steps."""
        if at.kind in NAMES and self.dice.random() < 0.95:
            odds = self.dice.choice((0.05, 0.2, 0.5))
            answers = [answer(self.dice, at, odds) for _ in range(self.dice.choice((3, 40, 90, 90, 90)))]
            self.lines.append(" ".join(["script", str(at.device), at.named, *answers]))
            if self.dice.random() < 0.2:
                self.feeds.append(" ".join(["feed", str(at.device), at.named, answer(self.dice, at, odds), "n"]))

    def add(self, *words: object) -> None:
        self.lines.append(" ".join(map(str, words)))

    # What is chosen.

    def handle(self) -> int:
        return self.dice.choice((1, 1, 1, 2, 2, 3))

    def number(self, handle: int) -> int:
        """A number that the handle was perhaps given, more likely a late one."""
        most = self.given[handle]
        return self.dice.randint(max(0, most - self.dice.choice((4, 16, 200))), most)

    def place(self) -> Optional[tuple[int, Endpoint]]:
        """An endpoint, mostly one that is held, and mostly the same one as before; and a handle, mostly its holder."""
        held = [it for it in self.endpoints if (it.device, it.interface) in self.holders and it.kind in NAMES]
        among = held if held and self.dice.random() < 0.95 else self.endpoints
        if among and (self.focus not in held or self.dice.random() < 0.15):
            self.focus = self.dice.choice(among)
        if self.focus is None:
            return None
        holder = self.holders.get((self.focus.device, self.focus.interface), 1)
        return holder if self.dice.random() < 0.95 else self.handle(), self.focus

    def options(self) -> list[str]:
        """The options of a submission, in their order."""
        dice, found = self.dice, []
        if dice.random() < 0.3:
            found.append("flags=" + "+".join(dice.sample(FLAGS, dice.randint(1, 3))))
        if dice.random() < 0.4:
            found.append(f"timeout={dice.choice((0, 1, 1000))}")
        if dice.random() < 0.4:
            found.append(f"then=again:{'+'.join(dice.sample(STATUSES, dice.randint(1, 6)))}:{dice.choice((1, 2, 50))}")
        return found

    def submit(self, handle: int, at: Endpoint, length: int) -> None:
        """A submission, which is now and then of a wrong kind or way."""
        dice = self.dice
        is_read = at.is_in if dice.random() < 0.97 else not at.is_in
        kind = NAMES.get(at.kind, "bulk") if dice.random() < 0.97 else dice.choice(("bulk", "int"))
        body = length if is_read or length > 200 else f"x:{dice.randbytes(length).hex()}"
        self.add("submit", handle, at.named, kind, body, *self.options())
        is_taken = is_read == at.is_in and self.holders.get((at.device, at.interface)) == handle and at.kind in NAMES
        self.given[handle] += is_taken

    # Acts.

    def begin(self) -> None:
        """Handles open devices and claim interfaces, mostly."""
        for handle in self.given:
            if self.dice.random() < 0.9:
                self.open(handle)
            for interface in self.dice.sample((0, 1), self.dice.choice((1, 2, 2))):
                self.claim(handle, interface)

    def flood(self) -> None:
        place = self.place()
        if place:
            size = place[1].size
            for _ in range(self.dice.choice((1, 1, 2, 5, 17))):
                self.submit(*place, self.dice.choice((0, size, size, 2 * size, 2 * size, 3 * size, 3 * size, 2 * size + 1)))

    def too_long(self) -> None:
        place = self.place()
        if place:
            self.submit(*place, self.dice.choice([262_145] * 8 + [262_144, 4_294_967_295]))

    def serve(self) -> None:
        place = self.place()
        if place:
            for _ in range(self.dice.choice((1, 3, 8))):
                self.add("serve", place[1].device, place[1].named)

    def drain(self) -> None:
        """The event loop goes on, now and then until it has nothing to do."""
        for verb in ("command", "deliver", "command", "deliver", "take"):
            for _ in range(self.dice.choice((0, 1, 1, 2, 6))):
                self.add(verb)

    def withdraw(self) -> None:
        """Transfers are asked to end, and the controller gets some of the way."""
        place = self.place()
        handle = place[0] if place else self.handle()
        for _ in range(self.dice.choice((1, 2, 6))):
            self.add(self.dice.choice(("cancel", "cancel", "expire")), handle, self.number(handle))
        for verb in ("command", "deliver") * self.dice.randint(0, 2):
            self.add(verb)

    def leave(self) -> None:
        """A handle asks all its transfers to end, and puts something back amid what comes of it."""
        place, dice = self.place(), self.dice
        if place:
            handle, at = place
            for number in range(max(0, self.given[handle] - 18), self.given[handle]):
                self.add("cancel", handle, number)
            turns = ["command", "deliver"] * dice.choice((1, 1, 2, 3)) + ["deliver"] * dice.randint(0, 2)
            for verb in [*turns, *["take"] * dice.choice((0, 1, 18))]:
                self.add(verb)
            self.add(*dice.choice((("close", handle), ("reset", handle), ("release", handle, at.interface), ("clear", handle, at.named))))

    def answer(self) -> None:
        """Callbacks return, some of them before they are called."""
        place = self.place()
        handle = place[0] if place else self.handle()
        most = self.given[handle] + 1
        for number in range(max(0, most - self.dice.choice((2, 20))), most):
            if self.dice.random() < 0.5:
                self.add("return", handle, number)

    def halt(self) -> None:
        """The event loop handles a halt, and the device's ends, unless something is in its way."""
        place = self.place()
        if place:
            for verb in ("deliver", "command", "deliver", "command", "deliver") * self.dice.randint(0, 1):
                self.add(verb)
            self.add("clear", place[0], place[1].named)

    def open(self, handle: int) -> None:
        device = self.dice.choice([*self.devices])
        self.add("open", handle, device)
        self.opened.setdefault(handle, device)

    def claim(self, handle: int, interface: int) -> None:
        self.add("claim", handle, interface)
        if handle in self.opened and interface in (0, 1):
            self.holders.setdefault((self.opened[handle], interface), handle)

    def call(self) -> None:
        """A call of a handle about devices and interfaces, of which most don't succeed."""
        handle, verb = self.handle(), self.dice.choice(("open", "claim", "claim", "release", "release", "reset"))
        if verb == "claim":
            self.claim(handle, self.dice.choice((0, 1, 1, 9)))
        elif verb == "open":
            self.open(handle)
        else:
            self.add(verb, handle, *[self.dice.choice((0, 1, 1, 9))] * (verb == "release"))

    def strange(self) -> None:
        """A step at what mostly isn't there, or by a handle that mostly has nothing."""
        dice = self.dice
        handle, device, ep = dice.choice((1, 2, STRANGE_HANDLE)), dice.choice(("0", "1", *STRANGE_DEVICES)), dice.choice(STRANGE_ADDRESSES)
        made: tuple[tuple[object, ...], ...] = (
            ("serve", device, ep), ("serve", device, ep), ("clear", handle, ep), ("submit", handle, ep, "bulk", 8), ("open", 9, device),
            ("cancel", handle, dice.randint(0, 99)), ("return", handle, dice.randint(0, 99)), ("reset", handle), ("close", handle),
            ("claim", handle, 77), ("release", handle, 77), ("unplug", STRANGE_DEVICES[1]),
        )
        self.add(*dice.choice(made))

    def unplug(self) -> None:
        self.add("unplug", self.dice.choice([*self.devices]))

    def reopen(self) -> None:
        """A handle puts back what it has, if it can, and opens a device anew."""
        handle = self.handle()
        self.add("close", handle)
        self.open(handle)
        self.claim(handle, self.dice.randint(0, 1))

    def act(self, acts: list[str]) -> None:
        if self.feeds and self.dice.random() < 0.1:
            self.lines.append(self.feeds.pop())
        made: Callable[[], None] = getattr(self, self.dice.choice(acts))
        made()


def scenario(dice: random.Random) -> bytes:
    """A random scenario that mostly does some few things, and comes to many reasons."""
    maker = Maker(dice)
    maker.begin()
    favourites = dice.sample(ACTS, 3)
    acts = [*ACTS, *RARE_ACTS[dice.choice((0, 1, 1, 1)):], *favourites * 3]
    for _ in range(dice.choice((10, 30, 60))):
        maker.act(acts)
    return "".join(line + "\n" for line in maker.lines).encode()
