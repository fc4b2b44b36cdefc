"""The class of devices: what a device says of itself is attributes, what it does are methods."""
from __future__ import annotations

import collections
import sys
import threading
from typing import Any, Callable, ClassVar, Deque, Dict, List, NamedTuple, Optional, Sequence, Set, Tuple, Union

from tirnouch import configurations, descriptors
from tirnouch.answers import STALL, Answer
from tirnouch.configurations import Configuration
from tirnouch.endpoints import ANY, Endpoint, Fields
from tirnouch.faults import Faults

# Whether this thread answers a question of the library's: the library waits for it then, and may not be called. And which question each
# thread answers.
ASKED = threading.local()
ASKING: Dict[int, str] = {}


class Waiting(NamedTuple):
    """An answer that is given later: to which question, at which moment in milliseconds where there is a clock, and what it is."""

    question: Any
    due: Optional[int]
    answer: Union[bytes, Answer, None]


class Device:
    """A device. `config` declares its endpoints, which the methods in_81 and out_02 answer, by address, and `control` its requests; or
    decorators mark its endpoints and the methods that answer (endpoints.py).

    A method of an OUT endpoint is given a packet, and returns None or ACK where the packet is taken. A method of an IN endpoint is given
    the bytes that the host takes at most, and returns bytes, or None or NAK where there are none yet; it is asked where nothing that was
    sent is left. Each may return STALL, BROKEN, GONE, SILENT, later(ms) or after(ms, answer) instead (answers.py). An exception fails the
    test; where there is none, it is told on standard error with its traceback. It is a stall: the host's transfer ends so, and the device
    goes on."""

    # Vendor, product and release in one: (0x1209, 0x0001) or (0x1209, 0x0001, 0x0100)
    ids: ClassVar[Optional[Tuple[int, ...]]] = None
    vendor: int = 0x1209
    product: int = 0x0001
    release: int = 0x0100
    device_class: Tuple[int, int, int] = (0, 0, 0)
    # (class, subclass, protocol) of each interface, or an Interface
    interfaces: Sequence[Tuple[Any, ...]] = ((0xFF, 0, 0),)
    # Its endpoints and interfaces, by tirnouch.config
    config: ClassVar[Optional[Configuration]] = None
    # Manufacturer, product and serial number, and what else is asked for by its number; "" is none
    strings: Sequence[str] = ()
    # The first three of them by their names
    manufacturer: Optional[str] = None
    product_name: Optional[str] = None
    serial: Optional[str] = None
    speed: str = "high"
    # bmAttributes, and what it draws (USB 2.0, 9.6.3)
    attributes: int = 0x80
    milliamperes: int = 100
    # Further lines of its text, without its number: ("driver", "0")
    lines: Sequence[Sequence[str]] = ()

    endpoints: ClassVar[Dict[int, Endpoint]] = {}
    controls: ClassVar[List[Tuple[Fields, str]]] = []

    def __init_subclass__(cls, **words: Any) -> None:
        super().__init_subclass__(**words)
        configurations.take(cls)
        cls.endpoints, cls.controls = found_endpoints(cls), found_controls(cls)
        configurations.check(cls)

    def __new__(cls, *words: Any, **_named: Any) -> Any:
        """What the base class keeps is made here, so that a class's own __init__ needn't call this one's."""
        if "pytestmark" in vars(cls) and len(words) == 1 and callable(words[0]):
            return marked(cls, words[0])
        configurations.check_methods(cls, cls.__name__)
        device = super().__new__(cls)
        device._queues = collections.defaultdict(collections.deque)
        device._wake = device._watcher = device._clock = None
        device._silent, device._waiting, device._faults = set(), {}, Faults()
        return device

    # What is to be read, or stalls; endpoints that say nothing any more; answers that are given later; faults that a test makes
    _queues: Dict[int, Deque[Union[bytes, Answer]]]
    _silent: Set[int]
    _waiting: Dict[Any, Waiting]
    _faults: Faults
    # What the bus gives a device that is in this process: another thread wakes it up, an exception is told, the clock
    _wake: Optional[Callable[[], None]]
    _watcher: Optional[Callable[[Device, str, Exception], None]]
    _clock: Optional[Callable[[], int]]

    def __str__(self) -> str:
        return type(self).__name__

    # What a device's methods call

    def send(self, endpoint: Union[int, Endpoint], data: Union[bytes, bytearray, memoryview], zero: bool = False) -> None:
        """What is read next at an IN endpoint, behind what was sent before, in packets of its size. b"" is an empty packet; `zero` adds one
        behind a last packet that is full, which ends a transfer (USB 2.0, 5.8.3)."""
        it = self._endpoint(endpoint)
        if not it.is_in:
            raise ValueError(f"{self}: endpoint {it} is an OUT endpoint, where the host sends: send to an IN endpoint")
        if not isinstance(data, (bytes, bytearray, memoryview)):
            raise TypeError(f"{self}: what is sent to {it} is bytes, and not {type(data).__name__}")
        size, whole = descriptors.size_of(self, it), bytes(data)
        packets = [whole[at : at + size] for at in range(0, len(whole), size)] or [b""]
        self._queues[it.address].extend(packets)
        if zero and len(packets[-1]) == size:
            self._queues[it.address].append(b"")

    def stall(self, endpoint: Union[int, Endpoint]) -> None:
        """The endpoint stalls: an IN endpoint behind what was sent before, an OUT endpoint at its next packet."""
        self._queues[self._endpoint(endpoint).address].append(STALL)

    def discard(self, endpoint: Union[int, Endpoint]) -> None:
        """What was sent to an endpoint and isn't read yet is lost, and stalls that are to come."""
        self._queues[self._endpoint(endpoint).address].clear()

    def waiting(self, endpoint: Union[int, Endpoint]) -> int:
        """How many packets and stalls of an endpoint are to come."""
        return len(self._queues[self._endpoint(endpoint).address])

    def ready(self) -> None:
        """From another thread, of a device that is in this process: it is asked again now, also where it said later(ms)."""
        if not self._wake:
            raise RuntimeError(f"{self}: ready() is for a device that `plug` put into this process; a program's device returns later(ms)")
        if getattr(ASKED, "is_asked", False):
            raise RuntimeError(f"{self}: ready() is called from another thread: a method that is asked returns its answer")
        self._wake()

    # What a device may do at an event

    def on_reset(self) -> None:
        """The host reset the device: its halts are cleared, and nothing that was to be read is left."""

    def on_claimed(self, interface: int) -> None:
        """A program claimed an interface."""

    def on_released(self, interface: int) -> None:
        """A program released an interface."""

    def on_cleared(self, endpoint: int) -> None:
        """An endpoint's halt was cleared."""

    def on_plugged(self) -> None:
        """The device was plugged in again; nothing that was to be read is left."""

    def on_pulled(self) -> None:
        """The device was pulled out."""

    # What it says of itself

    def configuration(self) -> bytes:
        """Its configuration descriptor."""
        return descriptors.configuration(self)

    def text(self, number: int = 0) -> str:
        """Its lines of a text of devices."""
        return descriptors.text(self, number)

    def _renew(self) -> None:
        """Nothing is silent or to be answered later any more."""
        self._silent.clear()
        self._waiting.clear()

    def _method(self, endpoint: Endpoint) -> Any:
        """The method that answers an endpoint's packets; None where there is none."""
        method = getattr(self, endpoint.name, None)
        return None if isinstance(method, Endpoint) else method

    def _endpoint(self, endpoint: Union[int, Endpoint]) -> Endpoint:
        __tracebackhide__ = True
        address = endpoint.address if isinstance(endpoint, Endpoint) else endpoint
        if not isinstance(address, int):
            raise TypeError(f"{self}: an endpoint is its address, as 0x81, and not {endpoint!r}")
        if address not in self.endpoints:
            has = ", ".join(str(it) for _, it in sorted(self.endpoints.items())) or "none"
            raise ValueError(f"{self} has no endpoint {address:02x}; it has {has}")
        return self.endpoints[address]


def marked(kind: Any, test: Callable[..., Any]) -> Callable[..., Any]:
    """A test that is marked by @pytest.mark.tirnouch(Meter), where pytest takes the class, which stands there alone, for what is marked."""
    *others, mark = kind.pytestmark
    if others:
        kind.pytestmark = others
    else:
        del kind.pytestmark
    decorator: Any = getattr(sys.modules["pytest"].mark, mark.name)
    return decorator.with_args(kind)(test)  # type: ignore[no-any-return]


def found_endpoints(kind: type) -> Dict[int, Endpoint]:
    """The endpoints of a class and its bases. A name that a class gives anew is the new endpoint, or a new method of the one before. Those
    that `config` declares have the names of the methods that answer them."""
    config = getattr(kind, "config", None)
    names: Dict[str, Endpoint] = {it.name: it for it in config.endpoints} if config else {}
    for base in reversed(kind.__mro__):
        for name, it in vars(base).items():
            if isinstance(it, Endpoint):
                names[name] = it
            elif name in names and not callable(it):
                del names[name]
    found: Dict[int, Endpoint] = {}
    for name, it in names.items():
        if it.address in found:
            raise ValueError(f"{kind.__name__}: {found[it.address].name} and {name} are both endpoint {it}")
        found[it.address] = it
    return found


def found_controls(kind: type) -> List[Tuple[Fields, str]]:
    """The requests that methods answer: those of a class before those of its bases, and else in their order."""
    found: List[Tuple[Fields, str]] = []
    for base in kind.__mro__:
        for name, it in vars(base).items():
            found += [(fields, name) for fields in getattr(it, "requests", ())]
    method = getattr(kind, "control", None)
    return [*found, (ANY, "control")] if callable(method) and not hasattr(method, "requests") else found
