"""The endpoints of a class of devices, and its methods that answer requests: attributes, or decorators of methods."""
from __future__ import annotations

import copy
from typing import Any, Callable, NamedTuple, Optional

BULK, INTERRUPT = 2, 3
IN = 0x80
KINDS = {BULK: "bulk", INTERRUPT: "interrupt"}
MOST_SIZE = 1024
MOST_INTERVAL = 255
MOST_INTERFACE = 31


class Request(NamedTuple):
    """A request on endpoint 0: the fields of its setup packet (USB 2.0, 9.3), and what the host writes."""

    type: int
    request: int
    value: int
    index: int  # type: ignore[assignment]
    length: int
    data: bytes


class Endpoint:
    """An endpoint: an attribute of a class of devices, or the decorator of the method that answers its packets."""

    name = ""

    def __init__(self, address: int, kind: int, size: Optional[int], interval: int, interface: int) -> None:
        self.address, self.kind, self.size, self.interval, self.interface = address, kind, size, interval, interface
        self.method: Optional[Callable[..., Any]] = None

    def __call__(self, method: Callable[..., Any]) -> Endpoint:
        if not callable(method):
            raise TypeError(f"endpoint {self} decorates a method, and not {method!r}")
        self.method = method
        return self

    def __set_name__(self, owner: type, name: str) -> None:
        self.name = name

    def __get__(self, device: Any, owner: Optional[type] = None) -> Any:
        """Of a device, its method; the endpoint itself where there is none."""
        if device is None or self.method is None:
            return self
        return self.method.__get__(device, owner)

    def __str__(self) -> str:
        return f"{self.address:02x}"

    @property
    def is_in(self) -> bool:
        """Whether the host reads here."""
        return bool(self.address & IN)

    def of(self, interface: int) -> Endpoint:
        """The same of an interface, with the name of the method that answers it where a configuration declares it: in_81, out_02."""
        own = copy.copy(self)
        own.interface, own.name = interface, f"{'in' if self.is_in else 'out'}_{self.address:02x}"
        return own


def whole(what: str, value: Any, most: int, least: int = 0) -> int:
    """A whole number of this range. ValueError or TypeError says which one stands there instead."""
    if not isinstance(value, int) or isinstance(value, bool):
        raise TypeError(f"{what} is a whole number, and not {value!r}")
    if not least <= value <= most:
        raise ValueError(f"{what} is {least:#x} to {most:#x}, and not {value:#x}")
    return value


def endpoint(call: str, address: Any, kind: int, size: Optional[int], interval: int, interface: int) -> Endpoint:
    """An endpoint of the direction that the call's name says."""
    inward = call.endswith("in")
    example = f"{call}({'0x81' if inward else '0x02'})"
    if not isinstance(address, int) or isinstance(address, bool):
        raise TypeError(f"{call} takes an address, as {example}, and not {address!r}")
    least = IN + 1 if inward else 1
    if not least <= address <= least + 14:
        other = f"{call.rpartition('_')[0]}_{'out' if inward else 'in'}"
        hint = f": {other} makes it" if bool(address & IN) != inward and 1 <= address & ~IN <= 15 else ""
        raise ValueError(f"{call} takes an address from {least:#04x} to {least + 14:#04x}, and not {address:#04x}{hint}")
    if size is not None:
        whole(f"the packet size of {call}", size, MOST_SIZE, 1)
    whole(f"the interval of {call}", interval, MOST_INTERVAL)
    whole(f"the interface of {call}", interface, MOST_INTERFACE)
    return Endpoint(address, kind, size, interval, interface)


def bulk_in(address: int, size: Optional[int] = None, interface: int = 0) -> Endpoint:
    """A bulk endpoint that is read. Packets are as large as the device's speed has them: 512 bytes at high speed, 64 at full."""
    return endpoint("bulk_in", address, BULK, size, 0, interface)


def bulk_out(address: int, size: Optional[int] = None, interface: int = 0) -> Endpoint:
    """A bulk endpoint that is written."""
    return endpoint("bulk_out", address, BULK, size, 0, interface)


def interrupt_in(address: int, size: Optional[int] = None, interval: int = 4, interface: int = 0) -> Endpoint:
    """An interrupt endpoint that is read: packets of 64 bytes, 8 at low speed. `interval` is bInterval (USB 2.0, 9.6.6)."""
    return endpoint("interrupt_in", address, INTERRUPT, size, interval, interface)


def interrupt_out(address: int, size: Optional[int] = None, interval: int = 4, interface: int = 0) -> Endpoint:
    """An interrupt endpoint that is written."""
    return endpoint("interrupt_out", address, INTERRUPT, size, interval, interface)


class Fields(NamedTuple):
    """The fields of the requests that a method answers; None stands for any value."""

    type: Optional[int]
    request: Optional[int]
    value: Optional[int]
    index: Optional[int]  # type: ignore[assignment]

    def fit(self, request: Request) -> bool:
        """Whether a request has them."""
        return all(want is None or want == got for want, got in zip(self, request))


# A method of the name `control` answers what no decorated one does; it is given the request, and its data once more.
ANY = Fields(None, None, None, None)


def control(kind: int, request: int = -1, value: Optional[int] = None, index: Optional[int] = None) -> Callable[[Callable[..., Any]], Any]:
    """The method answers requests of these fields, bmRequestType first (USB 2.0, 9.3). It is given a Request. It returns bytes where the
    host reads, None where it writes, or an Answer."""
    if callable(kind):
        raise TypeError("control takes bmRequestType and bRequest, as @control(0xC0, 0x01)")
    whole("bmRequestType", kind, 0xFF)
    whole("bRequest", request, 0xFF)
    for what, field in (("wValue", value), ("wIndex", index)):
        if field is not None:
            whole(what, field, 0xFFFF)

    def mark(method: Callable[..., Any]) -> Callable[..., Any]:
        if not callable(method):
            raise TypeError(f"control decorates a method, and not {method!r}")
        method.requests = [Fields(kind, request, value, index), *getattr(method, "requests", [])]  # type: ignore[attr-defined]
        return method

    return mark
