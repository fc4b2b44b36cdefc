"""A device of a bus, by its number: it is pulled out and plugged in, and fails where a test wants it to."""
from __future__ import annotations

from typing import Any, List, Optional, Union

from tirnouch.device import Device
from tirnouch.endpoints import Endpoint, Fields, whole
from tirnouch.faults import Packet, Rate, Requests
from tirnouch.library import NOT_FOUND, Library, sentence


class Port:
    """Where a device is plugged in. `device` is the object that answers; None where a text does."""

    def __init__(self, library: Library, number: int, device: Optional[Device], described: str) -> None:
        self.library, self.number, self.device, self.described = library, number, device, described
        self.successor: Optional[Port] = None

    def __repr__(self) -> str:
        return f"<device {self.number}: {self.described}>"

    # It comes and goes

    def unplug(self) -> None:
        """Pulls the device out: what is in flight ends with LIBUSB_TRANSFER_NO_DEVICE. RuntimeError where it isn't there."""
        self.call("pull", "unplug")

    def plug(self) -> None:
        """Plugs the device in: one that was pulled out or left, or one that its text calls `hidden`. RuntimeError where it is there."""
        self.call("show", "plug")

    def replug(self, other: Any = None) -> None:
        """Pulls the device out, where it is there, and plugs it in again: handles of before are answered LIBUSB_ERROR_NO_DEVICE. `other`
        is the device as which it comes back, which the bus knows from its beginning (tirnouch.becomes)."""
        if other is not None:
            self._check_successor(other)
        if self.successor is None:
            self.call("replug", "replug")
            return
        if self.library.call("pull", self.number) not in (0, -4):
            raise RuntimeError(f"device {self.number}, {self.described}: replug: {sentence(NOT_FOUND)}")
        self.call("show", "replug")

    def _check_successor(self, other: Any) -> None:
        known = self.successor
        if known is None or not (known.device is other or (isinstance(other, type) and type(known.device) is other)):
            name = other.__name__ if isinstance(other, type) else type(other).__name__
            own = type(self.device).__name__ if self.device else "device"
            raise ValueError(f"device {self.number}, {self.described}, doesn't come back as {name}: a bus knows its devices from its "
                             f"beginning, so begin it with becomes({own}(), {name}())")

    def call(self, name: str, word: str) -> None:
        """One of tirnouch.h's functions of a device. RuntimeError where it is refused, in the word that was called."""
        status = self.library.call(name, self.number)
        if status:
            raise RuntimeError(f"device {self.number}, {self.described}: {word}: {sentence(status)}")

    # It fails

    def fell(self) -> List[str]:
        """Which faults happened since the bus began, the last ones, a sentence each."""
        return list(self.device._faults.fell) if self.device else []

    def at(self, endpoint: Union[int, Endpoint], index: int) -> Packet:
        """The packet of this index at an endpoint, counted from 0 since the device was plugged in: `.fail(kind)`, `.delay(ms)`. ValueError
        where it is past, or the device has no such endpoint."""
        device = self._computing(f"at({index})")
        return Packet(device._faults, device._endpoint(endpoint).address, index)

    def rate(self, endpoint: Union[int, Endpoint], rate: float) -> Rate:
        """Packets of an endpoint by dice of the run's seed, at a rate from 0 to 1: `.fail(kind)`, `.delay(ms)`."""
        device = self._computing("rate")
        return Rate(device._faults, device._endpoint(endpoint).address, rate)

    def at_control(self, type: Optional[int], request: Optional[int], value: Optional[int] = None, index: Optional[int] = None,
                   n: int = 0) -> Requests:
        """The n-th request with these fields, counted from 0 since the device was plugged in; None stands for any value."""
        for what, field, most in (("bmRequestType", type, 0xFF), ("bRequest", request, 0xFF), ("wValue", value, 0xFFFF),
                                  ("wIndex", index, 0xFFFF)):
            if field is not None:
                whole(what, field, most)
        return Requests(self._computing("at_control")._faults, Fields(type, request, value, index), n)

    def _computing(self, call: str) -> Device:
        if self.device is None:
            raise TypeError(f"device {self.number}, {self.described}, has its answers from its beginning, and bus[{self.number}].{call} is "
                            "for a class: say it of the text before the bus begins, as text(..).at(0x81, 1).fail(STALL), or write the "
                            "answer `s` or `b` into its script line")
        return self.device

    # What it was sent

    def took(self, endpoint: int, index: int = 0) -> bytes:
        """The packet of this index, from 0 on, that it took at an endpoint since it was plugged in. IndexError past the last."""
        return self.library.took(self.number, endpoint, index)

    def requests(self) -> List[bytes]:
        """The requests that it was sent since it was plugged in, the first 4,096: 8 bytes of setup, and at most 56 of what was written,
        with zeros behind them."""
        return self.library.requests(self.number)


