"""What base classes of devices share (hid.py, serial.py, dfu.py, storage.py, scpi.py): that they begin anew, how a class's attributes are
judged when it is made, and how an endpoint that a class gives anew gets the method of its base's."""
from __future__ import annotations

import contextlib
from typing import Any, Callable, ClassVar, Optional, Tuple, Type, Union

from tirnouch.answers import Answer
from tirnouch.device import Device
from tirnouch.endpoints import BULK, INTERRUPT, Endpoint

EXAMPLES = {(BULK, True): "bulk_in(0x81)", (BULK, False): "bulk_out(0x02)", (INTERRUPT, True): "interrupt_in(0x83)",
            (INTERRUPT, False): "interrupt_out(0x04)"}


class Renewed(Device):
    """A device that is as it was at first when it was reset or plugged in: `begin` says how. A class that has more of that calls
    super().begin() in its own; one that has on_reset or on_plugged calls super()'s there. So a class may have several of these as bases."""

    # What a base class of devices has: interface 0 is its own.
    _has_first_interface: ClassVar[bool] = False

    def __init_subclass__(cls, **words: Any) -> None:
        owners = [it.__name__ for it in cls.__mro__ if vars(it).get("_has_first_interface")]
        if len(owners) > 1:
            raise TypeError(f"{cls.__name__}: interface 0 is {owners[0]}'s or {owners[1]}'s: a class has one of them as a base")
        if owners and vars(cls).get("config") is not None:
            raise TypeError(f"{cls.__name__}: {owners[0]} has endpoints of its own, so `config` isn't said with it: further ones are "
                            "attributes, as more = bulk_in(0x84)")
        super().__init_subclass__(**words)

    def __new__(cls, *words: Any, **named: Any) -> Any:
        device: Renewed = super().__new__(cls, *words, **named)
        device.begin()
        return device

    def begin(self) -> None:
        """As it is at first. It is called before __init__, too."""

    def on_reset(self) -> None:
        super().on_reset()
        self.begin()

    def on_plugged(self) -> None:
        super().on_plugged()
        self.begin()

    def _offer(self, name: str, data: bytes, zero: bool = False) -> None:
        """What is read next at the endpoint of a name. A host that waits for it in another thread is woken."""
        self.send(endpoint_of(self, name), data, zero)
        with contextlib.suppress(RuntimeError):     # a method that is asked needn't wake the host, and a program's device can't
            self.ready()


def says(kind: Union[type, object], name: str) -> str:
    """The beginning of a sentence about an attribute."""
    return f"{kind.__name__ if isinstance(kind, type) else type(kind).__name__}: `{name}`"


def typed(kind: type, name: str, types: Union[Type[Any], Tuple[Type[Any], ...]], what: str) -> Any:
    """The attribute of a class. TypeError where it is of another type; `what` says which one stands there."""
    value = getattr(kind, name)
    if not isinstance(value, types):
        raise TypeError(f"{says(kind, name)} is {what}, and not {value!r}")
    return value


def chosen(kind: type, name: str, choices: Tuple[Any, ...]) -> Any:
    """The attribute of a class. ValueError where it is none of these."""
    value = getattr(kind, name)
    if value not in choices:
        raise ValueError(f"{says(kind, name)} is {' or '.join(map(repr, choices))}, and not {value!r}")
    return value


def gives(kind: type, *names: str) -> bool:
    """Whether the class itself has one of these attributes, and not a base of it."""
    return any(name in vars(kind) for name in names)


def endpoint_of(device: Device, name: str) -> Endpoint:
    """The endpoint of a name that a device needs."""
    it = declared(type(device), name)
    if it is None:
        raise TypeError(f"{says(device, name)} is an endpoint, and not {getattr(device, name, None)!r}")
    return it


def declared(kind: type, name: str) -> Optional[Endpoint]:
    """The endpoint of a name, that of a base where the class has but a method of this name; None where there is none."""
    for base in kind.__mro__:
        it = vars(base).get(name)
        if isinstance(it, Endpoint) or (name in vars(base) and not callable(it)):
            return it if isinstance(it, Endpoint) else None
    return None


def passed_to(method: str) -> Callable[[Any, Any], Any]:
    """What passes a question to the method of a name that the device's class has."""

    def ask(device: Any, word: Any) -> Any:
        return getattr(device, method)(word)

    return ask


def joined(kind: type, name: str, like: int, inward: bool, method: str = "", is_needed: bool = True) -> None:
    """The endpoint of a name is of this kind and direction. One without a method passes its questions to the method of this name. TypeError
    or ValueError says what stands there instead; None may stand for an endpoint that isn't needed."""
    it, example = declared(kind, name), EXAMPLES[like, inward]
    if it is None:
        if is_needed or getattr(kind, name, None) is not None:
            raise TypeError(f"{says(kind, name)} is an endpoint, as {example}, and not {getattr(kind, name)!r}")
        return
    if (it.kind, it.is_in) != (like, inward):
        raise ValueError(f"{says(kind, name)} is an endpoint as {example}, and {EXAMPLES[it.kind, it.is_in].partition('(')[0]} made {it}")
    if it.method is None and method:
        it(passed_to(method))


def waits(answer: Any) -> bool:
    """Whether a method isn't ready for what it was given, so that it is given it again."""
    return isinstance(answer, Answer) and (answer.word == "n" or answer.word.startswith("later "))


def bytes_of(what: str, data: Any) -> bytes:
    """Bytes. TypeError where they are none."""
    if not isinstance(data, (bytes, bytearray, memoryview)):
        raise TypeError(f"{what} is bytes, and not {type(data).__name__}")
    return bytes(data)
