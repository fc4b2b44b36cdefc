"""A configuration as an expression: tirnouch.config and tirnouch.interface. What stands in a class is checked when the class is made; an
error names the class, the field, and what can stand there."""
from __future__ import annotations

import re
from typing import Any, List, NamedTuple, Tuple, Union

from tirnouch import descriptors
from tirnouch.descriptors import SIZES, Interface
from tirnouch.endpoints import Endpoint, whole

MOST_INTERFACES, MOST_SETTING, MOST_POWER = 32, 255, 500
METHOD = re.compile(r"(in|out)_(0x)?([0-9a-fA-F]{1,2})")


class Part(NamedTuple):
    """An interface and its endpoints."""

    interface: Interface
    endpoints: Tuple[Endpoint, ...]


class Configuration(NamedTuple):
    """What `config` makes."""

    interfaces: Tuple[Interface, ...]
    endpoints: Tuple[Endpoint, ...]
    attributes: int
    milliamperes: int


def interface(*endpoints: Endpoint, class_: int = 0xFF, subclass: int = 0, protocol: int = 0, name: str = "", functional: bytes = b"",
              setting: int = 0) -> Part:
    """An interface: its endpoints; its class, subclass and protocol, 0 to 0xFF; its name, which becomes a string descriptor; `functional`,
    the bytes that stand behind its descriptor. With a `setting` from 1 on it is a further setting of the interface before it: programs see
    its descriptor, and can choose it where it has no endpoints."""
    return Part(Interface(class_, subclass, protocol, name, functional, setting), endpoints)


def config(*parts: Union[Endpoint, Part], attributes: int = 0x80, milliamperes: int = 100) -> Configuration:
    """A device's configuration (USB 2.0, 9.6.3): endpoints, as bulk_in(0x81, 64), of one interface of class FF; or interfaces. `attributes`
    is bmAttributes; `milliamperes` is what it draws, 0 to 500."""
    alone = [it for it in parts if isinstance(it, Endpoint)]
    others = [it for it in parts if not isinstance(it, Endpoint)]
    wrong = next((it for it in others if not isinstance(it, Part)), None)
    if wrong is not None:
        raise TypeError(f"config takes endpoints, as bulk_in(0x81), or interfaces, as interface(bulk_in(0x81)), and not {wrong!r}")
    if alone and others:
        raise TypeError("config takes endpoints, which are one interface's, or interfaces, and not both: put the endpoints into one")
    found = others if others else [interface(*alone)]
    interfaces: List[Interface] = []
    endpoints: List[Endpoint] = []
    for place, (it, own) in enumerate(found):
        odd = next((one for one in own if not isinstance(one, Endpoint)), None)
        if odd is not None:
            raise TypeError(f"interface takes endpoints, as bulk_in(0x81), and not {odd!r}")
        interfaces.append(it._replace(endpoints=own if it.setting else ()))
        endpoints += [] if it.setting else [one.of(place) for one in own]
    return Configuration(tuple(interfaces), tuple(endpoints), attributes, milliamperes)


def take(kind: Any) -> None:
    """What a class says by `ids` and `config` becomes what the rest reads: vendor, product, release, interfaces and so on."""
    own, name = vars(kind), kind.__name__
    if own.get("ids") is not None:
        ids = own["ids"]
        if not isinstance(ids, tuple) or not 2 <= len(ids) <= 3:
            raise TypeError(f"{name}: `ids` is (vendor, product) or (vendor, product, release), as (0x1209, 0x0001), and not {ids!r}")
        for field, value in zip(("vendor", "product", "release"), ids):
            setattr(kind, field, whole(f"{name}: `ids`: the {field}", value, 0xFFFF))
    if own.get("config") is not None:
        given = own["config"]
        if not isinstance(given, Configuration):
            raise TypeError(f"{name}: `config` is what tirnouch.config makes, as config(bulk_in(0x81), bulk_out(0x02)), and not {given!r}")
        kind.interfaces, kind.attributes, kind.milliamperes = given.interfaces, given.attributes, given.milliamperes


def check(kind: Any) -> None:
    """Refuses a class whose `config`, names or methods can't be."""
    own, name = vars(kind), kind.__name__
    for field in ("manufacturer", "product_name", "serial"):
        text = own.get(field)
        if isinstance(text, property) or text is None:
            continue
        if not isinstance(text, str):
            raise TypeError(f"{name}: `{field}` is a str, and not {text!r}")
        if len(text.encode("utf-16-le")) > 2 * descriptors.MOST_UNITS:
            raise ValueError(f"{name}: `{field}` has at most {descriptors.MOST_UNITS} units of UTF-16")
    if kind.config is None:
        return
    if not isinstance(kind.speed, str) or kind.speed not in SIZES:
        raise ValueError(f"{name}: `speed` is \"low\", \"full\" or \"high\", and not {kind.speed!r}")
    whole(f"{name}: config: `attributes`", kind.config.attributes, 0xFF)
    whole(f"{name}: config: `milliamperes`", kind.config.milliamperes, MOST_POWER)
    check_interfaces(kind, name)
    check_endpoints(kind, name)
    check_methods(kind, name)


def check_interfaces(kind: Any, name: str) -> None:
    """The interfaces of a `config`."""
    setting, number = 0, -1
    if len(kind.config.interfaces) > MOST_INTERFACES:
        raise ValueError(f"{name}: config has at most {MOST_INTERFACES} interfaces, and not {len(kind.config.interfaces)}")
    for it in kind.config.interfaces:
        whole(f"{name}: config: `setting`", it.setting, MOST_SETTING)
        expected = setting + 1 if it.setting else 0
        number += not it.setting
        where = f"{name}: config: interface {max(number, 0)}"
        if it.setting != expected or number < 0:
            raise ValueError(f"{where}: settings are 0, 1, .. behind each other, and setting {it.setting} stands behind {setting}")
        setting = it.setting
        for field, value in (("class_", it.kind), ("subclass", it.subclass), ("protocol", it.protocol)):
            whole(f"{where}: `{field}`", value, 0xFF)
        if not isinstance(it.name, str) or len(it.name.encode("utf-16-le")) > 2 * descriptors.MOST_UNITS:
            raise TypeError(f"{where}: `name` is a str of at most {descriptors.MOST_UNITS} units of UTF-16, and not {it.name!r}")
        if not isinstance(it.functional, bytes):
            raise TypeError(f"{where}: `functional` is bytes, whole descriptors, and not {it.functional!r}")
        check_functional(where, it.functional)


def check_functional(where: str, raw: bytes) -> None:
    """Descriptors behind each other: the first byte of each is its length."""
    at = 0
    while at < len(raw):
        if raw[at] < 2 or at + raw[at] > len(raw):
            raise ValueError(f"{where}: `functional`: the descriptor at byte {at} says that it has {raw[at]} bytes, and {len(raw) - at} "
                             "are there: its first byte is its length")
        at += raw[at]


def check_endpoints(kind: Any, name: str) -> None:
    """The endpoints of a `config`."""
    seen = set()
    for it in kind.config.endpoints:
        if it.address in seen:
            raise ValueError(f"{name}: config has endpoint {it} twice: each address is there once")
        seen.add(it.address)
    bare = object.__new__(kind)
    for it in [*kind.config.endpoints, *(one for part in kind.config.interfaces for one in part.endpoints)]:
        descriptors.size_of(bare, it)


def check_methods(kind: Any, name: str) -> None:
    """Each method whose name is an endpoint's answers one that is there."""
    has = [it.name for it in sorted(kind.endpoints.values(), key=lambda it: int(it.address))]
    for method in dict.fromkeys(method for base in kind.__mro__ for method in vars(base) if METHOD.fullmatch(method)):
        if method not in has and callable(getattr(kind, method)):
            raise ValueError(f"{name}: the method {method} answers no endpoint: those that are there are answered by "
                             f"{', '.join(has) or 'no method'}")
