"""What a device says of itself: its configuration descriptor (USB 2.0, 9.6), and its lines of a text of devices (docs/DEVICES.md)."""
from __future__ import annotations

import re
from typing import TYPE_CHECKING, Iterator, NamedTuple, Sequence, Tuple

from tirnouch.endpoints import BULK, INTERRUPT, KINDS, Endpoint, whole

if TYPE_CHECKING:
    from tirnouch.device import Device

CONFIGURATION, INTERFACE, ENDPOINT, HID, REPORT = 2, 4, 5, 0x21, 0x22
# The packets of bulk and interrupt endpoints, where nothing else is said, and at most (USB 2.0, 5.7.3 and 5.8.3).
SIZES = {"high": {BULK: 512, INTERRUPT: 64}, "full": {BULK: 64, INTERRUPT: 64}, "low": {INTERRUPT: 8}}
MOST_SIZES = {"high": 1024, "full": 64, "low": 8}
MOST_UNITS = 126
# Text that a line has as it is; other text is written by its units of UTF-16.
PLAIN = re.compile(r"(?!u:)[!-~]+( [!-~]+)*")


class Interface(NamedTuple):
    """An interface: its class, subclass and protocol, its name, and the descriptors that stand behind its own. With a setting but 0 it is a
    further one of the interface before it, with these endpoints: a descriptor alone, which no program can choose where it has endpoints."""

    kind: int
    subclass: int
    protocol: int
    name: str = ""
    functional: bytes = b""
    setting: int = 0
    endpoints: Tuple[Endpoint, ...] = ()


def interfaces_of(device: Device) -> list[Interface]:
    """The interfaces, of which a plain tuple of three numbers is one, too."""
    found = []
    for it in device.interfaces:
        if not isinstance(it, tuple) or not (3 <= len(it) <= 5 or isinstance(it, Interface)):
            raise TypeError(f"{device}: an interface is (class, subclass, protocol) or an Interface, and not {it!r}")
        made = Interface(*it)
        for what, value in zip(("class", "subclass", "protocol"), made):
            whole(f"{device}: the {what} of an interface", value, 0xFF)
        if not isinstance(made.name, str) or not isinstance(made.functional, bytes):
            raise TypeError(f"{device}: an Interface has a name, a str, and its functional descriptors, bytes")
        found.append(made)
    if not found:
        raise ValueError(f"{device}: a device has at least one interface; `interfaces` is empty")
    return found


def size_of(device: Device, endpoint: Endpoint) -> int:
    """The size of an endpoint's packets."""
    if device.speed not in SIZES:
        raise ValueError(f"{device}: the speed is low, full or high, and not {device.speed!r}")
    if endpoint.kind not in SIZES[device.speed]:
        raise ValueError(f"{device}: a {device.speed} speed device has no {KINDS[endpoint.kind]} endpoint, and {endpoint} is one")
    size = endpoint.size or SIZES[device.speed][endpoint.kind]
    if size > MOST_SIZES[device.speed]:
        raise ValueError(f"{device}: a {device.speed} speed device has packets of at most {MOST_SIZES[device.speed]} bytes, and {endpoint} "
                         f"has {size}")
    return size


def endpoints_of(device: Device, number: int) -> list[Endpoint]:
    """The endpoints of an interface, by their addresses."""
    return [it for _, it in sorted(device.endpoints.items()) if it.interface == number]


def endpoint_bytes(device: Device, endpoint: Endpoint) -> bytes:
    """An endpoint descriptor (USB 2.0, 9.6.6)."""
    size = size_of(device, endpoint).to_bytes(2, "little")
    return bytes((7, ENDPOINT, endpoint.address, endpoint.kind, *size, endpoint.interval))


def strings_of(device: Device) -> Sequence[str]:
    """Those of `strings`, of which the first three may have been given by their names: by the class, or as a str by the device."""
    names = ("manufacturer", "product_name", "serial")
    said = [(vars(device).get(name), getattr(type(device), name, None)) for name in names]
    own = [mine if isinstance(mine, str) else all_ if isinstance(all_, str) else None for mine, all_ in said]
    if isinstance(device.strings, str) or own == [None, None, None]:
        return device.strings
    first = [*device.strings, "", "", ""][: max(3, len(device.strings))]
    return [*(given if given is not None else it for it, given in zip(first, own)), *first[3:]]


def named(device: Device) -> Iterator[Tuple[int, str]]:
    """The string descriptors: those of `strings`, from 1 on, and behind them, from 4 on, the names of interfaces."""
    if isinstance(device.strings, str):
        raise TypeError(f"{device}: `strings` is a tuple, as (\"Works\", \"Echo\", \"S1\"), and not a str")
    names = [it.name for it in interfaces_of(device) if it.name]
    strings = strings_of(device)
    for number, text in [*enumerate(strings, 1), *enumerate(names, max(4, len(strings) + 1))]:
        if not isinstance(text, str):
            raise TypeError(f"{device}: string {number} is a str, and not {text!r}")
        if len(text.encode("utf-16-le")) > 2 * MOST_UNITS:
            raise ValueError(f"{device}: string {number} has more than {MOST_UNITS} units of UTF-16")
        if text:
            yield number, text


def configuration(device: Device) -> bytes:
    """The configuration descriptor, with those of interfaces and endpoints behind it (USB 2.0, 9.6.3, 9.6.5 and 9.6.6)."""
    interfaces = interfaces_of(device)
    lost = [str(it) for it in device.endpoints.values() if it.interface >= len(interfaces)]
    if lost:
        raise ValueError(f"{device}: endpoint {', '.join(lost)} is of an interface that `interfaces` doesn't have")
    body, name, number = b"", max(4, len(strings_of(device)) + 1), -1
    for place, it in enumerate(interfaces):
        number += not it.setting
        own = it.endpoints if it.setting else endpoints_of(device, place)
        text = name if it.name else 0
        body += bytes((9, INTERFACE, number, it.setting, len(own), it.kind, it.subclass, it.protocol, text)) + it.functional
        body += b"".join(endpoint_bytes(device, endpoint) for endpoint in own)
        name += bool(it.name)
    attributes = whole(f"{device}: `attributes`", device.attributes, 0xFF)
    power = whole(f"{device}: `milliamperes`", device.milliamperes, 500) // 2
    return bytes((9, CONFIGURATION, *(9 + len(body)).to_bytes(2, "little"), number + 1, 1, 0, attributes, power)) + body


def text_word(text: str) -> str:
    """A string's text, as a `string` line has it."""
    return text if PLAIN.fullmatch(text) else f"u:{text.encode('utf-16-le').hex()}"


def further(device: Device) -> Iterator[Sequence[str]]:
    """The device's own lines."""
    for it in device.lines:
        if isinstance(it, str) or not all(isinstance(word, str) and word and not re.search(r"[\r\n]", word) for word in it):
            form = 'a tuple of words without the device\'s number, as ("driver", "0")'
            raise TypeError(f"{device}: a line of `lines` is {form}, and not {it!r}")
        yield it


def statements(device: Device) -> Iterator[Sequence[str]]:
    """The words of its lines, without its number."""
    yield "device", device.configuration().hex()
    ids = [whole(f"{device}: `{name}`", getattr(device, name), 0xFFFF) for name in ("vendor", "product", "release")]
    yield "ids", *(f"{it:04x}" for it in ids)
    yield "speed", device.speed
    if any(device.device_class):
        yield "class", *(f"{whole(f'{device}: a number of `device_class`', it, 0xFF):02x}" for it in device.device_class)
    for number, text in named(device):
        yield "string", str(number), text_word(text)
    yield from further(device)


def text(device: Device, number: int = 0) -> str:
    """Its lines, as a text of devices has them where it has this number."""
    return "".join(" ".join((first, str(number), *words)) + "\n" for first, *words in statements(device))


def hid_descriptor(report: bytes, country: int = 0) -> bytes:
    """The HID descriptor, which stands behind that of its interface, for a report descriptor (HID 1.11, 6.2.1). The report descriptor
    itself answers GET_DESCRIPTOR: @control(0x81, 0x06, 0x2200)."""
    if not isinstance(report, bytes):
        raise TypeError(f"a report descriptor is bytes, and not {type(report).__name__}")
    return bytes((9, HID, 0x11, 0x01, whole("the country", country, 0xFF), 1, REPORT)) + len(report).to_bytes(2, "little")
