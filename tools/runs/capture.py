"""The events of a capture of usbmon, and a pcap file of them (pcap-savefile(5); Linux's usbmon.rst)."""
import struct
from typing import Iterable, Iterator, Optional

from event import CONTROL, Event

# The bytes before an event's data, by the link type.
HEADS = {220: 64, 189: 48}
MOST_DATA = 262144
HEADER = struct.pack("<IHHiIII", 0xA1B2C3D4, 2, 4, 0, 0, HEADS[220] + MOST_DATA, 220)
ORDERS = {b"\xd4\xc3\xb2\xa1": "<", b"\x4d\x3c\xb2\xa1": "<", b"\xa1\xb2\xc3\xd4": ">", b"\xa1\xb2\x3c\x4d": ">"}


def event_of(packet: bytes, order: str, head: int) -> Optional[Event]:
    """None where the packet is no event of a transfer."""
    if len(packet) < head:
        return None
    fields = struct.unpack_from(order + "QBBBBHBBqiiII", packet)
    number, kind, type_, ep, device, bus, no_setup, _, seconds, micro, status, length, kept = fields
    flags = struct.unpack_from(order + "I", packet, 56)[0] if head == 64 else 0
    if kind not in b"SCE" or type_ > 3:
        return None
    setup = packet[40:48] if type_ == CONTROL and kind == ord("S") and not no_setup else None
    data = packet[head:head + kept]
    return Event(number, chr(kind), type_, ep, device, bus, seconds, micro, status, length, setup, flags, data)


def events_of(data: bytes) -> Iterator[Event]:
    """The events of a pcap file, as far as it is whole; none where it isn't a capture of usbmon."""
    order = ORDERS.get(data[:4])
    head = HEADS.get(struct.unpack_from(order + "I", data, 20)[0] & 0xFFFFFFF, 0) if order and len(data) >= 24 else 0
    at = 24
    while order and head and at + 16 <= len(data):
        (kept,) = struct.unpack_from(order + "I", data, at + 8)
        if at + 16 + kept > len(data):
            return
        found = event_of(data[at + 16:at + 16 + kept], order, head)
        if found:
            yield found
        at += 16 + kept


def record(it: Event) -> bytes:
    no_setup = 0 if it.setup is not None else ord("-")
    is_in = it.ep & 0x80
    mark = ord("<") if it.kind == "S" and is_in else ord(">") if it.kind == "C" and not is_in else 0
    head = struct.pack("<QBBBBHBBqiiII8siiII", it.id, ord(it.kind), it.type, it.ep, it.device, it.bus, no_setup, mark, it.seconds,
                       it.microseconds, it.status, it.length, len(it.data), it.setup or bytes(8), 0, 0, it.flags, 0)
    size = len(head) + len(it.data)
    return struct.pack("<IIII", it.seconds & 0xFFFFFFFF, it.microseconds & 0xFFFFFFFF, size, size) + head + it.data


def pcap(events: Iterable[Event]) -> bytes:
    return HEADER + b"".join(map(record, events))
