"""A capture of ours in the other forms that `usbtrace devices` reads: pcap of the other byte order, of nanoseconds, or with headers of 48
bytes; pcapng, with its packets in blocks of three kinds; and those of Windows' recorder."""
import struct
from typing import Callable, NamedTuple

from windows import NO_TRANSFER, Windows

FILE_HEADER, RECORD_HEADER = 24, 16
# The fields of usbmon's 48 bytes, and of the 16 behind them; setup data are bytes in either order.
FIELDS, MORE_FIELDS = "QBBBBHBBqiiII8s", "iiII"
MAPPED, SHORT_HEADER, USBPCAP, ETHERNET = 220, 189, 249, 1
# A type of block for local use, which nobody knows. Wireshark counts a Custom Block (0x0BAD) as a packet.
LOCAL_BLOCK = 0x8000_0BAD
# In some forms a packet that is no transfer's stands before each packet of ours that has such a number; packets are counted from 1 on.
OTHERS_BEFORE = 10


class Form(NamedTuple):
    """How a capture of ours is written in a form, and what the form says of it."""

    written: Callable[[bytes], bytes]
    has_flags: bool = True
    # Whether it says how much a read asks for, and how much of a write moved.
    has_lengths: bool = True
    has_others: bool = False

    def __call__(self, capture: bytes) -> bytes:
        return self.written(capture)

    def frame(self, number: int) -> int:
        """The number of a packet of ours among all, as Wireshark counts them; its number among ours is given. Both are from 1 on."""
        return number + (number // OTHERS_BEFORE if self.has_others else 0)


def records(capture):
    """The records of a capture: seconds, microseconds, the packet."""
    at = FILE_HEADER
    while at < len(capture):
        seconds, microseconds, size = struct.unpack_from("<III", capture, at)
        yield seconds, microseconds, capture[at + RECORD_HEADER : at + RECORD_HEADER + size]
        at += RECORD_HEADER + size


def packet_in(order, packet, is_short=False):
    """A packet in this byte order, perhaps with the short header."""
    head = struct.pack(order + FIELDS, *struct.unpack_from("<" + FIELDS, packet))
    more = b"" if is_short else struct.pack(order + MORE_FIELDS, *struct.unpack_from("<" + MORE_FIELDS, packet, 48))
    return head + more + packet[64:]


def pcap_header(order, magic, link):
    return struct.pack(order + "IHHiIII", magic, 2, 4, 0, 0, 262_208, link)


def record(order, seconds, fraction, data):
    return struct.pack(order + "IIII", seconds, fraction, len(data), len(data)) + data


def pcap(capture, order="<", magic=0xA1B2C3D4, is_short=False):
    out = [pcap_header(order, magic, SHORT_HEADER if is_short else MAPPED)]
    out += [record(order, seconds, fraction, packet_in(order, packet, is_short)) for seconds, fraction, packet in records(capture)]
    return b"".join(out)


def windows_pcap(capture, order="<"):
    """The order is that of the file's own numbers, and not of the packets'."""
    out, windows = [pcap_header(order, 0xA1B2C3D4, USBPCAP)], Windows()
    for number, (seconds, fraction, packet) in enumerate(records(capture), 1):
        if number % OTHERS_BEFORE == 0:
            out.append(record(order, seconds, fraction, NO_TRANSFER))
        out.append(record(order, seconds, fraction, windows.packet(packet)))
    return b"".join(out)


def block(order, kind, body):
    body += bytes(-len(body) % 4)
    return struct.pack(order + "II", kind, len(body) + 12) + body + struct.pack(order + "I", len(body) + 12)


def packet_block(order, number, microseconds, data, interface=0):
    """A packet in an Enhanced Packet Block, a Packet Block or, of interface 0, a Simple Packet Block, by its number."""
    high, low = microseconds >> 32, microseconds & 0xFFFFFFFF
    if number % 3 == 0:
        return block(order, 6, struct.pack(order + "IIIII", interface, high, low, len(data), len(data)) + data)
    if number % 3 == 1 or interface:
        return block(order, 2, struct.pack(order + "HHIIII", interface, 0, high, low, len(data), len(data)) + data)
    return block(order, 3, struct.pack(order + "I", len(data)) + data)


def pcapng_of(packets, link, order="<"):
    """A section of these packets, with their interface and a network's; packets of that one and blocks that nobody knows stand between."""
    section = block(order, 0x0A0D0D0A, struct.pack(order + "IHHq", 0x1A2B3C4D, 1, 0, -1))
    out = [section, *(block(order, 1, struct.pack(order + "HHI", it, 0, 0)) for it in (link, ETHERNET))]
    for number, (seconds, microseconds, data) in enumerate(packets, 1):
        time = 1_000_000 * seconds + microseconds
        if number % OTHERS_BEFORE == 0:
            out += [block(order, LOCAL_BLOCK, b"nobody knows"), packet_block(order, number // OTHERS_BEFORE, time, data, 1)]
        out.append(packet_block(order, number, time, data))
    return b"".join(out)


def pcapng(capture, order="<"):
    packets = ((seconds, microseconds, packet_in(order, packet)) for seconds, microseconds, packet in records(capture))
    return pcapng_of(packets, MAPPED, order)


def windows_pcapng(capture):
    windows = Windows()
    packets = ((seconds, microseconds, windows.packet(packet)) for seconds, microseconds, packet in records(capture))
    return pcapng_of(packets, USBPCAP)


FORMS = {
    "pcap": Form(lambda it: it),
    "pcap, big endian": Form(lambda it: pcap(it, ">")),
    "pcap of nanoseconds": Form(lambda it: pcap(it, "<", 0xA1B23C4D)),
    "pcap with headers of 48 bytes": Form(lambda it: pcap(it, ">", 0xA1B23C4D, True), has_flags=False),
    "pcapng": Form(pcapng, has_others=True),
    "pcapng, big endian": Form(lambda it: pcapng(it, ">"), has_others=True),
    "pcap of Windows": Form(windows_pcap, has_flags=False, has_lengths=False, has_others=True),
    "pcap of Windows, big endian": Form(lambda it: windows_pcap(it, ">"), has_flags=False, has_lengths=False, has_others=True),
    "pcapng of Windows": Form(windows_pcapng, has_flags=False, has_lengths=False, has_others=True),
}
