"""Report descriptors of HID devices (HID 1.11, 6.2.2): those of keyboards, mice and vendors' own reports are made here, and each one says
how long its reports are."""
from __future__ import annotations

from typing import Dict, Iterator, List, Tuple

from tirnouch.endpoints import whole

# The kinds of reports, as GET_REPORT and SET_REPORT number them (7.2.1), and the tags of their items (6.2.2.4).
INPUT, OUTPUT, FEATURE = 1, 2, 3
NAMES = {INPUT: "input", OUTPUT: "output", FEATURE: "feature"}
MAIN = {0x80: INPUT, 0x90: OUTPUT, 0xB0: FEATURE}
BEGIN, END = 0xA0, 0xC0
# The tags of global items (6.2.2.7), and the first byte of a long item (6.2.2.3).
SIZE, ID, COUNT, PUSH, POP, LONG = 0x74, 0x84, 0x94, 0xA4, 0xB4, 0xFE
MOST_REPORT = 4095

# Appendix E.6, and the application "mouse" of E.10, each as far as its collection begins, and from there on.
KEYBOARD = bytes.fromhex("05010906a101"), bytes.fromhex("050719e029e71500250175019508810295017508810195057501050819012905910295017503910195"
                                                        "067508150025650507190029658100c0")
MOUSE = bytes.fromhex("05010902a101"), bytes.fromhex("0901a100050919012903150025019503750181029501750581010501093009311581257f75089502"
                                                     "8106c0c0")


def items(descriptor: bytes) -> Iterator[Tuple[int, int, int]]:
    """The items: the byte at which each begins, its tag and type, and its value. ValueError where the last one is cut."""
    at = 0
    while at < len(descriptor):
        head = descriptor[at]
        if head == LONG:
            begin, size = at + 3, descriptor[at + 1] if at + 1 < len(descriptor) else 0
        else:
            begin, size = at + 1, (0, 1, 2, 4)[head & 3]
        if begin + size > len(descriptor):
            raise ValueError(f"item {head:02x} at byte {at} isn't whole: {begin + size - len(descriptor)} more bytes belong to it")
        yield at, head & 0xFC, int.from_bytes(descriptor[begin : begin + size], "little")
        at = begin + size


class Reader:
    """What is read of a report descriptor: the bits of each report."""

    def __init__(self) -> None:
        self.bits: Dict[Tuple[int, int], int] = {}
        self.fields = {SIZE: 0, COUNT: 0, ID: 0}
        self.kept: List[Dict[int, int]] = []
        self.depth = 0

    def read(self, at: int, tag: int, value: int) -> None:
        """An item. ValueError where it can't stand there."""
        if tag == ID and not 1 <= value <= 0xFF:
            raise ValueError(f"the report id at byte {at} is 1 to 255, and not {value}")
        if tag in self.fields:
            self.fields[tag] = value
        elif tag in (BEGIN, END):
            self.nest(at, 1 if tag == BEGIN else -1)
        elif tag == PUSH:
            self.kept.append(dict(self.fields))
        elif tag == POP:
            if not self.kept:
                raise ValueError(f"Pop at byte {at} has no Push before it")
            self.fields = self.kept.pop()
        elif tag in MAIN:
            self.field(at, MAIN[tag])

    def nest(self, at: int, step: int) -> None:
        """A collection begins or ends."""
        self.depth += step
        if self.depth < 0:
            raise ValueError(f"the end at byte {at} ends no collection")

    def field(self, at: int, kind: int) -> None:
        """Fields of a report."""
        if not self.depth:
            raise ValueError(f"the item of an {NAMES[kind]} report at byte {at} stands in no collection")
        report = kind, self.fields[ID]
        self.bits[report] = self.bits.get(report, 0) + self.fields[SIZE] * self.fields[COUNT]


def sizes(descriptor: bytes) -> Dict[Tuple[int, int], int]:
    """The bytes of each report without its id, by its kind and its id; 0 is the id where reports have none. ValueError where the descriptor
    isn't one, or has no report."""
    reader = Reader()
    for item in items(descriptor):
        reader.read(*item)
    if reader.depth:
        raise ValueError("a collection has no end: c0 stands there")
    found = {report: (bits + 7) // 8 for report, bits in reader.bits.items() if bits}
    if not found:
        raise ValueError("it has no report: items 81, 91 and b1 make them")
    ids = {number for _, number in found}
    if 0 in ids and len(ids) > 1:
        raise ValueError("some reports have an id and others none: an item 85 stands before the first report (6.2.2.7)")
    return found


def id_item(report_id: int) -> bytes:
    """The item of a report's id; none for 0."""
    return bytes((0x85, report_id)) if whole("a report's id", report_id, 0xFF) else b""


def keyboard(report_id: int = 0) -> bytes:
    """The report descriptor of a keyboard (appendix E.6): an input report of 8 bytes has modifiers, a byte of zeros, and 6 keys; an output
    report of 1 byte has the 5 lights."""
    return KEYBOARD[0] + id_item(report_id) + KEYBOARD[1]


def mouse(report_id: int = 0) -> bytes:
    """The report descriptor of a mouse (appendix E.10): an input report of 3 bytes has the buttons, and the way along X and Y."""
    return MOUSE[0] + id_item(report_id) + MOUSE[1]


# pylint: disable-next=redefined-builtin
def vendor(input: int = 0, output: int = 0, feature: int = 0, report_id: int = 0, page: int = 0xFF00) -> bytes:
    """The report descriptor of a vendor's own reports, of so many bytes each, 0 to 4,095; 0 is none. `page` is the usage page, FF00 to
    FFFF. Several stand behind each other, each with an id of its own: vendor(8, report_id=1) + vendor(feature=4, report_id=2)."""
    lengths = {0x80: whole("`input`", input, MOST_REPORT), 0x90: whole("`output`", output, MOST_REPORT),
               0xB0: whole("`feature`", feature, MOST_REPORT)}
    if not any(lengths.values()):
        raise ValueError("vendor takes the bytes of a report, as vendor(input=8, output=8)")
    body = bytes((0x06, *whole("`page`", page, 0xFFFF, 0xFF00).to_bytes(2, "little"), 0x09, 1, 0xA1, 1)) + id_item(report_id)
    body += bytes.fromhex("150026ff007508")
    for usage, (tag, length) in enumerate(lengths.items(), 2):
        if length:
            body += bytes((0x09, usage, COUNT | 2, *length.to_bytes(2, "little"), tag | 1, 0x02))
    return body + b"\xc0"
