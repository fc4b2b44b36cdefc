"""Devices of a text, a file and a recording in one bus with a class: docs/DEVICES.md has the lines, docs/CAPTURES.md the captures."""
from __future__ import annotations

import importlib
import pathlib
import struct
import sys
from typing import Any, Iterator, List

import pytest

import tirnouch as t
from tests.libusb import NO_DEVICE, PIPE, TIMEOUT, Program
from tirnouch.sources import RUNS, USBTRACE, place_of

TEXT = """\
# two devices
device 0 0902200001010080320904000002ff0000000705810240000007050202400000
ids 0 1209 0002
script 0 02 a:10
script 0 81 n d:01 d:02 d:03
after 0 81 3 02 1
device 1 09021900010100803209040000 01ff0000000705810240000000
""".replace("040000 01", "04000001").replace("40000000\n", "400000\n")
COUNTER = """\
program 0 sh counter.sh
"""
SCRIPT = """\
while read -r kind first second; do
    case $kind in
    hello) echo "device $first 0902200001010080320904000002ff0000000705810240000007050202400000"; echo "ids $first 1209 000a"; echo ok ;;
    in) echo "d:$(cat answer)" ;;
    out) echo a ;;
    control) echo t ;;
    esac
done
"""


class Echo(t.Device):
    """It sends back what it took."""

    ids = (0x1209, 0x0020)
    config = t.config(t.bulk_out(0x02), t.bulk_in(0x81))

    def out_02(self, packet: bytes) -> None:
        self.send(0x81, packet)


@pytest.fixture
def program() -> Iterator[Program]:
    """A program, which closes its context before its bus ends."""
    made: List[Program] = []

    class Later:
        """It opens its context when it is used first: behind the bus's beginning."""

        def __getattr__(self, name: str) -> Any:
            if not made:
                made.append(Program())
            return getattr(made[0], name)

        def close_all(self) -> None:
            for it in made:
                it.end()
            made.clear()

    it: Any = Later()
    yield it
    it.close_all()


def reads(program: Any, count: int) -> List[Any]:
    """What is read at 81, and the statuses; halts are ended."""
    found = []
    for _ in range(count):
        found.append(program.read(0x81, 64, 100))
        if found[-1] == PIPE:
            program.clear_halt(0x81)
    return found


def test_numbers_are_those_of_the_places_in_the_bus(program: Any) -> None:
    """The text's devices are 1 and 2, behind a class; a second text's is 3."""
    with t.bus(Echo, t.text(TEXT, lenient=True), t.text("device 0 0902120001010080320904000000ff000000\nids 0 1209 0003\n")) as bus:
        assert [it.device is None for it in bus] == [False, True, True, True]
        assert program.open(0x1209, 0x0020)
        assert program.write(0x02, b"abc") == 3
        assert program.read(0x81) == b"abc"
        assert program.open(0x1209, 0x0002)
        assert program.write(0x02, b"\x10") == 1
        assert bus[1].took(0x02) == b"\x10"
        assert reads(program, 3) == [b"\1", b"\2", b"\3"]
        assert program.open(0x1209, 0x0003)
        program.close_all()


@pytest.mark.parametrize("kind, expected", [(t.STALL, [b"\1", PIPE, b"\2", b"\3"]), (t.BROKEN, [b"\1", -1, b"\2", b"\3"]),
                                            (t.UNPLUG, [b"\1", NO_DEVICE, NO_DEVICE, NO_DEVICE]),
                                            (t.SILENT, [b"\1", TIMEOUT, TIMEOUT, TIMEOUT])])
def test_a_fault_is_placed_into_the_script(program: Any, kind: Any, expected: List[Any]) -> None:
    """Before the second packet, which comes behind it: the line `after` counts one answer more."""
    source = t.text(TEXT, lenient=True)
    with t.bus(source.at(0x81, 1).fail(kind), time="virtual"):
        assert program.open(0x1209, 0x0002)
        assert program.write(0x02, b"\x10") == 1
        assert reads(program, 4) == expected
        program.close_all()
    if kind is t.STALL:
        assert [it for it in source.at(0x81, 1).fail(kind).lines if " 81 " in it] == ["script 0 81 n d:01 s d:02 d:03", "after 0 81 4 02 1"]
        assert "script 0 81 n d:01 d:02 d:03" in source.lines


@pytest.mark.parametrize("kind, expected", [(t.STALL, ["after 0 83 0 81 1", "after 0 83 1 81 3"]), (t.SILENT, ["after 0 83 0 81 1"]),
                                            (t.UNPLUG, ["after 0 83 0 81 1", "after 0 83 1 81 2"])])
def test_what_another_endpoint_waits_for(kind: Any, expected: List[str]) -> None:
    """Of the answers at 81 there is one more before the second, or that isn't there any more, and nothing waits for it."""
    device = "device 0 0902200001010080320904000002ff0000000705810240000007058302400000"
    source = t.text(f"{device}\nscript 0 81 d:01 d:02\nscript 0 83 d:0a d:0b\nafter 0 83 0 81 1\nafter 0 83 1 81 2\n")
    assert [line for line in source.at(0x81, 1).fail(kind).lines if line.startswith("after")] == expected


def test_faults_that_cant_be_placed() -> None:
    source = t.text(TEXT)
    refused: Any = ((lambda: source.at(0x81, 3).fail(t.STALL), "has 3 packets, and none of index 3"),
                    (lambda: source.at(0x83, 0).fail(t.STALL), "device 0 has no script of 83"),
                    (lambda: source.at(0x81, 0, 1).fail(t.STALL), "device 1 has no script of 81"),
                    (lambda: source.at(0x81, 0).fail(t.UNPLUG).at(0x81, 1).fail(t.UNPLUG), "leaves already"))
    for call, sentence in refused:
        with pytest.raises(t.SourceError, match=sentence):
            call()
    with pytest.raises(TypeError, match="a fault is"):
        source.at(0x81, 0).fail(t.NAK)


def test_a_file_and_its_program(program: Any, tmp_path: pathlib.Path) -> None:
    """The program runs in the folder of its file."""
    folder = tmp_path / "a folder"
    folder.mkdir()
    for name, text in (("counter.txt", COUNTER), ("counter.sh", SCRIPT), ("answer", "2a")):
        (folder / name).write_text(text)
    with t.bus(Echo, t.file(folder / "counter.txt")):
        assert program.open(0x1209, 0x000A)
        assert program.read(0x81) == b"\x2a"
        program.close_all()


def test_what_isnt_a_source(tmp_path: pathlib.Path) -> None:
    (tmp_path / "x.pcap").write_bytes(b"\xd4\xc3\xb2\xa1")
    refused: Any = ((lambda: t.text(5), TypeError, "as a str"),  # type: ignore[arg-type]
                    (lambda: t.text("# nothing\n"), t.SourceError, "the text has no device"),
                    (lambda: t.file(tmp_path / "none.txt"), OSError, "none.txt"),
                    (lambda: t.file(tmp_path / "x.pcap"), t.SourceError, r"recorded\("),
                    (lambda: t.recorded(tmp_path / "none.pcap"), t.SourceError, "there is no file .*none.pcap"),
                    (lambda: t.recorded(tmp_path / "x.pcap", device="meter"), t.SourceError, "as \"1209:0002\""),
                    (lambda: t.recorded(tmp_path / "x.pcap", umockdev="a", descriptors="b"), t.SourceError, "say one of"),
                    (lambda: t.becomes(Echo, 5), TypeError, "becomes takes two devices or more, .* not 5"))
    for call, error, sentence in refused:
        with pytest.raises(error, match=sentence):
            call()
    (tmp_path / "wrong.txt").write_text("# a comment\ndevice 0 0902\n")
    with pytest.raises(t.LibraryError, match="^the text, line 1, word 3"):
        t.bus(Echo, t.text("device 0 0902\n"))
    with pytest.raises(t.LibraryError, match="^.*/wrong.txt, line 2, word 3"):
        t.bus(Echo, Echo, t.file(tmp_path / "wrong.txt"))


def descriptor_read(other: Any, number: int, value: int, data: bytes) -> List[Any]:
    """The events of a request for a descriptor, with this id, of another event's device (USB 2.0, 9.4.3; Linux's usbmon.rst)."""
    setup = struct.pack("<BBHHH", 0x80, 6, value, 0, len(data))
    sent = other._replace(id=number, type=2, ep=0x80, microseconds=0, length=len(data), setup=setup, flags=0x200, data=b"")
    return [sent, sent._replace(kind="C", status=0, setup=None, data=data)]


@pytest.fixture
def capture(tmp_path: pathlib.Path) -> pathlib.Path:
    """A recording of a device: the packet 10 was written, and 2a was read (Linux's usbmon.rst)."""
    if not place_of(USBTRACE):
        pytest.skip("there is no bin/usbtrace: build it by `make run`")
    sys.path.insert(0, str(place_of(RUNS)))
    try:
        capture_of: Any = importlib.import_module("capture")
    finally:
        sys.path.pop(0)
    device = bytes.fromhex("120100020000004009120200000100000001")
    configuration = bytes.fromhex("0902200001010080320904000002ff0000000705810240000007050202400000")
    written = capture_of.Event(1, "S", 3, 0x02, 5, 1, 0, 0, -115, 1, None, 0, b"\x10", 1)
    read = capture_of.Event(2, "S", 3, 0x81, 5, 1, 0, 2, -115, 64, None, 0x200, b"", 3)
    events = [*descriptor_read(written, 8, 0x0100, device), *descriptor_read(written, 9, 0x0200, configuration), written,
              written._replace(kind="C", status=0, data=b"", microseconds=1), read,
              read._replace(kind="C", status=0, length=1, data=b"\x2a", microseconds=3)]
    path = tmp_path / "meter.pcap"
    path.write_bytes(capture_of.pcap(events))
    return path


def test_a_recording_answers_and_judges(program: Any, capture: pathlib.Path) -> None:
    def run(value: bytes, **named: Any) -> Any:
        with t.bus(Echo, t.recorded(capture, **named), time="virtual"):
            assert program.open(0x1209, 0x0002)
            assert program.write(0x02, value) == 1
            got = program.read(0x81, 64, 100)
            program.close_all()
            return got

    assert run(b"\x10") == b"\x2a"
    assert run(b"\x10", device="1209:0002") == b"\x2a"
    with pytest.raises(t.Differs, match=r"device 1, endpoint 02: packet 1 differs at offset 0: came \[11\] \(length 1\), expected \[10\]"):
        run(b"\x11")
    assert run(b"\x11", lenient=True) == b"\x2a"
    with pytest.raises(t.SourceError, match="has no device 1209:0009; it has bus 1 device 5"):
        t.recorded(capture, device="1209:0009")


def test_a_wrong_driver_fails_by_a_recording(run: Any, capture: pathlib.Path) -> None:
    result = run(f"""
        @pytest.mark.parametrize("value", [0x10, 0x11])
        @pytest.mark.tirnouch(t.recorded({str(capture)!r}))
        def test_asks(bus, value):
            import usb.core, usb.util
            meter = usb.core.find(idVendor=0x1209, idProduct=0x0002)
            meter.write(0x02, bytes([value]))
            assert bytes(meter.read(0x81, 64)) == b"\\x2a"
            usb.util.dispose_resources(meter)
        """)
    result.assert_outcomes(passed=1, failed=1)
    result.stdout.fnmatch_lines(["*device 0, endpoint 02: packet 1 differs at offset 0: came [[]11[]] (length 1), expected [[]10[]] *"])
