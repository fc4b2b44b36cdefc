"""Buses of a test's own, over the library itself: what libusb's manual says of each error is what a driver is told."""
from __future__ import annotations

import pathlib
from typing import Any, Iterator, List

import pytest

import tirnouch as t
from tests.libusb import NO_DEVICE, PIPE, TIMEOUT, Program

IO = -1


class Meter(t.Device):
    """It answers each packet by its double."""

    ids = (0x1209, 0x4D31)
    config = t.config(t.bulk_out(0x02, 64), t.bulk_in(0x81, 64))
    asked: Any = None
    plugged = 0

    def out_02(self, packet: bytes) -> Any:
        self.asked = packet
        return t.ACK

    def in_81(self, _room: int) -> Any:
        if self.asked is None:
            return t.NAK
        answer, self.asked = bytes((2 * self.asked[0],)), None
        return t.after(30, answer)

    def control(self, setup: t.Request, _data: bytes) -> Any:
        return b"PM-1" if setup.type == 0xC0 else t.DEFAULT

    def on_plugged(self) -> None:
        self.plugged += 1


class Loader(t.Device):
    """It leaves when it has taken a firmware."""

    ids = (0x1209, 0x0008)
    config = t.config(t.bulk_out(0x02, 64))

    def out_02(self, packet: bytes) -> Any:
        return t.GONE if packet == b"end" else t.ACK


@pytest.fixture
def program(bus: t.Bus) -> Iterator[Program]:
    """A program with a context of its own, which it closes."""
    it = Program()
    yield it
    it.end()


def ask(program: Program, value: int) -> Any:
    """What the meter answers; the status where that fails."""
    status = program.write(0x02, bytes((value,)), 1000)
    return status if status < 0 else program.read(0x81, 64, 1000)


@pytest.mark.parametrize("kind, status", [(t.STALL, PIPE), (t.BROKEN, IO), (t.SILENT, TIMEOUT), (t.UNPLUG, NO_DEVICE)])
@pytest.mark.tirnouch(Meter, time="virtual")
def test_a_fault_at_the_second_packet(bus: t.Bus, program: Program, kind: Any, status: int) -> None:
    assert program.open(0x1209, 0x4D31)
    bus[0].at(0x81, 1).fail(kind)
    assert [ask(program, 1), ask(program, 2)] == [b"\x02", status]
    bus[0].replug()
    assert ask(program, 3) == NO_DEVICE
    assert program.open(0x1209, 0x4D31)
    assert ask(program, 4) == b"\x08"
    assert bus.left() == []


@pytest.mark.tirnouch(Meter, time="virtual")
def test_time_passes_by_itself_and_by_a_call(bus: t.Bus, program: Program) -> None:
    assert program.open(0x1209, 0x4D31)
    assert ask(program, 1) == b"\x02"
    assert bus.now() == 30
    bus[0].at(0x81, 1).delay(400)
    assert ask(program, 1) == b"\x02"
    assert bus.now() == 460
    bus.advance(40)
    assert bus.now() == 500


class Sender(t.Device):
    """Its method sends what is read, and returns nothing."""

    ids = (0x1209, 0x4D31)
    config = t.config(t.bulk_in(0x81, 64))

    def in_81(self, _room: int) -> None:
        self.send(0x81, b"sent")


@pytest.mark.tirnouch(Sender, time="virtual")
def test_what_an_asked_method_sends_is_read_at_once(bus: t.Bus, program: Program) -> None:
    assert program.open(0x1209, 0x4D31)
    assert (program.read(0x81, 64, 1000), bus.now()) == (b"sent", 0)


@pytest.mark.tirnouch(Meter, time="virtual")
def test_requests_that_fail(bus: t.Bus, program: Program) -> None:
    assert program.open(0x1209, 0x4D31)
    bus[0].at_control(0xC0, 1, n=1).fail(t.STALL)
    bus[0].at_control(0xC0, 1, n=2).delay(700)
    before = bus.now()
    assert [program.control(0xC0, 1, 0, 0, 8) for _ in range(3)] == [b"PM-1", PIPE, b"PM-1"]
    assert bus.now() - before == 700


@pytest.mark.tirnouch(Meter, seeds=[1, 2, 3], time="virtual")
def test_a_rate_is_played_again_by_its_seed(bus: t.Bus, program: Program, tirnouch_seed: int) -> None:
    assert program.open(0x1209, 0x4D31)
    bus[0].rate(0x81, 0.5).fail(t.STALL)
    got: List[bool] = []
    for value in range(20):
        got.append(ask(program, value) == PIPE)
        program.clear_halt(0x81)
        while got[-1] and program.read(0x81, 64, 1000) == PIPE:
            program.clear_halt(0x81)
    SEEN.setdefault(tirnouch_seed, got)
    assert SEEN[tirnouch_seed] == got
    assert len(set(map(tuple, SEEN.values()))) == len(SEEN)
    assert 2 <= sum(got) <= 18


SEEN: Any = {}


@pytest.mark.tirnouch(Meter, time="virtual")
def test_it_is_unplugged_and_plugged_in(bus: t.Bus, program: Program) -> None:
    assert program.open(0x1209, 0x4D31)
    bus[0].unplug()
    assert ask(program, 1) == NO_DEVICE
    assert not program.open(0x1209, 0x4D31)
    with pytest.raises(RuntimeError, match="device 0, Meter: unplug: it is gone"):
        bus[0].unplug()
    bus[0].plug()
    assert program.open(0x1209, 0x4D31)
    assert ask(program, 1) == b"\x02"
    with pytest.raises(RuntimeError, match="device 0, Meter: plug: there is none to do that with"):
        bus[0].plug()
    assert isinstance(bus[0].device, Meter) and bus[0].device.plugged == 1


@pytest.mark.tirnouch(t.becomes(Loader, Meter))
def test_a_loader_comes_back_as_a_meter(bus: t.Bus, program: Program) -> None:
    assert not program.open(0x1209, 0x4D31)
    assert program.open(0x1209, 0x0008)
    assert [program.write(0x02, b"firmware"), program.write(0x02, b"end")] == [8, NO_DEVICE]
    assert not program.open(0x1209, 0x0008)
    assert program.open(0x1209, 0x4D31)
    assert ask(program, 1) == b"\x02"


@pytest.mark.tirnouch(t.becomes(Loader, Meter))
def test_a_test_makes_the_loader_come_back(bus: t.Bus, program: Program) -> None:
    with pytest.raises(ValueError, match=r"doesn't come back as Loader: .* becomes\(Loader\(\), Loader\(\)\)"):
        bus[0].replug(Loader())
    with pytest.raises(ValueError, match=r"device 1, Meter, doesn't come back as Loader"):
        bus[1].replug(Loader)
    bus[0].replug(Meter)
    assert not program.open(0x1209, 0x0008)
    assert program.open(0x1209, 0x4D31)
    assert ask(program, 1) == b"\x02"


@pytest.mark.tirnouch(Meter, Loader)
def test_what_devices_were_sent(bus: t.Bus, program: Program) -> None:
    assert program.open(0x1209, 0x0008)
    assert program.write(0x02, b"firmware") == 8
    assert bus.took(0x02, 0, 1) == bus[1].took(0x02) == b"firmware"
    with pytest.raises(IndexError, match="device 1 took no packet 1 at 02"):
        bus[1].took(0x02, 1)
    program.open(0x1209, 0x4D31)
    program.control(0x40, 5, 6, 7, b"ab")
    assert bus[0].requests()[-1][:10] == bytes.fromhex("4005060007000200") + b"ab"


def test_each_bus_has_a_loader_of_its_own() -> None:
    source = t.becomes(Loader, Meter())
    with t.bus(source) as bus:
        first = [it.device for it in bus]
    with t.bus(source) as bus:
        second = [it.device for it in bus]
    assert (first[0] is second[0], first[1] is second[1]) == (False, True)


def test_what_was_silent_or_late_in_a_bus_isnt_in_the_next() -> None:
    device = Meter()
    for kind in (t.SILENT, t.STALL):
        with t.bus(device, time="virtual") as bus:
            program = Program()
            try:
                assert program.open(0x1209, 0x4D31)
                assert ask(program, 1) == b"\x02"
                bus[0].at(0x81, 1).fail(kind)
                assert ask(program, 1) in (TIMEOUT, PIPE)
                device.asked = None
            finally:
                program.end()
        device.discard(0x81)


def test_a_limit_is_over_in_a_with() -> None:
    """Also where the program was told of the devices' end, and raises an error of its own."""
    for error in (None, ValueError("no device")):
        with pytest.raises(t.LimitOver, match="the limit of 100 ms is over; .*the transfer of 64 bytes at 81 is in flight"):
            with t.bus(Meter, limit="100ms"):
                program = Program()
                try:
                    assert program.open(0x1209, 0x4D31)
                    assert program.read(0x81, 64, 0) == NO_DEVICE
                    if error:
                        raise error
                finally:
                    program.end()


def test_a_bus_without_pytests_fixture() -> None:
    with t.bus(Meter(), seed=3, time="virtual") as bus:
        program = Program()
        try:
            assert program.open(0x1209, 0x4D31)
            assert ask(program, 4) == b"\x08"
        finally:
            program.end()
        assert (len(bus), bus.seed) == (1, 3)
    program = Program()
    try:
        assert not program.open(0x1209, 0x4D31)
    finally:
        program.end()


def test_a_trace_in_memory_is_that_of_the_file(tmp_path: pathlib.Path) -> None:
    """The lines that docs/FORMATS.md has for a device and a read. A device's methods may ask for it, too."""
    class Asking(Meter):
        seen = 0

        def in_81(self, room: int) -> Any:
            self.seen = len(bus.trace())
            assert bus.now() == 0 and bus.left()
            with pytest.raises(RuntimeError, match="advance isn't called from a method"):
                bus.advance(1)
            return b"\x08"

    found = []
    for trace in (True, tmp_path / "trace"):
        device = Asking()
        with t.bus(device, trace=trace, time="virtual") as bus:
            program = Program()
            try:
                assert program.open(0x1209, 0x4D31)
                assert program.read(0x81, 64, 1000) == b"\x08"
            finally:
                program.end()
        found.append(bus.trace())
        assert (device.seen > 0) == (trace is True)
    assert any(it.startswith("submit ") and " 81 bulk 64 " in it for it in found[0])
    assert found[1] == []
    files = sorted(tmp_path.glob("trace*"))
    assert [it for it in found[0] if not it.startswith("# file ")] == [line for it in files for line in it.read_text().splitlines()]


def test_behind_with_an_exception_of_a_device_is_raised() -> None:
    class Buggy(Meter):
        def in_81(self, _room: int) -> Any:
            raise KeyError("a bug of the device")

    with pytest.raises(KeyError, match="a bug of the device"):
        with t.bus(Buggy):
            program = Program()
            try:
                assert program.open(0x1209, 0x4D31)
                assert ask(program, 4) == PIPE
            finally:
                program.end()
    with pytest.raises(AssertionError) as failed:
        with t.bus(Buggy):
            program = Program()
            try:
                assert program.open(0x1209, 0x4D31)
                raise AssertionError(ask(program, 4))
            finally:
                program.end()
    assert isinstance(failed.value.__cause__, KeyError)


def test_what_a_bus_refuses_leaves_none() -> None:
    device = Meter()
    wrong = Meter()
    wrong.lines = [("speed", "fast")]
    refused: Any = (((5,), {}, TypeError, "a bus takes devices"), ((device, device), {}, ValueError, "each device once"),
                    (tuple(Meter() for _ in range(17)), {}, ValueError, "at most 16 devices"), ((), {"seed": -1}, ValueError, "a seed is"),
                    ((), {"time": "slow"}, ValueError, "time is"), ((), {"limit": "x"}, ValueError, "a limit is"),
                    ((), {"limit": 0}, ValueError, "a limit is"), ((wrong,), {}, t.LibraryError, "\"fast\""),
                    ((), {"library": "libc.so.6"}, t.LibraryError, "isn't Tirnouch's"),
                    ((device,), {"trace": "/nowhere/trace"}, t.LibraryError, "/nowhere/trace"))
    for words, named, error, sentence in refused:
        with pytest.raises(error, match=sentence):
            t.bus(*words, **named)
    with t.bus(device) as bus:
        assert len(bus) == 1
        with pytest.raises(IndexError, match="the bus has no device 1: <device 0: Meter>"):
            bus[1].unplug()
        with pytest.raises(t.LibraryError, match="there is a bus already"):
            t.bus(Meter())
        with pytest.raises(ValueError, match="Meter is in a bus already"):
            t.bus(device)


def test_many_buses_of_one_device_keep_nothing() -> None:
    """The functions that the library calls are used again."""
    from tirnouch import inprocess
    device = Meter()
    for _ in range(3):
        with t.bus(device):
            pass
    free = len(inprocess.FREE)
    for _ in range(20):
        with t.bus(device):
            assert len(inprocess.FREE) == free - 1
    assert len(inprocess.FREE) == free


class Modem(t.Device):
    """Interface 0 has a further setting without endpoints, interface 1 one with."""

    ids = (0x1209, 0x0006)
    config = t.config(t.interface(t.bulk_in(0x81), class_=2, name="line"), t.interface(setting=1), t.interface(class_=10),
                      t.interface(t.bulk_in(0x82), class_=10, setting=1))

    def in_81(self, _room: int) -> bytes:
        return b"line"


@pytest.mark.tirnouch(Modem)
def test_settings_are_those_of_the_library(bus: t.Bus, program: Program) -> None:
    """docs/DEVICES.md, what doesn't fit: a setting that has endpoints, other than 0, is LIBUSB_ERROR_NOT_SUPPORTED."""
    assert program.open(0x1209, 0x0006)
    assert program.call("claim_interface", program.handle, 1) == 0
    assert program.call("set_interface_alt_setting", program.handle, 0, 1) == 0
    assert program.call("set_interface_alt_setting", program.handle, 0, 0) == 0
    assert program.call("set_interface_alt_setting", program.handle, 1, 1) == -12
    assert program.read(0x81) == b"line"
    assert program.control(0x80, 6, 0x0304, 0x0409, 64) == b"\x0a\x03" + "line".encode("utf-16-le")
