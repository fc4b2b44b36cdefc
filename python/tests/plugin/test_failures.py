"""What fails a test, and what its report says: by the rules of docs/PYTHON.md."""
import os
import pathlib
import re
import shutil
import sys
from typing import Any, List

import pytest

from tirnouch.sources import USBTRACE, place_of

WRONG = """
    @pytest.mark.tirnouch(Meter, seeds=range(1, 6))
    def test_asks(bus, tirnouch_seed):
        for turn in range(tirnouch_seed):
            driver.ask(1)
        assert tirnouch_seed not in (3, 5)
    """


def section(result: Any) -> List[str]:
    """The lines of the first section `tirnouch` of a report."""
    lines: List[str] = result.outlines
    first = next(at for at, line in enumerate(lines) if re.fullmatch("-+ tirnouch -+", line))
    last = next(at for at in range(first + 1, len(lines)) if re.match("(-{5}|_{5}|={5})", lines[at]))
    return lines[first + 1 : last]


def test_an_exception_of_a_device_fails_a_test_that_passes_else(run: Any) -> None:
    result = run("""
        class Buggy(Meter):
            def in_81(self, room):
                raise KeyError("a bug of the device")

        @pytest.mark.tirnouch(Buggy)
        def test_asks(bus):
            with pytest.raises(driver.Error, match="Pipe"):
                driver.ask(1)
        """)
    result.assert_outcomes(failed=1)
    result.stdout.fnmatch_lines(['>*raise KeyError("a bug of the device")', "E*KeyError: 'a bug of the device'"])
    assert "Buggy: an exception at `in 81 64`, which was answered by a stall" in section(result)


def test_an_exception_of_a_device_stands_before_the_tests_own(run: Any) -> None:
    result = run("""
        class Buggy(Meter):
            def in_81(self, room):
                return "42"

        @pytest.mark.tirnouch(Buggy)
        def test_asks(bus):
            driver.ask(1)
        """)
    result.assert_outcomes(failed=1)
    result.stdout.fnmatch_lines(["E*TypeError: Buggy.in_81 returned '42': return bytes*", "*direct cause of the following exception*",
                                 "E*driver.Error:*"])


def test_the_section_of_a_failing_test(run: Any) -> None:
    result = run("""
        @pytest.mark.tirnouch(Meter, seed=4)
        def test_asks(bus, tmp_path):
            assert driver.ask(21) == 43
        """)
    result.assert_outcomes(failed=1)
    lines = section(result)
    assert lines[0] == "seed 4"
    python, again = lines[1].partition("play it again: ")[2].split(" ", 1)
    assert again == "-m pytest test_it.py::test_asks --tirnouch-seed 4"
    assert os.path.samefile(str(shutil.which(python)), sys.executable)
    # The answer, as the trace of the device's core has it (docs/DEVICES.md)
    assert "    feed 0 81 d:2a" in lines
    trace = next(pathlib.Path(it.partition(": ")[2]) for it in lines if it.startswith("its trace: "))
    assert "feed 0 81 d:2a\n" in trace.read_text()
    assert trace.parent.name.startswith("test_asks")
    if place_of(USBTRACE):
        page = next(pathlib.Path(it.partition(": ")[2]) for it in lines if it.startswith("its picture: "))
        assert page.read_text().startswith("<!DOCTYPE html>")


def test_the_section_tells_which_faults_happened(run: Any) -> None:
    result = run("""
        @pytest.mark.tirnouch(Meter, time="virtual")
        def test_asks(bus):
            bus[0].at(0x81, 1).fail(t.STALL)
            bus[0].at(0x81, 7).fail(t.BROKEN)
            bus[0].at_control(0x80, 8, n=0).delay(20)
            assert driver.ask(21) == 42
            driver.ask(21)
        """)
    result.assert_outcomes(failed=1)
    assert [it for it in section(result) if it.startswith("fault: ")] == ["fault: device 0, Meter: packet 1 at 81: STALL"]


def test_the_words_that_play_it_again_do(run: Any) -> None:
    result = run(WRONG)
    words = next(it for it in section(result) if it.startswith("play it again: ")).partition("pytest ")[2].strip("'")
    assert words == "test_it.py::test_asks[seed3]"
    again = run(WRONG, words)
    again.assert_outcomes(failed=1)


def test_the_summary_names_the_seed_of_the_fewest_steps(run: Any) -> None:
    result = run(WRONG)
    result.assert_outcomes(passed=3, failed=2)
    result.stdout.fnmatch_lines(["*= tirnouch =*", "test_it.py::test_asks[[]seed[*][]]: 2 seeds fail: 3, 5",
                                 "*the fewest steps, *, has seed 3: * -m pytest 'test_it.py::test_asks[[]seed3[]]'"])


def test_a_passing_test_has_no_section(run: Any) -> None:
    result = run("""
        @pytest.mark.tirnouch(Meter)
        def test_asks(bus):
            assert driver.ask(21) == 42
        """, "-rA")
    result.assert_outcomes(passed=1)
    result.stdout.no_fnmatch_line("*tirnouch --*")


def test_what_is_in_flight_is_told(run: Any) -> None:
    """docs/C.md has the sentence: a transfer, and why it isn't finished."""
    pytest.importorskip("usb1")
    result = run("""
        @pytest.mark.tirnouch(Meter)
        def test_leaves_a_read(bus):
            usb1 = pytest.importorskip("usb1")
            with usb1.USBContext() as context:
                meter = context.openByVendorIDAndProductID(0x1209, 0x4d31)
                with meter.claimInterface(0):
                    read = meter.getTransfer()
                    read.setBulk(0x81, 8)
                    read.submit()
                    try:
                        assert bus.left() == []
                    finally:
                        read.cancel()
                        while read.isSubmitted():
                            context.handleEvents()
                meter.close()
        """)
    result.assert_outcomes(failed=1)
    result.stdout.fnmatch_lines(["E*the transfer of 8 bytes at 81 is in flight*"])


def test_a_driver_that_writes_something_else_fails_by_the_text(run: Any) -> None:
    """The text expects 15, and that comes in the first test alone."""
    result = run("""
        TEXT = t.text(open("it.txt").read())

        @pytest.mark.tirnouch(TEXT)
        def test_right(bus):
            assert driver.ask(0x15) == 0x2a

        @pytest.mark.tirnouch(TEXT)
        def test_wrong(bus):
            assert driver.ask(0x16) == 0x2a

        @pytest.mark.tirnouch(t.text(open("it.txt").read(), lenient=True))
        def test_lenient(bus):
            assert driver.ask(0x16) == 0x2a

        @pytest.mark.tirnouch(TEXT)
        def test_nothing(bus):
            pass
        """)
    result.assert_outcomes(passed=2, failed=2)
    result.stdout.fnmatch_lines(["*device 0, endpoint 02: packet 1 differs at offset 0: came [[]16[]] (length 1), expected [[]15[]] *",
                                 "*device 0, endpoint 02: 1 expected packet never came; the first is packet 1: expected 15 (length 1)"])
