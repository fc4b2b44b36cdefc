"""A test that hangs fails by itself, and the tests behind it run."""
import threading
import time
from types import SimpleNamespace
from typing import Any, List

import pytest

from tirnouch.limits import PATIENCE, Limit, LimitOver

HANGS = {
    "a read that is never answered": ("driver.ask(1, 0)", "in flight: the transfer of 64 bytes at 81 is in flight"),
    "a driver that tries again for ever": ("""
            while True:
                try: driver.ask(1, 20)
                except Exception: pass""", "the limit of 200 ms is over"),
    "a sleep": ("time.sleep(60)", "nothing was in flight: the test waited for something else"),
}


def test_a_test_that_hangs_fails(run: Any) -> None:
    for what, (body, sentence) in HANGS.items():
        began = time.monotonic()
        result = run(f"""
        class Silent(Meter):
            def in_81(self, room):
                return t.SILENT

        @pytest.mark.tirnouch(Silent, limit="200ms")
        def test_hangs(bus):
            {body}

        @pytest.mark.tirnouch(Meter, limit="20s")
        def test_goes_on(bus):
            assert driver.ask(21) == 42
        """)
        result.assert_outcomes(passed=1, failed=1)
        result.stdout.fnmatch_lines([f"E*LimitOver: *the limit of 200 ms is over*{sentence if 'limit' not in sentence else ''}*"])
        assert time.monotonic() - began < 15, what


def test_a_device_that_doesnt_return(run: Any) -> None:
    result = run("""
        class Loops(Meter):
            def in_81(self, room):
                while True:
                    pass

        @pytest.mark.tirnouch(Loops, limit="200ms")
        def test_hangs(bus):
            driver.ask(1)

        @pytest.mark.tirnouch(Meter, limit="20s")
        def test_goes_on(bus):
            assert driver.ask(21) == 42
        """)
    result.assert_outcomes(passed=1, failed=1)
    result.stdout.fnmatch_lines(["E*the limit of 200 ms is over; a method doesn't return: Loops at `in 81 64`"])


def test_a_device_is_pulled_out_of_its_own_bus() -> None:
    """Also where the library's lock isn't free until the test has ended: nothing is pulled out once the limit isn't watched any more."""
    free, began, ended = threading.Event(), [], []

    def pull(number: int) -> None:
        began.append(number)
        assert free.wait(10)
        ended.append(number)

    left: List[str] = []
    bus: Any = SimpleNamespace(ports=[SimpleNamespace(number=0), SimpleNamespace(number=1)], left=lambda: left,
                               library=SimpleNamespace(c=SimpleNamespace(tirnouch_pull=pull)))
    limit = Limit(bus, 10)
    with pytest.raises(LimitOver):
        time.sleep(60)
    threading.Timer(PATIENCE / 4, free.set).start()
    limit.stop()
    assert began and began == ended, "the next bus would lose a device"
    time.sleep(2 * PATIENCE)
    assert 1 not in began and began == ended


def test_a_test_within_its_limit_passes(run: Any) -> None:
    """Also where it ends a moment before, and where another one's time is over behind it."""
    result = run("""
        @pytest.mark.parametrize("turn", range(20))
        @pytest.mark.tirnouch(Meter, limit="2s")
        def test_in_time(bus, turn):
            assert driver.ask(21) == 42

        def test_later():
            time.sleep(2.2)
        """)
    result.assert_outcomes(passed=21)


def test_a_limit_is_over_that_the_test_doesnt_feel(run: Any) -> None:
    """The driver takes the error of a device that was pulled out, and the test would pass."""
    result = run("""
        @pytest.mark.tirnouch(lambda: Silent(), limit="100ms")
        def test_hangs(bus):
            with pytest.raises(driver.Error):
                driver.ask(1, 0)

        class Silent(Meter):
            def in_81(self, room):
                return t.SILENT
        """)
    result.assert_outcomes(failed=1)
    result.stdout.fnmatch_lines(["*the limit of 100 ms is over*"])
