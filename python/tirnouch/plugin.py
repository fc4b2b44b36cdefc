"""The plugin of pytest: the marker `tirnouch`, the fixture `bus`, and what a failing test is told.

    @pytest.mark.tirnouch(Meter, seeds=range(1, 201), time="virtual", limit="10s")
    def test_reads(bus): ..

The library is loaded when pytest begins, before any test imports a package that asks for libusb: all libusb of the process is Tirnouch's
then. `-p no:tirnouch.plugin` leaves that out."""
from __future__ import annotations

import contextlib
import os
import pathlib
from typing import Any, Dict, Generator, Iterator, List, NamedTuple, Tuple

import pytest

from tirnouch import buses, failures
from tirnouch.buses import Bus, because
from tirnouch.library import LibraryError, load
from tirnouch.limits import LimitOver

WORDS = ("seeds", "seed", "time", "limit", "library")
FORM = ("@pytest.mark.tirnouch(Meter, seeds=range(1, 101), time=\"virtual\", limit=\"10s\"): devices, and seeds=, seed=, time=, limit= or "
        "library=")


class Marked(NamedTuple):
    """What the markers of a test say: the devices of all of them, and each word of the nearest one that has it."""

    devices: Tuple[Any, ...]
    words: Dict[str, Any]


def marked(node: Any) -> Marked:
    """The markers of a test, those of its class and its module among them."""
    devices: List[Any] = []
    words: Dict[str, Any] = {}
    for mark in reversed(list(node.iter_markers("tirnouch"))):
        wrong = [it for it in mark.kwargs if it not in WORDS]
        if wrong:
            raise pytest.UsageError(f"{node.nodeid}: the marker tirnouch has no word {wrong[0]}; its form is {FORM}")
        devices += mark.args
        words.update(mark.kwargs)
    return Marked(tuple(devices), words)


def pytest_addoption(parser: pytest.Parser) -> None:
    """--tirnouch-seed"""
    group = parser.getgroup("tirnouch", "USB devices of Tirnouch")
    group.addoption("--tirnouch-seed", type=int, default=None, metavar="N", help="run the tests that have seeds with this one alone")


def pytest_configure(config: pytest.Config) -> None:
    """The marker is known, and the library is loaded; where there is none, the fixture says so."""
    config.addinivalue_line("markers", "tirnouch(*devices, seeds=, seed=, time=, limit=): the devices of the fixture bus: classes or "
                                       "objects of tirnouch.Device, text(..), file(..), recorded(..), becomes(..)")
    failures.DRAWN_OF.clear()
    seed = config.getoption("--tirnouch-seed")
    if seed is not None and not 0 <= seed <= buses.MOST_SEED:
        raise pytest.UsageError(f"--tirnouch-seed {seed}: a seed is a whole number, 0 for none, to {buses.MOST_SEED}")
    with contextlib.suppress(LibraryError):
        load()


def pytest_generate_tests(metafunc: pytest.Metafunc) -> None:
    """A test is an item for each seed."""
    words = marked(metafunc.definition).words
    if "seeds" not in words or "tirnouch_seed" not in metafunc.fixturenames:
        return
    if "seed" in words:
        raise pytest.UsageError(f"{metafunc.definition.nodeid}: seed= and seeds=: say one of them")
    seeds = list(words["seeds"])
    wrong = next((it for it in seeds if isinstance(it, bool) or not isinstance(it, int) or not 0 <= it <= buses.MOST_SEED), None)
    if wrong is not None or not seeds:
        raise pytest.UsageError(f"{metafunc.definition.nodeid}: seeds are whole numbers, as range(1, 101), and not "
                                f"{repr(wrong) if seeds else 'none at all'}")
    chosen = metafunc.config.getoption("--tirnouch-seed")
    metafunc.parametrize("tirnouch_seed", seeds if chosen is None else [chosen], ids=lambda seed: f"seed{seed}")


@pytest.fixture
def tirnouch_seed(request: pytest.FixtureRequest) -> int:
    """The seed of the test's run, 0 for none."""
    chosen = request.config.getoption("--tirnouch-seed")
    return int(marked(request.node).words.get("seed", 0) if chosen is None else chosen)


@pytest.fixture(scope="session")
def tirnouch_traces(tmp_path_factory: pytest.TempPathFactory) -> pathlib.Path:
    """The folder of the traces of this process: the last test's, and those of tests that failed."""
    return tmp_path_factory.mktemp("tirnouch")


@pytest.fixture
def bus(request: pytest.FixtureRequest, tirnouch_seed: int, tirnouch_traces: pathlib.Path,
        monkeypatch: pytest.MonkeyPatch) -> Iterator[Bus]:
    """The bus of the marker's devices, by their numbers bus[0], bus[1], ..; without devices it is an empty one. The library tells on
    standard error why a transfer doesn't end, unless LIBUSB_DEBUG says how much it tells."""
    __tracebackhide__ = True
    devices, words = marked(request.node)
    if "LIBUSB_DEBUG" not in os.environ:
        monkeypatch.setenv("LIBUSB_DEBUG", "2")
    run = failures.Run(request.node, tirnouch_seed, tirnouch_traces)
    request.node.stash[RUN] = run
    run.bus = buses.bus(*devices, seed=tirnouch_seed, time=words.get("time", "real"), trace=run.trace, limit=words.get("limit"),
                        library=words.get("library"))
    try:
        yield run.bus
    finally:
        run.end()


RUN = pytest.StashKey[failures.Run]()


@pytest.hookimpl(hookwrapper=True)
def pytest_runtest_call(item: pytest.Item) -> Generator[None, Any, None]:
    """A device's exception, the limit, and what differs fail the test that is otherwise passed."""
    outcome = yield
    run = item.stash.get(RUN, None)
    if run is None or run.bus is None or run.bus.is_open is False:
        return
    error = outcome.excinfo[1] if outcome.excinfo else None
    verdict = run.judge(error)
    if verdict is None:
        return
    if isinstance(verdict, LimitOver) and error is not None:
        force(outcome, verdict.with_traceback(error.__traceback__))
    elif error is None:
        force(outcome, verdict if isinstance(verdict, Exception) and verdict.__traceback__ else pytest.fail.Exception(str(verdict), False))
    elif not isinstance(error, pytest.skip.Exception):
        because(error, verdict)


def force(outcome: Any, verdict: BaseException) -> None:
    """The outcome of a hook is this exception, also for pluggy before 1.1, which has no call for it."""
    if hasattr(outcome, "force_exception"):
        outcome.force_exception(verdict)
    else:
        outcome._result, outcome._excinfo = None, (type(verdict), verdict, verdict.__traceback__)


@pytest.hookimpl(hookwrapper=True)
def pytest_runtest_makereport(item: pytest.Item, call: pytest.CallInfo[None]) -> Generator[None, Any, None]:
    """A failing test's report has a section `tirnouch`."""
    outcome = yield
    report = outcome.get_result()
    run = item.stash.get(RUN, None)
    if run is None or not report.failed or run.bus is None:
        return
    with contextlib.suppress(LibraryError):
        report.sections.append(("tirnouch", run.section(item)))
        report.tirnouch = run.record()


def pytest_terminal_summary(terminalreporter: Any) -> None:
    """Of tests with seeds: which seed fails in the fewest steps."""
    records = [it.tirnouch for it in terminalreporter.stats.get("failed", []) if getattr(it, "tirnouch", None)]
    lines = failures.summary(records)
    if lines:
        terminalreporter.section("tirnouch")
        for it in lines:
            terminalreporter.write_line(it)


