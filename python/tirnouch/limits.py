"""The limit of a test: when it is over, all devices are pulled out, so that whoever waits for one goes on, and the test fails. The process
goes on.

A thread waits for it. Where the library's lock isn't free for a second, some device's method doesn't return: nothing is pulled out then.
Whoever goes on for a moment behind that is interrupted by an exception, also in a sleep where it is the main thread."""
from __future__ import annotations

import ctypes
import re
import signal
import threading
from typing import TYPE_CHECKING, Any, Callable, List, Optional


from tirnouch.device import ASKING

if TYPE_CHECKING:
    from tirnouch.buses import Bus

FORM = re.compile(r"([0-9]+(?:\.[0-9]+)?)(ms|s|m)")
UNITS = {"ms": 1, "s": 1000, "m": 60_000}
MOST = (1 << 31) - 1
# How long the lock is waited for, and a test that has lost its devices, in seconds.
PATIENCE, GRACE = 1.0, 0.5


class LimitOver(BaseException):
    """The limit is over. It isn't an Exception, so that a driver that catches those and tries again doesn't go on for ever."""


def milliseconds_of(limit: Any) -> Optional[int]:
    """A limit as "500ms", "10s" or "2m"; a number is seconds; None is none."""
    if limit is None:
        return None
    found = FORM.fullmatch(limit) if isinstance(limit, str) else None
    value: Any = float(found[1]) * UNITS[found[2]] if found else limit * 1000 if isinstance(limit, (int, float)) else None
    if isinstance(limit, bool) or value is None or not 1 <= value <= MOST:
        raise ValueError(f"a limit is \"500ms\", \"10s\" or \"2m\", or a number of seconds, at most 24 days, and not {limit!r}")
    return int(value)


class Limit:
    """The limit of a bus, of this many milliseconds. It watches the thread that makes it."""

    def __init__(self, bus: Bus, milliseconds: int) -> None:
        self.bus, self.milliseconds = bus, milliseconds
        self.told = ""
        self.thread = threading.get_ident()
        self.over = threading.Event()
        self.lock = threading.Lock()
        self.calls: List[threading.Thread] = []
        self.previous: Any = None
        if threading.current_thread() is threading.main_thread() and signal.getsignal(signal.SIGALRM) is signal.SIG_DFL:
            self.previous = signal.signal(signal.SIGALRM, self._interrupted)
        threading.Thread(target=self._wait, name="tirnouch-limit", daemon=True).start()

    def stop(self) -> None:
        """It isn't watched any more. A call that pulls a device out is waited for, within the patience: else it would meet the next bus."""
        with self.lock:
            self.over.set()
        for it in list(self.calls):
            it.join(PATIENCE)
        if self.previous is not None:
            signal.pthread_sigmask(signal.SIG_BLOCK, {signal.SIGALRM})
            signal.sigtimedwait({signal.SIGALRM}, 0)    # an interrupt that comes too late
            signal.signal(signal.SIGALRM, self.previous)
            signal.pthread_sigmask(signal.SIG_UNBLOCK, {signal.SIGALRM})
            self.previous = None

    def _interrupted(self, _number: int, _frame: Any) -> None:
        __tracebackhide__ = True
        if self.told and not self.over.is_set():
            raise LimitOver(self.told)

    def _wait(self) -> None:
        if self.over.wait(self.milliseconds / 1000):
            return
        left: List[str] = []
        has_lock = self._in_time(lambda: left.extend(self.bus.left()))
        what = "the devices were pulled out; " + ("in flight: " + "; ".join(left) if left else "nothing was in flight: the test waited for "
                                                   "something else")
        if not has_lock:
            asked = "; ".join(list(ASKING.values()))
            what = f"a method doesn't return: {asked}" if asked else "a call of the library doesn't return"
        with self.lock:
            if self.over.is_set():
                return
            self.told = f"the limit of {self.milliseconds} ms is over; {what}"
        while not self.over.is_set():
            if self._in_time(self._pull) and self.over.wait(GRACE):
                return
            self._interrupt()

    def _pull(self) -> None:
        for it in self.bus.ports:
            if not self.over.is_set():
                self.bus.library.c.tirnouch_pull(it.number)

    def _in_time(self, call: Callable[[], None]) -> bool:
        """Whether a call of the library returns within the patience; a thread of its own waits for the rest."""
        done = threading.Event()

        def work() -> None:
            call()
            done.set()

        with self.lock:
            if self.over.is_set():
                return False
            self.calls.append(threading.Thread(target=work, name="tirnouch-limit-call", daemon=True))
            self.calls[-1].start()
        return done.wait(PATIENCE)

    def _interrupt(self) -> None:
        with self.lock:
            if self.over.is_set():
                return
            if self.previous is not None:
                signal.pthread_kill(self.thread, signal.SIGALRM)
            else:
                ctypes.pythonapi.PyThreadState_SetAsyncExc(ctypes.c_ulong(self.thread), ctypes.py_object(LimitOver))
