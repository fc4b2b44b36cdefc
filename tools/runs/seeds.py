"""The program's runs with many seeds, several at a time. Each has a folder of its own for its trace and its output."""
import argparse
import os
import pathlib
import shutil
import signal
import subprocess
import threading
import time
from typing import Dict, List, NamedTuple, Optional, Sequence, Set

from judged import Judgement
from program import GRACE, OVER, SLACK, program_environment, signal_group
from traces import steps_of


class Outcome(NamedTuple):
    """How the run of a seed ended: `failure` is None where all is well; `steps` tells runs apart."""

    seed: int
    failure: Optional[str]
    steps: bytes


class Seeds:
    """The program's runs, one with each seed."""

    def __init__(self, words: argparse.Namespace, program: Sequence[str], folder: pathlib.Path) -> None:
        self.words, self.program, self.folder = words, program, folder
        self.environment = program_environment()
        self.next_seed = words.first
        self.outcomes: List[Outcome] = []
        self.running: Dict[int, "subprocess.Popen[bytes]"] = {}
        self.dropped: Set[int] = set()
        self.fault: Optional[BaseException] = None
        self.lock = threading.Lock()

    def lowest_failure(self) -> Optional[int]:
        return min((it.seed for it in self.outcomes if it.failure), default=None)

    def at(self, seed: int) -> pathlib.Path:
        return self.folder / str(seed)

    def begin(self) -> Optional[int]:
        """Begins the next run; none where there is no more, or one failed and that is enough."""
        with self.lock:
            seed = self.next_seed
            if seed > self.words.last or self.fault or (self.lowest_failure() is not None and not self.words.keep_going):
                return None
            self.next_seed += 1
            self.at(seed).mkdir()
            more = {b"TIRNOUCH_SEED": b"%d" % seed, b"TIRNOUCH_TRACE": os.fsencode(self.at(seed) / "trace"),
                    **Judgement(self.at(seed)).environment()}
            with (self.at(seed) / "output").open("wb") as output:
                self.running[seed] = subprocess.Popen(self.program, env={**self.environment, **more}, stdin=subprocess.DEVNULL,
                                                      stdout=output, stderr=subprocess.STDOUT, start_new_session=True)
            return seed

    def wait(self, seed: int) -> Outcome:
        process, limit, began = self.running[seed], self.words.limit, time.monotonic()
        try:
            status: Optional[int] = process.wait(int(limit[1]) / 1000 + SLACK if limit else None)
        except subprocess.TimeoutExpired:
            status = None
            signal_group(process.pid, signal.SIGTERM)
            try:
                process.wait(GRACE)
            except subprocess.TimeoutExpired:
                pass
        # What it left behind goes too.
        signal_group(process.pid, signal.SIGKILL)
        process.wait()
        if limit and status == OVER and time.monotonic() - began >= int(limit[1]) / 1000:
            status = None  # the library ended it
        failure = f"it didn't end within {limit[0]}" if limit and status is None else failure_of(status or 0)
        if not self.words.lenient:
            failure = failure or Judgement(self.at(seed)).failure()
        return Outcome(seed, failure, steps_of(self.at(seed)))

    def finish(self, outcome: Outcome) -> None:
        """Keeps the outcome. Behind the first failure the runs of higher seeds are of no use."""
        with self.lock:
            del self.running[outcome.seed]
            if outcome.seed in self.dropped:
                shutil.rmtree(self.at(outcome.seed), ignore_errors=True)
                return
            self.outcomes.append(outcome)
            if not outcome.failure:
                shutil.rmtree(self.at(outcome.seed), ignore_errors=True)
            elif not self.words.keep_going:
                self.drop(self.lowest_failure() or 0)

    def drop(self, above: int) -> None:
        """Ends the runs of higher seeds."""
        for seed, process in self.running.items():
            if seed > above:
                self.dropped.add(seed)
                signal_group(process.pid, signal.SIGKILL)

    def work(self) -> None:
        try:
            while True:
                seed = self.begin()
                if seed is None:
                    return
                self.finish(self.wait(seed))
        except BaseException as fault:  # the main thread tells it
            with self.lock:
                self.fault = self.fault or fault
                self.drop(0)

    def run(self) -> None:
        count = min(self.words.jobs or len(os.sched_getaffinity(0)), self.words.last - self.words.first + 1)
        threads = [threading.Thread(target=self.work, daemon=True) for _ in range(count)]
        for thread in threads:
            thread.start()
        try:
            for thread in threads:
                thread.join()
        except BaseException:
            with self.lock:
                self.next_seed = self.words.last + 1
                self.drop(0)
            for thread in threads:
                thread.join(GRACE)
            raise
        if self.fault:
            raise self.fault


def failure_of(status: int) -> Optional[str]:
    """What is wrong with how a run ended by itself."""
    if status < 0:
        return f"signal {-status} ({signal_name(-status)})"
    return f"status {status}" if status else None


def signal_name(number: int) -> str:
    try:
        return signal.Signals(number).name
    except ValueError:
        return "a real-time one"
