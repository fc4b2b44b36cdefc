"""The processor time of the prover's processes, crate by crate and by kind of work: proofs, tests, wrong bodies. It is read each second
from /proc, so up to a second of each check is missed."""
import os
import pathlib
import threading
from typing import Dict, List, Optional, Set, Tuple

KINDS = ("proof", "tests", "edits")
# How often, in seconds, the processes are read.
PERIOD = 1.0
TICKS = os.sysconf("SC_CLK_TCK")

Work = Tuple[str, str]


def stat_of(process: pathlib.Path) -> List[str]:
    """The fields of a process behind its name: state, parent, .., as proc(5) numbers them from 3 on."""
    text = (process / "stat").read_text()
    return text[text.rindex(")") + 2 :].split()


def is_below(pid: int, parents: Dict[int, int], top: int) -> bool:
    """Whether a process descends from another."""
    while pid > 1:
        if pid == top:
            return True
        pid = parents.get(pid, 0)
    return False


def work_of(process: pathlib.Path) -> Optional[Work]:
    """Which crate a check is of, and which kind of work it is; None for a process that isn't the prover's."""
    words = (process / "cmdline").read_bytes().decode(errors="replace").split("\0")
    if not words[0].endswith("/rattle") or "--crate-name" not in words:
        return None
    crate = words[words.index("--crate-name") + 1]
    if "/rt-edit" in os.readlink(process / "cwd"):
        return crate, "edits"
    return crate, "tests" if "--test" in words else "proof"


class Meter(threading.Thread):
    """Reads the processor time of the prover's processes below this one."""

    def __init__(self) -> None:
        super().__init__(daemon=True)
        self.top = os.getpid()
        self.spent: Dict[Tuple[int, str], Tuple[Work, float]] = {}
        self.now: Set[str] = set()
        self._is_over = threading.Event()

    def run(self) -> None:
        while not self._is_over.wait(PERIOD):
            self.read()

    def end(self) -> None:
        self._is_over.set()
        self.join()

    def read(self) -> None:
        found, parents = {}, {}
        for process in pathlib.Path("/proc").glob("[0-9]*"):
            try:
                fields = stat_of(process)
                parents[int(process.name)] = int(fields[1])
                work = work_of(process)
            except (OSError, ValueError, IndexError):
                continue
            if work:
                # user and system time, its own and that of children that have ended
                found[int(process.name)] = (work, fields[19], sum(map(int, fields[11:15])))
        ours = {pid: it for pid, it in found.items() if is_below(pid, parents, self.top)}
        for pid, (work, start, ticks) in ours.items():
            self.spent[pid, start] = (work, ticks / TICKS)
        self.now = {work[0] for work, _, _ in ours.values()}

    def table(self) -> Dict[str, Dict[str, float]]:
        """The processor minutes by crate and kind."""
        crates: Dict[str, Dict[str, float]] = {}
        for (crate, kind), seconds in list(self.spent.values()):
            minutes = crates.setdefault(crate, dict.fromkeys(KINDS, 0.0))
            minutes[kind] += seconds / 60
        return crates
