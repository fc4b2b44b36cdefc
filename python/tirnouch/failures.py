"""What a failing test is told of its bus: the seed and how to play it again, the last steps, what is in flight and why, what differs, and
where the trace and its picture are."""
from __future__ import annotations

import os
import pathlib
import re
import shlex
import shutil
import subprocess
import sys
from typing import Any, Dict, List, Optional, Tuple

from tirnouch.buses import Bus
from tirnouch.sources import USBTRACE, place_of

# So many steps are shown, and so many are drawn; of the seeds of a test so many are drawn in a process.
SHOWN, DRAWN, MOST_DRAWN = 12, 2000, 2
SECONDS = 60
# The Python of this run, as it is called: that of an environment by its path.
PYTHON = "python3" if os.path.basename(sys.executable) == "python3" and shutil.which("python3") == sys.executable else sys.executable
SEED = re.compile(r"(?<=[\[-])seed[0-9]+(?=[]-])")
Record = Dict[str, Any]
DRAWN_OF: Dict[str, int] = {}


class Run:
    """A test's run: its bus, and the folder of its trace, which is kept where it fails."""

    def __init__(self, item: Any, seed: int, folder: pathlib.Path) -> None:
        self.item, self.seed, self.folder = item, seed, folder
        self.name = re.sub(r"\W+", "_", item.name)[:80]
        self.trace = folder / "trace"
        for it in folder.glob("trace*"):
            it.unlink()
        self.bus: Optional[Bus] = None
        self.last: Optional[pathlib.Path] = None
        self.text = ""
        self.steps = 0
        self.ended: List[str] = []

    def judge(self, error: Optional[BaseException]) -> Optional[BaseException]:
        """What is wrong with the bus behind the test; what is in flight, and what differs, is asked while it is there."""
        assert self.bus is not None
        if self.bus.limit:
            self.bus.limit.stop()
        verdict = self.bus.verdict()
        if error is not None or verdict is not None:
            self.ended = self.sentences()
        return verdict

    def sentences(self) -> List[str]:
        """What is in flight and what differs."""
        assert self.bus is not None
        if self.bus.limit and self.bus.limit.told:
            return [self.bus.limit.told]
        found = [("in flight", self.bus.left()), ("differs", self.bus.report())]
        return [f"{what}: {it}" for what, lines in found for it in lines]

    def end(self) -> None:
        """The bus ends behind the test."""
        if self.bus is not None:
            self.bus.close()

    def again(self) -> str:
        """The words that play it again."""
        name = self.item.nodeid
        more = f" --tirnouch-seed {self.seed}" if self.seed and not SEED.search(name) else ""
        return f"{PYTHON} -m pytest {shlex.quote(name)}{more}"

    def section(self, item: Any) -> str:
        """The section of its report."""
        assert self.bus is not None
        if self.text:
            return self.text
        lines = [f"seed {self.seed}" if self.seed else "no seed", f"play it again: {self.again()}"]
        lines += [f"fault: device {it.number}, {it.described}: {line}" for it in self.bus for line in it.fell()]
        lines += [line for it in self.bus.faults for line in (str(it), *it.traceback.splitlines())]
        lines += self.ended or (self.sentences() if self.bus.is_open else [])
        try:
            lines += self.traced(self.keep(item))
        except OSError as error:
            lines.append(f"its trace can't be kept: {error}")
        self.text = "\n".join(lines)
        return self.text

    def traced(self, traces: List[pathlib.Path]) -> List[str]:
        """What is told of its traces, of which the last one was written on last."""
        if not traces:
            return []
        counted = [steps_of(it) for it in traces]
        self.steps, self.last = sum(steps for steps, _ in counted), traces[-1]
        return [f"its last steps, of {self.steps}:", *(f"    {it}" for it in counted[-1][1]),
                *(f"its trace: {it}" for it in reversed(traces)), self.picture(traces[-1])]

    def keep(self, item: Any) -> List[pathlib.Path]:
        """The traces go into the folder of the test, in the order in which they were written on last."""
        found = sorted(self.folder.glob("trace*"), key=lambda it: it.stat().st_mtime_ns)
        own = item.funcargs.get("tmp_path") if hasattr(item, "funcargs") else None
        folder = pathlib.Path(own) if own else self.folder / self.name
        folder.mkdir(exist_ok=True)
        return [pathlib.Path(shutil.copyfile(it, folder / it.name)) for it in found]

    def picture(self, trace: pathlib.Path) -> str:
        """The picture of a trace, or why there is none."""
        of = SEED.sub("", self.item.nodeid)
        DRAWN_OF[of] = DRAWN_OF.get(of, 0) + 1
        if self.seed and DRAWN_OF[of] > MOST_DRAWN:
            return f"draw it: {PYTHON} -m tirnouch usbtrace draw --html < {trace} > {trace}.html"
        return draw(trace)

    def record(self) -> Record:
        """What the summary is told of it, in words that go between processes."""
        return {"of": SEED.sub("seed*", self.item.nodeid), "seed": self.seed, "steps": self.steps, "again": self.again(),
                "trace": str(self.last or "")}


def steps_of(trace: pathlib.Path) -> Tuple[int, List[str]]:
    """How many steps a trace has, and its last lines."""
    lines = trace.read_text(encoding="ascii", errors="replace").splitlines()
    steps = sum(1 for it in lines if not it.startswith(("#", "device ", "script ", "feed ")))
    return steps, lines[-SHOWN:]


def draw(trace: pathlib.Path) -> str:
    """Draws the page of a trace beside it; a sentence of what became of it."""
    usbtrace, page = place_of(USBTRACE), trace.with_name(f"{trace.name}.html")
    if usbtrace is None:
        return f"no picture: there is no {USBTRACE[-1]}: build it by `make run`"
    lines = trace.read_bytes().count(b"\n")
    words = [str(usbtrace), "draw", "--html", "--from", str(max(1, lines - DRAWN + 1))]
    try:
        with trace.open("rb") as source, page.open("wb") as out:
            ran = subprocess.run(words, stdin=source, stdout=out, stderr=subprocess.PIPE, timeout=SECONDS, check=False)
    except (OSError, subprocess.TimeoutExpired) as error:
        return f"no picture: {error}"
    if ran.returncode:
        page.unlink()
        return f"no picture: usbtrace draw: {ran.stderr.decode('utf-8', 'replace').strip()}"
    return f"its picture: {page}"


def summary(records: List[Record]) -> List[str]:
    """Of the failing seeds of each test the one of the fewest steps."""
    groups: Dict[str, List[Record]] = {}
    for it in records:
        if it["seed"]:
            groups.setdefault(it["of"], []).append(it)
    lines = []
    for of, found in groups.items():
        best = min(found, key=lambda it: (it["steps"], it["seed"]))
        seeds = ", ".join(str(it["seed"]) for it in sorted(found, key=lambda it: int(it["seed"]))[:10])
        lines.append(f"{of}: {len(found)} {'seed fails' if len(found) == 1 else 'seeds fail'}: {seeds}{', ..' if len(found) > 10 else ''}")
        lines.append(f"    the fewest steps, {best['steps']}, has seed {best['seed']}: {best['again']}")
        if best["trace"]:
            lines.append(f"    its trace: {best['trace']}")
            lines.append(f"    {draw(pathlib.Path(best['trace']))}")
    return lines
