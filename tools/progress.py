#!/usr/bin/env python3
"""Says what long work does, how far it is, and how long it goes on.

    tools/progress.py timed NAME -- COMMAND ..          says what `make NAME` does and how long that takes, and runs a command of it
    tools/progress.py proofs NAME -- COMMAND ..         runs a command of `make NAME` that proves all crates

Of proofs a line a minute says how many crates are done, which are at work, how long it took and goes on; on a terminal one line is
written anew. What they cost stands at the end: the processor minutes of each crate, by proof, tests and wrong bodies. What was kept
from an earlier run costs nothing and isn't in the table. Estimates are from what the machine measured before, else from
tools/times.json. The status is that of the command."""
import os
import re
import subprocess
import sys
import threading
import time
from pathlib import Path
from typing import Dict, List, Optional, Sequence, TextIO, Union

import crate_graph
import times
from metering import KINDS, Meter

Word = Union[str, Path]

# A line of the gate that says that a crate is done with its proof, or with its tests.
STOOD = re.compile(r"rt: (\w+)(?:: its tests are)? (?:proved\s*$|is kept)")
# What the prover says of each function that went well, and of the libraries that it read.
CHATTER = re.compile(r"fn \S+: proved|statements \w|logic=proved|\s*$")
# How often, in seconds, it is told how far the work is: in a log, and on a terminal.
LOGGED, SHOWN = 60.0, 1.0
# Shorter work than this, in seconds, found what it makes, so that its time says nothing of the next one.
SHORT = 15.0


def counted(number: int, what: str) -> str:
    return f"{number} {what}{'' if number == 1 else 's'}"


def whole_minutes(minutes: float) -> str:
    return counted(max(1, round(minutes)), "minute")


class Proofs:
    """Which crates a run has to prove, which are done, and what is left to do, by what they cost before."""

    def __init__(self, names: List[str], meter: Meter) -> None:
        self.names, self.meter, self.done = names, meter, set()
        self.uses, self.start = crate_graph.uses(), time.time()
        before = times.crates()
        self.cost: Dict[str, float] = {name: times.cost(before.get(name, {})) for name in names}

    def read(self, line: str) -> None:
        found = STOOD.match(line)
        if found and found[1] in self.cost:
            self.done.add(found[1])

    def beginning(self) -> str:
        """What is to be done, where nothing is kept."""
        crates, left = counted(len(self.names), "crate"), whole_minutes(self.minutes_left())
        return f"proves {crates}: some {left}, or less where an earlier run on this machine did"

    def minutes_left(self) -> float:
        """By the clock: as fast as the work went until now; and no sooner than the dearest chain of crates allows."""
        left = [name for name in self.names if name not in self.done]
        spent = self.meter.table()
        rest = sum(max(self.cost[name] - sum(spent.get(name, {}).values()), 0.1) for name in left)
        ended = [name for name in self.done if name in spent]
        expected, took = sum(self.cost[it] for it in ended), sum(sum(spent[it].values()) for it in ended)
        slow = took / expected if expected > 5 else 1.0
        processors = max(1, min(os.cpu_count() or 1, len(left)))
        return slow * max(rest / processors, times.chain(left, self.uses, self.cost))

    def line(self, name: str) -> str:
        gone = (time.time() - self.start) / 60
        now = sorted(self.meter.now)
        shown = ", ".join(now[:3]) + (f" and {len(now) - 3} more" if len(now) > 3 else "") or "other work"
        left = self.minutes_left()
        goes_on = f"some {whole_minutes(left)} to go" if len(self.done) < len(self.names) else "nearly done"
        crates = f"{len(self.done)} of {counted(len(self.names), 'crate')}"
        return f"{name}: {crates}; now {shown}; {counted(round(gone), 'minute')} gone, {goes_on}"


class Teller(threading.Thread):
    """Tells on standard error how far the work is."""

    def __init__(self, name: str, proofs: Proofs) -> None:
        super().__init__(daemon=True)
        self.name, self.proofs, self.is_over = name, proofs, threading.Event()
        self.shows, self.lock = sys.stderr.isatty(), threading.Lock()

    def run(self) -> None:
        while not self.is_over.wait(SHOWN if self.shows else LOGGED):
            with self.lock:
                self.tell()

    def tell(self) -> None:
        line = self.proofs.line(self.name)
        if self.shows:
            line = "\r\x1b[K" + line[: (os.get_terminal_size(sys.stderr.fileno()).columns or 80) - 1]
        print(line, end="" if self.shows else "\n", file=sys.stderr, flush=True)

    def clear(self) -> None:
        if self.shows:
            print("\r\x1b[K", end="", file=sys.stderr, flush=True)

    def end(self) -> None:
        self.is_over.set()
        self.join()
        self.clear()


def pass_on(lines: TextIO, out: TextIO, proofs: Proofs, teller: Teller, quiet: bool) -> List[str]:
    """Passes on what the prover prints, and answers all of it; `quiet` leaves out what says that a function went well."""
    kept = []
    for line in lines:
        proofs.read(line)
        kept.append(line)
        if quiet and CHATTER.match(line):
            continue
        with teller.lock:
            teller.clear()
            out.write(line)
            out.flush()
    return kept


def print_table(table: Dict[str, Dict[str, float]], out: TextIO) -> None:
    """The processor minutes, the dearest crate first."""
    print(f"{'processor minutes':<20}" + "".join(f"{kind:>8}" for kind in KINDS) + f"{'in all':>8}", file=out)
    sums = dict.fromkeys(KINDS, 0.0)
    for crate, minutes in sorted(table.items(), key=lambda it: -sum(it[1].values())):
        print(f"{crate:<20}" + "".join(f"{minutes[kind]:8.1f}" for kind in KINDS) + f"{sum(minutes.values()):8.1f}", file=out)
        for kind in KINDS:
            sums[kind] += minutes[kind]
    print(f"{'in all':<20}" + "".join(f"{sums[kind]:8.1f}" for kind in KINDS) + f"{sum(sums.values()):8.1f}", file=out, flush=True)


def prove(name: str, names: List[str], words: Sequence[Word], out: TextIO, cwd: Optional[Word] = None, quiet: bool = False,
          environment: Optional[Dict[str, str]] = None) -> int:
    """Runs a command that proves crates, and tells how far it is. What was measured is kept for the next estimate."""
    meter = Meter()
    proofs = Proofs(names, meter)
    print(f"{name}: {proofs.beginning()}", file=sys.stderr, flush=True)
    teller = Teller(name, proofs)
    meter.start()
    teller.start()
    ran = subprocess.Popen(words, cwd=cwd, env=environment, stdin=subprocess.DEVNULL, stdout=subprocess.PIPE, stderr=subprocess.STDOUT,
                           text=True, errors="replace")
    try:
        kept = pass_on(ran.stdout, out, proofs, teller, quiet)
        status = ran.wait()
    finally:
        ran.kill()
        teller.end()
        meter.end()
    table = meter.table()
    # (what ended well was measured, even if another crate failed)
    times.keep({it: minutes for it, minutes in table.items() if it in proofs.done})
    if status and quiet:
        out.writelines(kept[-100:])
    if table:
        print_table(table, out)
    return status


def timed(name: str, words: List[str]) -> int:
    """Says what `make NAME` does and how long, and runs a command of it."""
    before = times.seconds(name)
    long = f"some {times.clock(before)}, and no time where nothing changed" if before else "some minutes"
    print(f"make {name}: {times.COMMANDS[name]}: {long}", file=sys.stderr, flush=True)
    start = time.time()
    status = subprocess.run(words).returncode
    took = time.time() - start
    if status == 0 and took > SHORT:
        times.keep(command=name, took=took)
    return status


def main(words: List[str]) -> int:
    if "--" in words:
        said, command = words[: words.index("--")], words[words.index("--") + 1 :]
        if command and len(said) == 2 and said[0] == "timed" and said[1] in times.COMMANDS:
            return timed(said[1], command)
        if command and len(said) == 2 and said[0] == "proofs":
            return prove(f"make {said[1]}", crate_graph.below(None), command, sys.stdout)
    print(__doc__)
    return 2


if __name__ == "__main__":
    sys.exit(main(sys.argv[1:]))
