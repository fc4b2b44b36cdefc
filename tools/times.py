#!/usr/bin/env python3
"""How long things take here: docs/TIMES.md, and the estimates that long work tells.

    tools/times.py write      writes docs/TIMES.md from tools/times.json
    tools/times.py check      says whether it is current; the gate asks it
    tools/times.py take       puts what this machine measured into tools/times.json, and writes the page

tools/times.json has the processor minutes of each crate, by proof, tests and wrong bodies, the minutes of a proof that went on over kept work
(`again`, by tools/prove), and the seconds by the clock of each command, with the day and the machine. A machine's own measures are kept in its
cache folder, by tools/prove and by each run that tools/progress.py watches; they are what an estimate is made from, and the file where there
are none."""
import datetime
import json
import os
import pathlib
import platform
import sys
import textwrap
from typing import Dict, List, Optional

from crate_graph import below, uses as known_uses

ROOT = pathlib.Path(__file__).resolve().parent.parent
FILE = ROOT / "tools" / "times.json"
PAGE = ROOT / "docs" / "TIMES.md"
KINDS = ("proof", "tests", "edits")
# Each command that is timed, and what it does from nothing.
COMMANDS = {
    "run": "builds `usbtrace` unproved and runs the README's scenario",
    "c-try": "builds the library for C over an unproved core",
    "c-usb": "proves the core and builds the library for C",
    "build": "proves and builds `usbtrace`",
    "test": "is the gate: proves every crate, tries wrong bodies, tests and programs",
    "c-test": "tries the library for C: scenes, threads, sanitizers",
}
# What a crate that wasn't measured counts as, in minutes; and what one costs that is proved over kept work, where that wasn't measured: it
# reads the libraries below, and the rest is a small share.
UNMEASURED, AGAIN_LEAST, AGAIN_SHARE = 1.0, 0.15, 0.05
# For how many processors it is told how long a proof takes.
PROCESSORS = (2, 4)
# The crate that a command proves, with those below it; all crates where it is None.
PROVES: Dict[str, Optional[str]] = {"c-usb": "tirnouch_c", "build": "usbtrace", "test": None}

Crates = Dict[str, Dict[str, float]]


def cache() -> pathlib.Path:
    """Where this machine keeps what it measured."""
    folder = os.environ.get("XDG_CACHE_HOME") or str(pathlib.Path.home() / ".cache")
    return pathlib.Path(folder) / "tirnouch" / "times.json"


def read(path: pathlib.Path) -> dict:
    """What a file has; nothing where there is none, or where it is no such file."""
    try:
        found = json.loads(path.read_text())
    except (OSError, ValueError):
        found = {}
    return {"crates": {}, "commands": {}, **(found if isinstance(found, dict) else {})}


def merged(before: Crates, here: Crates) -> Crates:
    """Both, and of what both have the later one."""
    return {name: {**before.get(name, {}), **here.get(name, {})} for name in {**before, **here}}


def crates() -> Crates:
    """The minutes of each crate: this machine's where it has measured them."""
    return merged(read(FILE)["crates"], read(cache())["crates"])


def cost(minutes: Dict[str, float]) -> float:
    """What a crate costs the gate, from nothing: a crate that nobody measured counts as a small one."""
    return sum(minutes.get(kind, 0.0) for kind in KINDS) or UNMEASURED


def again(minutes: Dict[str, float]) -> float:
    """What a crate costs whose own contracts and those below stay, over what was kept: as it was measured, or a share of its proof."""
    return minutes.get("again") or AGAIN_LEAST + AGAIN_SHARE * minutes.get("proof", UNMEASURED)


def seconds(command: str) -> Optional[float]:
    """By the clock, from nothing: this machine's last, or the file's."""
    return read(cache())["commands"].get(command) or read(FILE)["commands"].get(command)


def keep(measured: Optional[Crates] = None, command: str = "", took: float = 0.0) -> None:
    """Keeps what a run measured on this machine. Where that can't be written, it is done without."""
    path, known = cache(), read(cache())
    for crate, minutes in (measured or {}).items():
        known["crates"].setdefault(crate, {}).update({kind: round(it, 2) for kind, it in minutes.items() if it >= 0.005})
    if command:
        known["commands"][command] = round(took)
    try:
        path.parent.mkdir(parents=True, exist_ok=True)
        new = path.with_suffix(f".{os.getpid()}")
        new.write_text(json.dumps(known, indent=1, sort_keys=True))
        new.replace(path)
    except OSError:
        pass


def chain(names: List[str], uses: Dict[str, List[str]], cost: Dict[str, float], behind: Optional[Dict[str, float]] = None) -> float:
    """The minutes of the dearest chain among these crates, each of which waits for those below it; `behind` is what comes behind a crate's
    proof, its tests, for which no other waits."""
    among, longest = set(names), {}

    def of(name: str) -> float:
        if name not in longest:
            longest[name] = cost.get(name, 0.0) + max((of(it) for it in uses[name] if it in among), default=0.0)
        return longest[name]

    return max((of(it) + (behind or {}).get(it, 0.0) for it in names), default=0.0)


def least_clock(minutes: float, longest: float, processors: int) -> float:
    """The least minutes by the clock of so much work with such a chain."""
    return max(minutes / processors, longest)


def clock(span: float) -> str:
    """Seconds as people say them."""
    if span < 100:
        return f"{max(1, round(span))} seconds"
    return f"{round(span / 60)} minutes"


def page() -> str:
    """docs/TIMES.md"""
    known, uses = read(FILE), known_uses()
    table: Crates = known["crates"]
    costs_all = {name: cost(table.get(name, {})) for name in uses}
    proof = {name: table.get(name, {}).get("proof") or UNMEASURED for name in uses}
    tests = {name: it.get("tests", 0.0) for name, it in table.items()}
    out = [
        "# How long it takes",
        "",
        f"Measured on {known['day']}, on {known['machine']}. Made by `tools/times.py take`; each command prints an estimate of its own.",
        "",
        "## Commands, from a fresh clone",
        "",
        "| command | by the clock | processor minutes | what it does |",
        "|---|---|---|---|",
    ]
    for command, does in COMMANDS.items():
        span, spent = known["commands"].get(command), ""
        took = clock(span) if span else "not measured"
        if command in PROVES:
            names, is_gate = below(PROVES[command]), command == "test"
            minutes = sum((costs_all if is_gate else proof)[it] for it in names)
            longest = chain(names, uses, proof, tests if is_gate else None)
            took = " or ".join(f"{least_clock(minutes, longest, it):.0f} minutes of {it}" for it in PROCESSORS)
            spent = f"{minutes:.0f}"
        out.append(f"| `make {command}` | {took} | {spent} | {does} |")
    unmeasured = [f"`{name}`" for name in uses if not table.get(name, {}).get("proof")]
    out += [
        "",
        "For a command that proves crates these are the least minutes on two and on four processors, computed from the minutes of the",
        "crates, with tests behind the proof of their crate. With other work on the machine, or on a slower one, a proof takes twice its",
        "processor time. What was built is kept, so a second run of the others, except `make c-test`, takes no time. What was proved is kept by",
        "kits whose `rt ci` takes names: with them a second `make test` takes some minutes, for its tests and programs, and with others as long",
        "as the first. `make c-test` comes behind `make c-usb`, which behind `make test` proves `tirnouch_c` alone.",
        "`tools/changed` adds up the minutes of what a change has to try ([CONTRIBUTING.md](CONTRIBUTING.md#only-what-changed)).",
        *([""] + textwrap.wrap(f"Proofs that weren't measured, and count as a minute each: {', '.join(unmeasured)}.", 138) if unmeasured else []),
        "",
        "## Proofs, crate by crate",
        "",
        "Processor minutes, the most expensive crate first; crates of less than a minute are left out.",
        "",
        "| crate | proof | tests | wrong bodies |",
        "|---|---|---|---|",
    ]
    for name in sorted(set(table) & set(uses), key=lambda it: (-costs_all[it], it)):
        if costs_all[name] >= 1 and any(table[name].get(kind) for kind in KINDS):
            out.append(f"| `{name}` | " + " | ".join(f"{table[name][kind]:.1f}" if table[name].get(kind) else "" for kind in KINDS) + " |")
    return "\n".join(out) + "\n"


def take() -> None:
    """Puts this machine's measures into the file. Crates that are gone are dropped."""
    known, here, uses = read(FILE), read(cache()), known_uses()
    known["crates"] = {name: it for name, it in merged(known["crates"], here["crates"]).items() if name in uses}
    known["commands"].update(here["commands"])
    known["day"] = datetime.date.today().isoformat()
    known["machine"] = f"{os.cpu_count()} processors ({platform.machine()})"
    FILE.write_text(json.dumps(known, indent=1, sort_keys=True) + "\n")


def main(words: List[str]) -> int:
    if words == ["take"]:
        take()
    if words in (["take"], ["write"]):
        PAGE.write_text(page())
        return 0
    if words == ["check"]:
        if not PAGE.is_file() or PAGE.read_text() != page():
            print("docs/TIMES.md isn't that of tools/times.json: run tools/times.py write", file=sys.stderr)
            return 1
        print("docs/TIMES.md has the times of tools/times.json")
        return 0
    print(__doc__)
    return 2


if __name__ == "__main__":
    sys.exit(main(sys.argv[1:]))
