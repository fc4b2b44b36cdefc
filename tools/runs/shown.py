"""What is shown and kept of runs with many seeds."""
import argparse
import pathlib
import shlex
import shutil
import subprocess
import sys
from typing import Dict, List, Sequence

from judged import Judgement
from seeds import Seeds
from traces import buses_of, own_traces

# Of an output so many bytes are shown, the last ones, and of a trace so many lines are drawn.
MOST_OUTPUT, MOST_DRAWN = 65536, 2000


def show_output(path: pathlib.Path) -> None:
    size = path.stat().st_size
    if not size:
        print("it printed nothing")
        return
    print("its output:" if size <= MOST_OUTPUT else f"its output, the last {MOST_OUTPUT} of {size} bytes:", flush=True)
    with path.open("rb") as file:
        file.seek(max(0, size - MOST_OUTPUT))
        shown = file.read()
    sys.stdout.buffer.write(shown if shown.endswith(b"\n") else shown + b"\n")
    sys.stdout.buffer.flush()


def draw(trace: pathlib.Path, page: pathlib.Path, usbtrace: str, remedy: str) -> str:
    """Draws the picture of a trace's whole lines: a sentence of what became of it."""
    if not pathlib.Path(usbtrace).is_file():
        return f"no picture: there is no {usbtrace}; {remedy}"
    text = trace.read_bytes()
    text = text[:text.rfind(b"\n") + 1]
    first = max(1, text.count(b"\n") - MOST_DRAWN + 1)
    part = f", of its lines from {first} on" if first > 1 else ""
    try:
        with page.open("wb") as out:
            ran = subprocess.run([usbtrace, "draw", "--html", "--from", str(first)], input=text, stdout=out, stderr=subprocess.PIPE,
                                 timeout=60, check=False)
    except (OSError, subprocess.TimeoutExpired) as error:
        return f"no picture: {error}"
    if ran.returncode:
        page.unlink()
        return f"no picture: usbtrace draw: {ran.stderr.decode('utf-8', 'replace').strip()}"
    return f"its picture{part}: ./{page}"


def keep(folder: pathlib.Path, seed: int, usbtrace: str, remedy: str) -> None:
    """Keeps what a failing run left, in this folder, and says so."""
    buses = buses_of(str(folder / "trace"), 0)
    if not buses:
        print("it left no trace: no context was begun")
        return
    kept = pathlib.Path(f"tirnouch-seed-{seed}.trace")
    try:
        longest = copy_traces(buses[-1], kept)
        print(f"its trace{f', that of the last of {len(buses)} buses' if len(buses) > 1 else ''}: ./{kept}")
        print(draw(longest, kept.with_suffix(".html"), usbtrace, remedy))
    except OSError as error:
        print(f"its trace can't be kept: {error}")


def copy_traces(bus: pathlib.Path, kept: pathlib.Path) -> pathlib.Path:
    """Keeps a bus's trace under this name, and beside it those of devices with a core of their own, which it names. The longest one."""
    copies = [pathlib.Path(shutil.copyfile(bus, kept))]
    for own in own_traces(bus, 0):
        copies.append(pathlib.Path(shutil.copyfile(own, f"{kept}{own.name[len(bus.name):]}")))
        print(f"the trace of a device's own core: ./{copies[-1]}")
    return max(copies, key=lambda it: it.stat().st_size)


def command_again(words: argparse.Namespace, program: Sequence[str], seed: int) -> str:
    run, devices = words.again
    more = [*words.more, *(["--virtual"] if words.virtual else [])]
    more += ["--no-programs"] if words.no_programs else []
    more += ["--lenient"] if words.lenient else []
    more += ["--limit", words.limit[0]] if words.limit else []
    return shlex.join([run, devices, "--seed", str(seed), *more, "--", *program])


def report(runs: Seeds) -> int:
    """Shows the lowest seed of each kind of failure, and counts."""
    failed = sorted(it for it in runs.outcomes if it.failure)
    kinds: Dict[str, List[int]] = {}
    for it in failed:
        kinds.setdefault(it.failure or "", []).append(it.seed)
    for failure, seeds in kinds.items() if runs.words.keep_going else list(kinds.items())[:1]:
        print(f"seed {seeds[0]} failed: {failure}")
        show_output(runs.at(seeds[0]) / "output")
        for hint in Judgement(runs.at(seeds[0])).hints():
            print(f"hint: {hint}")
        keep(runs.at(seeds[0]), seeds[0], *runs.words.picture)
        print(f"run it again: {command_again(runs.words, runs.program, seeds[0])}")
        if len(seeds) > 1:
            print(f"so did {', '.join(str(it) for it in seeds[1:])}")
    count, apart = len(runs.outcomes), len({it.steps for it in runs.outcomes})
    print(f"{count} {'run' if count == 1 else 'runs'}, {len(failed)} failed, {apart} told apart by their steps")
    return 1 if failed else 0
