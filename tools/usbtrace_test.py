#!/usr/bin/env python3
"""Tries whole runs of bin/usbtrace that no clause promises and no worked row has: long ones, lines of every form, streams that fail, refused
memory, words, files of descriptors.

    tools/usbtrace_test.py [NAME ..]         all tests, or those of the files tools/usbtrace_tests/NAME.py; the gate asks it
    tools/usbtrace_test.py --program FILE    of another program

What a run is to print comes from the rules (docs/FORMATS.md, docs/MODEL.md), and never from a program. Needs a C compiler, for the library
that fails calls (tools/refuse_allocations.py)."""
import argparse
import importlib
import os
import pathlib
import sys
from concurrent.futures import ThreadPoolExecutor
from typing import Dict, List

from refuse_allocations import Room
from usbtrace_tests.trial import MOST_TOLD, PROGRAM, TESTS, Test, Trial

FOLDER = pathlib.Path(__file__).resolve().parent / "usbtrace_tests"
# The file whose tests take the longest: they begin first.
LONGEST = "edges"


def all_tests() -> Dict[str, List[Test]]:
    """The tests of each file that has some."""
    for path in sorted(FOLDER.glob("*.py")):
        importlib.import_module(f"{FOLDER.name}.{path.stem}")
    found: Dict[str, List[Test]] = {}
    for it in TESTS:
        found.setdefault(it.__module__.rpartition(".")[2], []).append(it)
    return found


def attempt(it: Test, program: pathlib.Path, room: Room) -> List[str]:
    """What is wrong with the program by a test."""
    trial = Trial(program, room)
    try:
        it(trial)
    except (OSError, ValueError) as error:
        trial.faults.append(str(error))
    told = [*trial.faults[:MOST_TOLD], *[f"and {len(trial.faults) - MOST_TOLD} more"] * (len(trial.faults) > MOST_TOLD)]
    return [f"{it.__name__.replace('_', ' ')}: {fault}" for fault in told]


def options(words: List[str]) -> argparse.Namespace:
    it = argparse.ArgumentParser(usage=__doc__)
    it.add_argument("--program", type=pathlib.Path, default=PROGRAM)
    it.add_argument("names", nargs="*", metavar="NAME")
    return it.parse_args(words)


def main(words: List[str]) -> int:
    asked, files = options(words), all_tests()
    if strange := [it for it in asked.names if it not in files]:
        print(f"there are no tests {strange[0]}; there are {', '.join(files)}")
        return 2
    if not asked.program.is_file():
        print(f"there is no {asked.program}: make run builds it")
        return 1
    names = sorted(asked.names or files, key=lambda it: it != LONGEST)
    tests = [it for name in names for it in files[name]]
    with Room() as room, ThreadPoolExecutor(os.cpu_count()) as pool:
        found = list(pool.map(lambda it: attempt(it, asked.program.resolve(), room), tests))
    print("".join(f"{line}\n" for lines in found for line in lines), end="")
    failed = sum(1 for lines in found if lines)
    print(f"tests of usbtrace: {len(found) - failed} passed, {failed} failed")
    return 1 if failed else 0


if __name__ == "__main__":
    sys.exit(main(sys.argv[1:]))
