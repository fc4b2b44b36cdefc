#!/usr/bin/env python3
"""Does what README.md tells a newcomer, in a fresh clone: tools/first_hour_test.py. It runs `make c-try` there, and then each command of
README.md behind a `$`, whose output has to be the lines below it, but for seconds. What is committed is tried, and nothing that was built.

A command that needs a Python module which no Python here has is skipped and reported. The status is 1 where a command differs. All of it is
to take a newcomer five minutes at most: where it took longer, that is said, since a busy machine may be the reason."""
import os
import pathlib
import re
import subprocess
import sys
import tempfile
import time
from typing import Iterator, List, Sequence, Tuple

import python_test

ROOT = pathlib.Path(__file__).resolve().parent.parent
# How long a command may take, in seconds, also where other work runs beside it.
SECONDS = 900
PROMISED = 300


def commands(text: str) -> Iterator[Tuple[str, List[str]]]:
    """The commands of a page behind `$`, each with the lines of its output."""
    for block in re.findall(r"(?:^    .*\n)+", text, re.M):
        parts = re.split(r"^    \$ ", block, flags=re.M)
        for part in parts[1:]:
            command, *printed = part.splitlines()
            yield command, [line[4:] for line in printed]


def without_seconds(lines: Sequence[str]) -> List[str]:
    return [re.sub(r"\b[0-9.]+s\b", "0s", line) for line in lines]


def run(command: str, folder: pathlib.Path, path: str) -> "subprocess.CompletedProcess[str]":
    """A command as a newcomer's shell runs it."""
    environment = {key: value for key, value in os.environ.items() if not key.startswith(python_test.STEERING)}
    environment.update(PATH=path, XDG_CACHE_HOME=str(folder / "cache"))
    words = ["sh", "-c", command]
    return subprocess.run(words, cwd=folder, env=environment, stdin=subprocess.DEVNULL, capture_output=True, text=True, timeout=SECONDS)


def faults(clone: pathlib.Path, path: str, has_modules: bool) -> Iterator[Tuple[str, str]]:
    """Each thing that is tried, and what is wrong with it, or nothing."""
    made = run("make c-try", clone, path)
    yield "make c-try", "" if made.returncode == 0 else f"status {made.returncode}\n{made.stdout}{made.stderr}"
    first = made.stderr.splitlines()[:1]
    yield "make c-try says what it does", "" if first and first[0].startswith("make c-try: builds ") else f"its first line is {first}"
    for command, printed in commands((clone / "README.md").read_text()):
        if "pytest" in command and not has_modules:
            print(f"skipped: {command}: no Python here has its modules (apt-get install {' '.join(python_test.MODULES.values())})")
            continue
        ran = run(command, clone, path)
        same = ran.returncode == 0 and without_seconds(ran.stdout.splitlines())[-len(printed) or None:] == without_seconds(printed)
        yield command, "" if same else f"status {ran.returncode}\n{ran.stdout}{ran.stderr}"


def main() -> int:
    start, results = time.time(), []
    with tempfile.TemporaryDirectory(prefix="first-hour-") as name:
        folder = pathlib.Path(name)
        clone = folder / "tirnouch"
        subprocess.run(["git", "clone", "-q", "--no-hardlinks", ROOT, clone], check=True)
        python = python_test.find_python()
        (folder / "bin").mkdir()
        if python:
            (folder / "bin" / "python3").write_text(f'#!/bin/sh\nexec {python} "$@"\n')
            (folder / "bin" / "python3").chmod(0o755)
        path = f"{folder / 'bin'}:{os.environ['PATH']}"
        results = list(faults(clone, path, python is not None))
    took = time.time() - start
    for what, fault in results:
        if fault:
            print(f"{what}: {fault}")
    if took > PROMISED:
        print(f"it took {took:.0f} seconds: more than {PROMISED}, which a busy machine may explain")
    failed = sum(1 for _, fault in results if fault)
    print(f"{len(results) - failed} passed, {failed} failed")
    return 1 if failed else 0


if __name__ == "__main__":
    sys.exit(main())
