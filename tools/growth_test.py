#!/usr/bin/env python3
"""Tries how the cost of a call grows with what is in flight: tools/growth_test.py. By instructions, which valgrind counts, and which are
the same on a machine that is loaded: four times as much work takes at most five times as many.

The programs are those of c/tests/growth, over bin/libusb-1.0.a. Without valgrind nothing is tried, and that is said."""
import pathlib
import re
import shutil
import subprocess
import sys
import tempfile

ROOT = pathlib.Path(__file__).resolve().parent.parent
SOURCE = ROOT / "c" / "tests" / "growth" / "cancels.c"
LIBRARY = ROOT / "bin" / "libusb-1.0.a"
FEW = 1000
TIMES, MOST = 4, 5
COLLECTED = re.compile(r"Collected : (\d+)")


def instructions(program: pathlib.Path, what: str, count: int) -> int:
    words = ["valgrind", "--tool=callgrind", "--callgrind-out-file=/dev/null", program, what, str(count)]
    ran = subprocess.run(words, capture_output=True, text=True, check=False)
    found = COLLECTED.search(ran.stderr)
    if ran.returncode or not found:
        raise RuntimeError(f"{what}, {count}: status {ran.returncode}: {ran.stderr[-500:]}")
    return int(found[1])


def main() -> int:
    if not shutil.which("valgrind"):
        print("skipped: how costs grow: there is no valgrind")
        return 0
    failed = 0
    with tempfile.TemporaryDirectory(prefix="growth-test-") as folder:
        program = pathlib.Path(folder) / "cancels"
        subprocess.run(["gcc", "-std=c11", "-O2", "-D_GNU_SOURCE", "-I", ROOT / "c" / "include", SOURCE, LIBRARY, "-pthread",
                        "-o", program], check=True)
        for what in ("bulk", "requests"):
            few, many = (instructions(program, what, count) for count in (FEW, TIMES * FEW))
            if many > MOST * few:
                failed += 1
                print(f"cancels, {what}, newest first: {few} instructions for {FEW}, and {many} for {TIMES * FEW}")
    print(f"{2 - failed} passed, {failed} failed")
    return 1 if failed else 0


if __name__ == "__main__":
    sys.exit(main())
