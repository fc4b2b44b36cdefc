#!/usr/bin/env python3
"""Tries what a trace has where a run ends: tools/traces_test.py. Of c/tests/run/traced.c each read is in it, however the program ended;
where it tidied up, `usbtrace left` blames nobody, and else the handle that was left open."""
import os
import pathlib
import subprocess
import sys
import tempfile
from typing import Iterator, List

ROOT = pathlib.Path(__file__).resolve().parent.parent
FLAGS = "-std=c11 -O1 -Wall -Wextra -pedantic -D_GNU_SOURCE".split()
READS = 3
SECONDS = 60
DEVICES = """device 0 0902200001010080320904000002ff0000000705810208000007050202080000
script 0 81 d:0102030405060708 d:0908070605040302 d:11
"""
# Each end, and what the status is then.
ENDS = {"return": 0, "open": 0, "exit": 0, "abort": -6, "kill": -9, "segv": -11}


def run(program: pathlib.Path, end: str, folder: pathlib.Path) -> "tuple[int, List[str]]":
    """The status of a run, and the lines of its trace."""
    trace = folder / f"{end}.trace"
    env = {**os.environ, "TIRNOUCH_TRACE": str(trace), "TIRNOUCH_DEVICES": str(folder / "devices.txt")}
    for name in ("TIRNOUCH_SEED", "TIRNOUCH_TIME", "TIRNOUCH_LIMIT"):
        env.pop(name, None)
    ran = subprocess.run([program, end], env=env, capture_output=True, timeout=SECONDS, cwd=folder)
    return ran.returncode, trace.read_text().splitlines()


def left(lines: List[str]) -> str:
    """What `usbtrace left` says of a trace."""
    text = "\n".join(lines) + "\n"
    return subprocess.run([ROOT / "bin" / "usbtrace", "left"], input=text, capture_output=True, text=True, timeout=SECONDS).stdout


def faults_of(program: pathlib.Path, end: str, folder: pathlib.Path) -> Iterator[str]:
    status, lines = run(program, end, folder)
    if status != ENDS[end]:
        yield f"{end}: status {status}"
    called = [line for line in lines if line.startswith("# called ")]
    if len(called) != READS:
        yield f"{end}: {len(called)} of {READS} reads are in the trace"
    closes = [line for line in lines if line.startswith("close ")]
    if bool(closes) != (end == "return"):
        yield f"{end}: the trace has {closes or 'no close'}"
    if (ROOT / "bin" / "usbtrace").is_file() and end in ("return", "open") and ("open" in left(lines)) != (end == "open"):
        yield f"{end}: `usbtrace left` says {left(lines)!r}"


def main() -> int:
    with tempfile.TemporaryDirectory(prefix="traces-") as name:
        folder = pathlib.Path(name)
        (folder / "devices.txt").write_text(DEVICES)
        program = folder / "traced"
        words = ["gcc", *FLAGS, "-I", ROOT / "c" / "include", ROOT / "c" / "tests" / "run" / "traced.c", ROOT / "bin" / "libusb-1.0.a"]
        subprocess.run([*words, "-pthread", "-o", program], check=True)
        faults = [fault for end in ENDS for fault in faults_of(program, end, folder)]
    print("".join(f"{fault}\n" for fault in faults), end="")
    print(f"{len(ENDS)} ends of a run, {len(faults)} faults")
    return 1 if faults else 0


sys.exit(main())
