#!/usr/bin/env python3
"""Tries the library that changes one write of a program, c/clients/changed.c: tools/changed_writes_test.py.

The program is c/tests/run/sends.c, over bin/libusb-1.0.so.0: it sends the same bytes three times, from memory in which nobody may write. Of
the second one a bit is flipped, or it isn't made, or made twice. The program is told that each was made, and what is told of the writes is
that of one of them (docs/DEVICES.md, "What the driver writes")."""
import os
import pathlib
import subprocess
import sys
import tempfile
from typing import Dict, List, NamedTuple

ROOT = pathlib.Path(__file__).resolve().parent.parent
RUN, SOURCE, CHANGED = ROOT / "tools" / "tirnouch-run", ROOT / "c" / "tests" / "run" / "sends.c", ROOT / "c" / "clients" / "changed.c"
FLAGS = ["-std=c11", "-O1", "-D_GNU_SOURCE", "-Wall", "-Wextra", "-pedantic", "-I", str(ROOT / "c" / "include")]
SECONDS = 60
# Loads the library before the program alone.
PRELOADED = 'export LD_PRELOAD="$CHANGED"; exec "$@"'
# Bulk OUT 02 with packets of 64 bytes; it expects the same three times, as requests do.
DEVICES = """device 0 0902190001010080320904000001ff00000007050202400000
script 0 02 a:0102 a:0102 a:0102
"""
REQUESTS = """device 0 0902190001010080320904000001ff00000007050202400000
control 0 40 02 0000 0000 a:0102 a:0102 a:0102
"""
MADE = "sent: status 0, 2 bytes, as it was\n"


class Case(NamedTuple):
    """A change, the text that the program runs against, and the one thing that is told; nothing where it is empty."""

    change: str
    devices: str
    told: str
    printed: str = MADE * 3


CASES = [
    Case("", DEVICES, ""),
    Case("flip 2", DEVICES, "1 difference; the first: device 0, endpoint 02: packet 2 differs at offset 0: came [00]02 (length 2), "
                            "expected [01]02 (length 2)"),
    Case("lose 2", DEVICES, "1 expected packet never came; the first is packet 3: expected 0102 (length 2)"),
    # The script has no room for a fourth, which is the third one of the program: it waits until its time is over.
    Case("double 2", DEVICES, "packet 4 is more than the script takes", MADE * 2 + "sent: status 2, 0 bytes, as it was\n"),
    Case("flip 2 requests", DEVICES, ""),
    Case("", REQUESTS, ""),
    Case("flip 2 requests", REQUESTS, "1 difference; the first: device 0, requests 40 02 0000 0000: request 2 differs at offset 0: "
                                      "came [00]02 (length 2), expected [01]02 (length 2)"),
    Case("flip 2", REQUESTS, ""),
]


def built(folder: pathlib.Path) -> None:
    compiler = os.environ.get("CC", "cc")
    subprocess.run([compiler, *FLAGS, SOURCE, "-L", ROOT / "bin", "-lusb-1.0", "-o", folder / "sends"], check=True)
    subprocess.run([compiler, *FLAGS, "-fPIC", "-shared", CHANGED, "-o", folder / "changed.so"], check=True)


def environment(case: Case, folder: pathlib.Path) -> Dict[str, str]:
    clean = {name: value for name, value in os.environ.items() if not name.startswith("TIRNOUCH_")}
    done = {"TIRNOUCH_CHANGED_DONE": str(folder / "done"), "CHANGED": str(folder / "changed.so")}
    return {**clean, **done, **({"TIRNOUCH_CHANGED": case.change} if case.change else {})}


def faults(case: Case, folder: pathlib.Path) -> List[str]:
    """What is wrong with the run of a case."""
    devices, done = folder / "devices.txt", folder / "done"
    devices.write_text(case.devices)
    done.unlink(missing_ok=True)
    kind = ["requests"] if case.devices == REQUESTS else []
    words = [RUN, devices, "--", "sh", "-c", PRELOADED, "sh", folder / "sends", *kind]
    ran = subprocess.run(words, env=environment(case, folder), capture_output=True, text=True, timeout=SECONDS, check=False)
    told = [it for it in ran.stderr.splitlines() if "the core of this library is not proved" not in it]
    found = []
    if ran.stdout != case.printed:
        found.append(f"it printed {ran.stdout!r}")
    if ran.returncode != (3 if case.told else 0):
        found.append(f"status {ran.returncode}")
    if not any(case.told in it for it in told) if case.told else told:
        found.append(f"told: {told}")
    if done.exists() != bool(case.told):
        found.append("another write was changed")
    return [f"{case.change or 'nothing'}, {' '.join(kind) or 'transfers'}: {it}" for it in found]


def main() -> int:
    with tempfile.TemporaryDirectory(prefix="changed-writes-test-") as name:
        folder = pathlib.Path(name)
        built(folder)
        found = [faults(it, folder) for it in CASES]
    print("".join(f"{line}\n" for lines in found for line in lines), end="")
    failed = sum(1 for lines in found if lines)
    print(f"{len(found) - failed} passed, {failed} failed")
    return 1 if failed else 0


if __name__ == "__main__":
    sys.exit(main())
