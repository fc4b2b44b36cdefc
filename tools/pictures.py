#!/usr/bin/env python3
"""The pictures of docs/pictures, drawn by the built program, each from the worked row of its name (rows/NAME.in), but for those that are
drawn by hand (BY_HAND).

    tools/pictures.py draw    draws them anew
    tools/pictures.py check   says which of them the program draws otherwise; the gate asks it once all is built
"""
import pathlib
import subprocess
import sys

ROOT = pathlib.Path(__file__).resolve().parent.parent
PROGRAM = ROOT / "bin" / "usbtrace"
PICTURES = ROOT / "docs" / "pictures"
BY_HAND = {"overview"}


def drawn(name):
    """The picture of a worked row, or None where the program doesn't draw it."""
    with (ROOT / "rows" / f"{name}.in").open("rb") as scenario:
        ran = subprocess.run([PROGRAM, "draw"], stdin=scenario, capture_output=True, timeout=60)
    return ran.stdout if ran.returncode == 0 else None


def main(words):
    if words not in (["draw"], ["check"]):
        print(__doc__)
        return 2
    if not PROGRAM.is_file():
        print(f"there is no {PROGRAM.relative_to(ROOT)}: make run builds it")
        return 1
    failed = 0
    for picture in sorted(it for it in PICTURES.glob("*.svg") if it.stem not in BY_HAND):
        now = drawn(picture.stem)
        if now is None:
            print(f"{picture.relative_to(ROOT)}: the program doesn't draw it")
            failed = 1
        elif words == ["draw"]:
            picture.write_bytes(now)
        elif now != picture.read_bytes():
            print(f"{picture.relative_to(ROOT)}: the program draws another: tools/pictures.py draw")
            failed = 1
    return failed


sys.exit(main(sys.argv[1:]))
