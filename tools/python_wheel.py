#!/usr/bin/env python3
"""Builds the package of python/ as a wheel, with the library of bin/ inside: tools/python_wheel.py [--out FOLDER].

It needs a Python that has pip, setuptools and wheel, and no network. The wheel goes into bin/, or into FOLDER; its path is the last line of
the output. The status is 1 where it can't be built, with a sentence that says why."""
import argparse
import pathlib
import shutil
import subprocess
import sys
from typing import Optional, Sequence

ROOT = pathlib.Path(__file__).resolve().parent.parent
PACKAGE = ROOT / "python"
MODULES = ("setuptools", "wheel", "pip")
PACKAGES = "python3-pip python3-setuptools python3-wheel"
SECONDS = 300


def has(python: str, modules: Sequence[str]) -> bool:
    """Whether this Python can import all of these."""
    try:
        words = [python, "-c", "".join(f"import {module}\n" for module in modules)]
        return subprocess.run(words, cwd="/", capture_output=True, timeout=SECONDS, check=False).returncode == 0
    except OSError:
        return False


def builder() -> Optional[str]:
    """A Python that builds wheels."""
    return next((it for it in dict.fromkeys((sys.executable, "/usr/bin/python3")) if has(it, MODULES)), None)


def build(python: str, out: pathlib.Path) -> pathlib.Path:
    """Builds it; the wheel's path. RuntimeError says why there is none."""
    for left in (PACKAGE / "build", PACKAGE / "tirnouch.egg-info"):
        shutil.rmtree(left, ignore_errors=True)
    out.mkdir(parents=True, exist_ok=True)
    for before in out.glob("tirnouch-*.whl"):
        before.unlink()
    words = [python, "-m", "pip", "wheel", "--no-build-isolation", "--no-deps", "--no-index", "--disable-pip-version-check", "-q", "-w",
             str(out), str(PACKAGE)]
    try:
        ran = subprocess.run(words, capture_output=True, text=True, timeout=SECONDS, check=False)
    finally:
        for left in (PACKAGE / "build", PACKAGE / "tirnouch.egg-info"):
            shutil.rmtree(left, ignore_errors=True)
    made = list(out.glob("tirnouch-*.whl"))
    if ran.returncode or not made:
        raise RuntimeError((ran.stdout + ran.stderr)[-2000:])
    return made[0]


def main() -> int:
    """The status."""
    parser = argparse.ArgumentParser(description="builds the wheel of python/")
    parser.add_argument("--out", type=pathlib.Path, default=ROOT / "bin")
    asked = parser.parse_args()
    if not (ROOT / "bin" / "libusb-1.0.so.0").is_file():
        print("there is no bin/libusb-1.0.so.0: build it by `make c-try`")
        return 1
    python = builder()
    if not python:
        print(f"no Python here has {', '.join(MODULES)} (apt-get install {PACKAGES})")
        return 1
    try:
        print(build(python, asked.out))
    except RuntimeError as error:
        print(f"the wheel can't be built:\n{error}")
        return 1
    return 0


if __name__ == "__main__":
    sys.exit(main())
