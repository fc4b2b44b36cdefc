"""Drivers by pyusb and hidapi, each a process of its own over the library itself: a test starts it by `drive`, and its status says whether
it failed."""
from __future__ import annotations

import functools
import os
import pathlib
import shlex
import subprocess
import sys
import tempfile
from typing import Optional, Sequence

from tests.libusb import PATH, lacking

HERE = pathlib.Path(__file__).resolve().parent
PYTHON = HERE.parents[1]
PACKAGES = {"usb.core": "python3-usb", "hid": "python3-hid", "pyvisa_py": "python3-pyvisa-py"}
SECONDS = 60


@functools.lru_cache(maxsize=None)
def python_with(module: str) -> Optional[str]:
    """A Python that has a module; None where none has."""
    for python in dict.fromkeys((sys.executable, "/usr/bin/python3")):
        words = [python, "-c", f"import {module}"]
        if os.access(python, os.X_OK) and not subprocess.run(words, cwd="/", capture_output=True, timeout=SECONDS, check=False).returncode:
            return python
    return None


def lacking_driver(module: str) -> Optional[str]:
    """Why a driver of this module isn't run; None where it is."""
    if python_with(module):
        return lacking()
    return f"no Python here has {module}: apt-get install {PACKAGES[module]}"


def steered(**words: str) -> "dict[str, str]":
    """The environment of a process over the library: time is virtual, unless these words say otherwise."""
    kept = {key: value for key, value in os.environ.items() if not key.startswith(("TIRNOUCH_", "LIBUSB_", "PYTHON"))}
    return {**kept, "TIRNOUCH_LIBRARY": str(PATH), "TIRNOUCH_TIME": "virtual", "LD_LIBRARY_PATH": str(PATH.parent),
            "PYTHONPATH": f"{PYTHON}:{PYTHON / 'devices'}", "PYTHONDONTWRITEBYTECODE": "1", **words}


def program_line(number: int, *words: object) -> str:
    """The line of a text for a device that is a program in Python."""
    command = ["env", f"PYTHONPATH={PYTHON}", "PYTHONDONTWRITEBYTECODE=1", sys.executable, *words]
    return f"program {number} {shlex.join(map(str, command))}\n"


def run(words: Sequence[object], **steering: str) -> "subprocess.CompletedProcess[str]":
    """A process over the library."""
    return subprocess.run([str(word) for word in words], env=steered(**steering), cwd=PYTHON, capture_output=True, text=True,
                          timeout=SECONDS, check=False)


def drive(name: str, module: str, text: str = "", **steering: str) -> None:
    """A driver of this folder runs to its end; `text` has devices that are programs. AssertionError with what it said where it fails."""
    python = python_with(module)
    assert python
    with tempfile.TemporaryDirectory() as folder:
        if text:
            path = pathlib.Path(folder) / "devices.txt"
            path.write_text(text)
            steering["TIRNOUCH_DEVICES"] = str(path)
        ran = run([python, HERE / name], **steering)
    if ran.returncode or ran.stdout != "done\n":
        raise AssertionError(f"{name}: status {ran.returncode}\n{ran.stdout}{ran.stderr}")
