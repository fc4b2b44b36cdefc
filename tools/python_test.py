#!/usr/bin/env python3
"""Runs the Python tests of c/example, as README.md and docs/PYTHON.md run them, over bin/libusb-1.0.so.0.

    tools/python_test.py        the test beside devices.txt under tools/tirnouch-run; the same over a meter that answers otherwise, which
                                has to fail; the tests of c/example/python
    tools/python_test.py all    these; the tests of python/tests; the tests of c/example/python over the wheel alone, in a fresh
                                environment; mypy and ruff over python/

It needs a Python that has pytest and pyusb; all else is optional. What is missing is skipped and reported, and the status is 0; it is 1
where a test differs."""
import os
import pathlib
import shutil
import subprocess
import sys
import tempfile
import time
from typing import Iterator, Optional, Sequence

import python_wheel

ROOT = pathlib.Path(__file__).resolve().parent.parent
EXAMPLE = ROOT / "c" / "example"
LIBRARY = ROOT / "bin" / "libusb-1.0.so.0"
RUN = ROOT / "tools" / "tirnouch-run"
# A module, and the package of Debian that has it.
MODULES = {"pytest": "python3-pytest", "usb.core": "python3-usb"}
OPTIONAL = {"usb1": "python3-libusb1", "hid": "python3-hid", "xdist": "python3-pytest-xdist"}
CHECKERS = {"mypy": ["mypy", "--config-file", "pyproject.toml"], "ruff": ["ruff", "check", "."]}
STEERING = ("TIRNOUCH_", "LIBUSB_DEBUG", "PYTEST_")
SECONDS = 300
# A program that ends with 0 where the stick of tirnouch.devices is there.
FIND = "import sys, usb.core\nsys.exit(usb.core.find(idVendor=0x1209, idProduct=0x0007) is None)"
# What pytest's manual says of its exit codes: all passed; some failed.
PASSED, FAILED = 0, 1


def has(python: str, modules: Sequence[str]) -> bool:
    """Whether this Python can import all of these."""
    words = [python, "-c", "".join(f"import {module}\n" for module in modules)]
    try:
        return subprocess.run(words, cwd="/", capture_output=True, timeout=SECONDS, check=False).returncode == 0
    except OSError:
        return False


def find_python() -> Optional[str]:
    """A Python that has pytest and pyusb."""
    return next((it for it in dict.fromkeys((sys.executable, "/usr/bin/python3")) if has(it, list(MODULES))), None)


def run(words: Sequence[object], folder: pathlib.Path, is_alone: bool = False) -> "subprocess.CompletedProcess[str]":
    """Runs a command in a folder, without what steers the library from outside; alone it doesn't see this repository's package."""
    environment = {key: value for key, value in os.environ.items() if not key.startswith(STEERING) and key != "PYTHONPATH"}
    environment["PYTHONDONTWRITEBYTECODE"] = "1"
    if not is_alone:
        environment["PYTHONPATH"] = os.pathsep.join(filter(None, [str(ROOT / "python"), os.environ.get("PYTHONPATH", "")]))
    done = [str(word) for word in words]
    try:
        return subprocess.run(done, cwd=folder, env=environment, capture_output=True, text=True, timeout=SECONDS, check=False)
    except subprocess.TimeoutExpired as error:
        return subprocess.CompletedProcess(done, -1, "", f"it didn't end within {SECONDS} seconds: {error}")


def pytest(python: str) -> list[str]:
    """The words that run pytest and leave nothing behind."""
    return [python, "-m", "pytest", "-q", "-rs", "-p", "no:cacheprovider"]


def in_processes(python: str) -> list[str]:
    """The words for as many processes as there are processors, where pytest-xdist is there."""
    return ["-n", str(min(4, len(os.sched_getaffinity(0))))] if has(python, ["xdist"]) else []


def judge(name: str, ran: "subprocess.CompletedProcess[str]", status: int) -> Iterator[str]:
    """What is wrong with a run that is to end with this status."""
    if ran.returncode != status:
        yield f"{name}: status {ran.returncode}, and {status} was expected\n{ran.stdout[-3000:]}{ran.stderr[-2000:]}"


def faults(python: str) -> Iterator[str]:
    """What is wrong with the tests."""
    test, devices = EXAMPLE / "test_meter.py", EXAMPLE / "devices.txt"
    yield from judge("c/example/test_meter.py", run([RUN, devices, "--", *pytest(python), test], ROOT), PASSED)
    with tempfile.TemporaryDirectory() as folder:
        other = pathlib.Path(folder) / "devices.txt"
        other.write_text(devices.read_text().replace("d:2a", "d:2b"))
        yield from judge("c/example/test_meter.py over another meter", run([RUN, other, "--", *pytest(python), test], ROOT), FAILED)
    yield from judge("c/example/python", run(pytest(python), EXAMPLE / "python"), PASSED)


def package_faults(python: str) -> Iterator[str]:
    """What is wrong with the tests of the package, and what its checkers say."""
    ran = run([*pytest(python), *in_processes(python), "tests"], ROOT / "python")
    yield from judge("python/tests", ran, PASSED)
    for line in ran.stdout.splitlines():
        if line.startswith("SKIPPED"):
            print(f"skipped: {line.partition('] ')[2]}")
    for name, words in CHECKERS.items():
        if shutil.which(name):
            more = ["--python-executable", python] if name == "mypy" else []
            yield from judge(name, run([*words, *more], ROOT / "python"), 0)
        else:
            print(f"skipped: there is no {name}")


def wheel_faults(python: str) -> Iterator[str]:
    """What is wrong with the wheel alone: its library runs the examples in an environment that has nothing else of this repository."""
    builder = python_wheel.builder()
    if not builder or not has(python, ["venv", "ensurepip"]):
        print(f"skipped: no Python here has what builds a wheel (apt-get install {python_wheel.PACKAGES} python3-venv)")
        return
    with tempfile.TemporaryDirectory() as name:
        folder = pathlib.Path(name)
        try:
            wheel = python_wheel.build(builder, folder / "wheel")
        except RuntimeError as error:
            yield f"the wheel can't be built: {error}"
            return
        shutil.copytree(EXAMPLE, folder / "example", ignore=shutil.ignore_patterns("__pycache__"))
        install = ["-m", "pip", "install", "-q", "--no-index", "--no-deps", "--disable-pip-version-check", wheel]
        for words in ([python, "-m", "venv", "--system-site-packages", folder / "venv"], [folder / "venv/bin/python", *install]):
            found = list(judge("the wheel's environment", run(words, folder, True), 0))
            if found:
                yield from found
                return
        alone = str(folder / "venv/bin/python")
        (folder / "example/python/conftest.py").unlink()
        yield from judge("the wheel alone", run([*pytest(alone), *in_processes(python)], folder / "example/python", True), PASSED)
        where = run([alone, "-c", "from tirnouch.library import load\nprint(load().path)"], folder, True)
        if not where.stdout.startswith(str(folder / "venv")):
            yield f"the wheel takes another library: {where.stdout}{where.stderr}"
        (folder / "disk.img").write_bytes(bytes(512 * 64))
        serve = [alone, "-m", "tirnouch", "serve", "tirnouch.devices.stick disk.img", "--", alone, "-c", FIND]
        yield from judge("the wheel's tirnouch.devices", run(serve, folder, True), 0)


def main(words: Sequence[str]) -> int:
    """The status."""
    if list(words) not in ([], ["all"]):
        print(__doc__)
        return 2
    if not LIBRARY.is_file():
        print(f"there is no {LIBRARY}: build it by `make c-try`")
        return 1
    python = find_python()
    if not python:
        print(f"skipped: no Python here has {' and '.join(MODULES)} (apt-get install {' '.join(MODULES.values())})")
        return 0
    for module, package in OPTIONAL.items():
        if not has(python, [module]):
            print(f"skipped: {python} lacks {module} (apt-get install {package})")
    found: list[str] = []
    began = time.monotonic()
    for part in (faults, package_faults, wheel_faults) if words else (faults,):
        found += part(python)
    print("".join(f"{it}\n" for it in found) or f"the Python tests are as expected, in {time.monotonic() - began:.0f} seconds\n", end="")
    return 1 if found else 0


if __name__ == "__main__":
    sys.exit(main(sys.argv[1:]))
