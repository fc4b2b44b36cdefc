"""python3 -m tirnouch serve: a program over devices of Python, without a test."""
from __future__ import annotations

import argparse
import contextlib
import importlib
import importlib.util
import inspect
import os
import pathlib
import shlex
import signal
import sys
from types import ModuleType
from typing import Any, List, NoReturn, Optional, Sequence

from tirnouch import Device, LibraryError, SourceError, file, recorded
from tirnouch.programs import begun
from tirnouch.sources import USBTRACE, place_of

USAGE = """python3 -m tirnouch serve DEVICES .. [--seed N] [--virtual] [--limit TIME] [--trace FILE] [--library FILE] -- PROGRAM ..
       python3 -m tirnouch usbtrace WORD .."""
TEXT = """Runs a program that uses libusb 1.0, unchanged, over devices. DEVICES are files: meter.py, which has one class of
tirnouch.Device, or meter.py:Meter for one of several, or a module in its place, as tirnouch.devices.stlink; a capture, .pcap or .pcapng; or
else a text of devices. The words of a class stand behind its name, in quotes: "tirnouch.devices.stick disk.img". The status is the
program's; 3 where that is 0 and it wrote something else than is expected, 1 where it is 0 and a device's method raised an exception, 124
where the limit ended it, 2 where these words are wrong, 126 or 127 where there is no such program, or no library. The other form is
usbtrace, as `usbtrace explain < trace`."""
WRONG, DIFFERS, FAILED, NOT_RUN, NOT_THERE = 2, 3, 1, 126, 127
CAPTURES = (".pcap", ".pcapng")


def stop(status: int, sentence: str) -> NoReturn:
    """Ends with a sentence."""
    print(f"tirnouch: {sentence}", file=sys.stderr)
    sys.exit(status)


def module_of(name: str) -> Optional[ModuleType]:
    """The module of a file, meter.py, or of a name, tirnouch.devices.stick. None where it is neither."""
    if not name.endswith(".py"):
        is_there = False
        with contextlib.suppress(ModuleNotFoundError, ValueError):
            is_there = "." in name and importlib.util.find_spec(name) is not None
        return importlib.import_module(name) if is_there else None
    spec = importlib.util.spec_from_file_location(pathlib.Path(name).stem, name)
    if spec is None or spec.loader is None or not pathlib.Path(name).is_file():
        stop(WRONG, f"there is no file {name}")
    module = importlib.util.module_from_spec(spec)
    sys.modules[spec.name] = module
    sys.path.insert(0, str(pathlib.Path(name).resolve().parent))
    spec.loader.exec_module(module)
    return module


def device_of(word: str) -> Any:
    """The device of a file's or a module's name, and of the words of its class behind that."""
    words = [word] if pathlib.Path(word).is_file() else shlex.split(word)
    path, _, name = words[0].partition(":") if words else ("", "", "")
    module = None if pathlib.Path(path).is_file() and not path.endswith(".py") else module_of(path)
    if module is None:
        return recorded(word) if word.endswith(CAPTURES) else file(word)
    found = {key: it for key, it in vars(module).items()
             if isinstance(it, type) and issubclass(it, Device) and it.__module__ == module.__name__}
    if name and name not in found:
        stop(WRONG, f"{path} has no device {name}; it has {', '.join(found) or 'none'}")
    if not name and len(found) != 1:
        example = f": say which, as {path}:{next(iter(found))}" if found else ""
        stop(WRONG, f"{path} has {len(found) or 'no'} device{'s' if len(found) != 1 else ''}{example}")
    return made(found[name] if name else next(iter(found.values())), words)


def made(kind: Any, words: Sequence[str]) -> Any:
    """A device of a class, of the words behind its name."""
    try:
        inspect.signature(kind.__init__ if kind.__init__ is not object.__init__ else bare).bind(None, *words[1:])
    except TypeError as error:
        stop(WRONG, f"{words[0]}: the words of {kind.__name__} stand behind it, in quotes, as \"{words[0]} WORD\": {error}")
    return kind(*words[1:])


def bare(_device: Any) -> None:
    """What a class without __init__ takes."""


def serve(asked: argparse.Namespace, program: Sequence[str]) -> int:
    """The status."""
    try:
        devices = [device_of(it) for it in asked.devices]
        time = "virtual" if asked.virtual else "real"
        with begun(program, devices, asked.seed, time, asked.limit, asked.trace, None, None, asked.library, None, False) as it:
            before = signal.signal(signal.SIGINT, signal.SIG_IGN)   # the terminal interrupts the program, too
            it.communicate()
            signal.signal(signal.SIGINT, before)
            status, report, faults = it.status(), it.report(), it.served.faults
    except (SourceError, TypeError, ValueError) as error:
        stop(WRONG, str(error))
    except LibraryError as error:
        stop(NOT_THERE, str(error))
    except OSError as error:
        stop(NOT_THERE if isinstance(error, FileNotFoundError) else NOT_RUN, f"{error.filename or program[0]}: {error.strerror}")
    for it_ in faults:
        print(f"{it_.traceback}tirnouch: {it_}", file=sys.stderr)
    if status == 0 and report:
        print("tirnouch: what it wrote isn't what the devices expect: status 3 in place of 0", file=sys.stderr)
    return 128 - status if status < 0 else status or (DIFFERS if report else FAILED if faults else 0)


def usbtrace(words: Sequence[str]) -> NoReturn:
    """The program of traces, that of the wheel or of the repository, in the place of this one."""
    program = place_of(USBTRACE)
    if program is None:
        stop(NOT_THERE, f"there is no {USBTRACE[-1]}: build it by `make run`; a wheel that is built behind that has it")
    os.execv(program, [str(program), *words])


def main(words: List[str]) -> int:
    """The status."""
    if words[:1] == ["usbtrace"]:
        usbtrace(words[1:])
    parser = argparse.ArgumentParser(prog="python3 -m tirnouch", usage=USAGE, description=TEXT)
    parser.add_argument("command", choices=["serve"])
    parser.add_argument("devices", nargs="+")
    parser.add_argument("--seed", type=int, default=0)
    parser.add_argument("--virtual", action="store_true")
    parser.add_argument("--limit")
    parser.add_argument("--trace")
    parser.add_argument("--library")
    at = words.index("--") if "--" in words else len(words)
    asked = parser.parse_args(words[:at])
    if not words[at + 1 :]:
        stop(WRONG, "which program? Put it behind --: python3 -m tirnouch serve meter.py -- ./driver")
    return serve(asked, words[at + 1 :])


if __name__ == "__main__":
    sys.exit(main(sys.argv[1:]))
