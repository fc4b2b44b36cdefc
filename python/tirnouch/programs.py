"""Programs of other processes, unchanged, over devices of this one: `run`, and `python -m tirnouch serve`.

A device of this process is a `program` line of the text that the program's library reads (docs/DEVICES.md): relay.py passes its questions
on to a socket, where a thread answers them."""
from __future__ import annotations

import contextlib
import os
import pathlib
import shlex
import signal
import socket
import subprocess
import sys
import tempfile
import threading
import traceback
from typing import Any, Dict, Iterator, List, Mapping, NamedTuple, Optional, Sequence, Union

from tirnouch import protocol
from tirnouch.buses import MOST_SEED, TIMES, Fault, Places, entry_of, own_part
from tirnouch.device import Device
from tirnouch.library import HERE, NAME, LibraryError, load
from tirnouch.limits import milliseconds_of
from tirnouch.sources import PathLike

# The status of a run that its limit ended, and how many seconds the library has to end it by itself.
OVER, SLACK = 124, 2.0
RELAY = HERE / "relay.py"
Words = Sequence[Union[str, "os.PathLike[str]"]]


class Completed(NamedTuple):
    """A run that has ended: its status, as the shell has it, negative for a signal; what it wrote to standard output and standard error;
    and what of it isn't as texts and recordings expect, a sentence each."""

    status: int
    output: str
    errors: str
    report: List[str]


class Served:
    """Devices that answer for a program of another process, while `with` lasts."""

    def __init__(self, devices: Sequence[Any], folder: pathlib.Path) -> None:
        self.faults: List[Fault] = []
        self.folder = folder
        self.places = Places([entry_of(it) for it in devices])
        self.listeners: List[socket.socket] = []
        self.threads: List[threading.Thread] = []
        commands = {number: self.command(number) for number, it in enumerate(self.places.devices) if it is not None}
        self.text = "".join(f"{line}\n" for line in lines_of(self.places, commands))

    def command(self, number: int) -> str:
        """The command that asks a device of this process."""
        return shlex.join([sys.executable, "-I", "-S", str(RELAY), str(self.folder / f"device{number}")])

    def __enter__(self) -> Served:
        for number, device in enumerate(self.places.devices):
            if device is None:
                continue
            if device._wake is not None or device._watcher is not None:
                raise ValueError(f"{device} is in a bus already: that one is closed first")
            device._watcher = self._watch
            listener = socket.socket(socket.AF_UNIX, socket.SOCK_STREAM)
            listener.bind(str(self.folder / f"device{number}"))
            listener.listen(8)
            self.listeners.append(listener)
            thread = threading.Thread(target=self._answer, args=(listener, device), name=f"tirnouch-device-{number}", daemon=True)
            thread.start()
            self.threads.append(thread)
        return self

    def __exit__(self, *_error: Any) -> None:
        for it in self.listeners:
            with contextlib.suppress(OSError):
                it.shutdown(socket.SHUT_RDWR)
            it.close()
        for thread in self.threads:
            thread.join(SLACK)
        for device in self.places.devices:
            if device is not None:
                device._watcher = None

    def _watch(self, device: Device, what: str, error: Exception) -> None:
        error = error.with_traceback(own_part(error))
        self.faults.append(Fault(device, what, error, "".join(traceback.format_exception(type(error), error, error.__traceback__))))

    def _answer(self, listener: socket.socket, device: Device) -> None:
        """Each bus of the program asks by a connection of its own, one behind the other."""
        while True:
            try:
                connection, _ = listener.accept()
            except OSError:
                return
            device._renew()
            device._faults.renew()
            with connection, connection.makefile("rb") as asked, connection.makefile("wb") as answers:
                with contextlib.suppress(OSError):
                    try:
                        protocol.serve(device, asked, answers)
                    except protocol.NotAQuestion as error:
                        self._watch(device, "a line of the library's", error)


def lines_of(places: Places, commands: Mapping[int, str]) -> Iterator[str]:
    """The lines of devices, where those of this process are programs, which say their own lines."""
    for line in places.text.splitlines():
        words = line.split(" ")
        own = words[1].isdigit() and int(words[1]) in commands if len(words) > 1 and not line.startswith(("#", "comes ")) else False
        if not own:
            yield line
        elif words[0] == "device":
            yield f"program {words[1]} {commands[int(words[1])]}"


def environment_of(library: str, served: Served, seed: int, time: str, trace: Optional[PathLike], limit: Optional[int],
                   env: Optional[Mapping[str, str]]) -> Dict[str, str]:
    """The variables of docs/C.md that steer the program's library."""
    here = {key: value for key, value in (os.environ if env is None else env).items() if not key.startswith("TIRNOUCH_")}
    devices = served.folder / "devices.txt"
    devices.write_text(served.text, encoding="utf-8")
    (served.folder / NAME).symlink_to(os.path.abspath(library))
    steering = {"TIRNOUCH_DEVICES": str(devices), "TIRNOUCH_DIFFERENCES": str(served.folder / "differences")}
    if seed:
        steering["TIRNOUCH_SEED"] = str(seed)
    if time == "virtual":
        steering["TIRNOUCH_TIME"] = "virtual"
    if trace is not None:
        steering["TIRNOUCH_TRACE"] = os.path.abspath(trace)
    if limit:
        steering["TIRNOUCH_LIMIT"] = str(limit)
    path = os.pathsep.join(filter(None, [str(served.folder), here.get("LD_LIBRARY_PATH", "")]))
    return {**here, **steering, "LD_LIBRARY_PATH": path}


def run(words: Words, devices: Sequence[Any] = (), *, seed: int = 0, time: str = "real", limit: Any = None,
        trace: Optional[PathLike] = None, input: Union[str, bytes, None] = None, cwd: Optional[PathLike] = None,
        env: Optional[Mapping[str, str]] = None, library: Optional[PathLike] = None) -> Completed:
    """Runs a program that uses libusb 1.0, unchanged, over these devices, which are those that `bus` takes; a Device answers in this
    process, so its attributes tell a test what became of it. `seed`, `time` and `trace` are those of `bus`. `limit`, as "10s", ends a run
    that hangs, with status 124: its errors say what was in flight. `input` is its standard input, `env` its variables in place of this
    process's own. FileNotFoundError or PermissionError where there is no such program. An exception of a device's method is raised behind
    the run."""
    if isinstance(words, (str, bytes)) or not words:
        raise TypeError(f"run takes the words of a command, as [\"lsusb\", \"-v\"], and not {words!r}")
    data = input.encode() if isinstance(input, str) else input
    with begun(words, devices, seed, time, limit, trace, cwd, env, library, subprocess.PIPE, data is not None) as it:
        output, errors = it.communicate(data)
        completed = Completed(it.status(), output.decode("utf-8", "replace"), errors.decode("utf-8", "replace"), it.report())
    if it.served.faults:
        raise it.served.faults[0].error
    return completed


class Begun:
    """A program that runs."""

    def __init__(self, served: Served, process: subprocess.Popen[bytes], limit: Optional[int]) -> None:
        self.served, self.process, self.limit, self.is_over = served, process, limit, False

    def communicate(self, data: Optional[bytes] = None) -> Sequence[bytes]:
        """What it wrote, when it has ended; it is ended somewhat behind its limit, where the library didn't."""
        try:
            return self.process.communicate(data, self.limit / 1000 + SLACK if self.limit else None)
        except subprocess.TimeoutExpired:
            self.is_over = True
            self.end()
            return self.process.communicate()

    def end(self) -> None:
        """Ends it; with what it has started, where it has a process group of its own."""
        with contextlib.suppress(ProcessLookupError, PermissionError):
            if os.getpgid(self.process.pid) == self.process.pid:
                os.killpg(self.process.pid, signal.SIGKILL)
            else:
                self.process.kill()

    def status(self) -> int:
        """Its status."""
        return OVER if self.is_over else self.process.returncode

    def report(self) -> List[str]:
        """What differs from what is expected."""
        file = self.served.folder / "differences"
        lines = file.read_text(errors="replace").splitlines() if file.is_file() else []
        found = [it[len("differs ") :] for it in lines if it.startswith("differs ")]
        return [it for it in found if not self.served.places.is_lenient(it)]


@contextlib.contextmanager
def begun(words: Words, devices: Sequence[Any], seed: int, time: str, limit: Any, trace: Optional[PathLike], cwd: Optional[PathLike],
          env: Optional[Mapping[str, str]], library: Optional[PathLike], output: Optional[int], has_input: bool) -> Iterator[Begun]:
    """The program begins, over devices that answer meanwhile."""
    if isinstance(seed, bool) or not isinstance(seed, int) or not 0 <= seed <= MOST_SEED:
        raise ValueError(f"a seed is a whole number, 0 for none, to {MOST_SEED}, and not {seed!r}")
    if time not in TIMES:
        raise ValueError(f"time is \"real\" or \"virtual\", and not {time!r}")
    milliseconds = milliseconds_of(limit)
    path = load(library).path
    if not os.path.isfile(path):
        raise LibraryError(f"{path} is no file, and a program needs one: name Tirnouch's {NAME} by `library` or TIRNOUCH_LIBRARY")
    with tempfile.TemporaryDirectory(prefix="tirnouch-") as folder, Served(devices, pathlib.Path(folder)) as served:
        environment = environment_of(path, served, seed, time, trace, milliseconds, env)
        process = subprocess.Popen([os.fspath(it) for it in words], stdin=subprocess.PIPE if has_input else None if output is None else
                                   subprocess.DEVNULL, stdout=output, stderr=output, cwd=cwd, env=environment,
                                   start_new_session=output is not None)
        it = Begun(served, process, milliseconds)
        try:
            yield it
        except BaseException:
            it.end()
            raise
        finally:
            process.wait()
