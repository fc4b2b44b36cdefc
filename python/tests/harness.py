"""A host for devices in tests: it asks the questions of the protocol as the library does, of a device in this process or of one that is a
program, and makes transfers of packets."""
from __future__ import annotations

import contextlib
import io
import os
import pathlib
import socket
import subprocess
import sys
from typing import Iterator, List, Optional, Tuple

from tirnouch import Device, protocol

PYTHON = pathlib.Path(__file__).resolve().parent.parent
DEVICES = PYTHON / "devices"
SECONDS = 20
# A device that isn't ready for so many questions in a row won't be.
MOST_QUESTIONS = 10_000


class Stalled(Exception):
    """The endpoint stalled, or the request was refused; `got` was read before."""

    got = b""


class Failed(Exception):
    """Another answer than was expected."""


class Host:
    """The host's side: `ask` gets a question's line and gives the answer's; None where there is none. Waits are counted, and not waited."""

    def __init__(self, device: Optional[Device] = None) -> None:
        self.device, self.waited = device, 0

    def ask(self, line: str) -> Optional[str]:
        """The answer to a line, without its end."""
        assert self.device is not None
        return protocol.answered(self.device, line.encode())

    def tell(self, line: str) -> None:
        """An event, which isn't answered."""
        answer = self.ask(line)
        if answer is not None:
            raise Failed(f"{line!r} was answered by {answer!r}")

    def settled(self, line: str) -> str:
        """The answer to a line, which is asked again while the device isn't ready."""
        for _ in range(MOST_QUESTIONS):
            answer = self.ask(line)
            if answer is None:
                raise Failed(f"{line!r} isn't answered")
            if answer.startswith("later "):
                self.waited += int(answer[len("later ") :])
            elif answer == "s":
                raise Stalled(line)
            elif answer != "n":
                return answer
        raise Failed(f"the device is never ready for {line!r}")

    def write(self, endpoint: int, data: bytes, size: int = 512) -> None:
        """A transfer to an OUT endpoint."""
        for at in range(0, max(len(data), 1), size):
            answer = self.settled(f"out {endpoint:02x} {data[at : at + size].hex()}")
            if answer != "a":
                raise Failed(answer)

    def read(self, endpoint: int, length: int, size: int = 512) -> bytes:
        """A transfer from an IN endpoint: to its length, or to a short packet."""
        got = b""
        while len(got) < length:
            try:
                answer = self.settled(f"in {endpoint:02x} {min(size, length - len(got))}")
            except Stalled as stalled:
                stalled.got = got
                raise
            if not answer.startswith("d:"):
                raise Failed(answer)
            packet = bytes.fromhex(answer[len("d:") :])
            if len(packet) > length - len(got):
                raise Failed(f"babble: {len(packet)} bytes where {length - len(got)} are left")
            got += packet
            if len(packet) < size:
                break
        return got

    def control(self, kind: int, request: int, value: int, index: int, data: "bytes | int" = b"") -> bytes:
        """A request: bytes are written, of a number so many are read."""
        length = data if isinstance(data, int) else len(data)
        fields = bytes((kind, request)) + b"".join(it.to_bytes(2, "little") for it in (value, index, length))
        answer = self.settled(f"control {fields.hex()} {b''.hex() if isinstance(data, int) else data.hex()}")
        if kind & 0x80:
            if not answer.startswith("d:"):
                raise Failed(answer)
            return bytes.fromhex(answer[len("d:") :])
        if answer != "a":
            raise Failed(answer)
        return b""


class ProgramHost(Host):
    """A device that is a program: it is started with one socket as its standard input and output."""

    def __init__(self, *words: str, folder: Optional[pathlib.Path] = None) -> None:
        super().__init__()
        self.socket, other = socket.socketpair(socket.AF_UNIX, socket.SOCK_STREAM)
        environment = {key: value for key, value in os.environ.items() if not key.startswith(("TIRNOUCH_", "PYTHON"))}
        environment.update(PYTHONPATH=str(PYTHON), PYTHONDONTWRITEBYTECODE="1")
        with other:
            self.program = subprocess.Popen([sys.executable, *words], stdin=other, stdout=other, stderr=subprocess.PIPE, cwd=folder,
                                            env=environment)
        self.socket.settimeout(SECONDS)
        self.heard = b""

    def ask(self, line: str) -> Optional[str]:
        self.say(line.encode() + b"\n")
        return self.hear()

    def tell(self, line: str) -> None:
        self.say(line.encode() + b"\n")

    def say(self, data: bytes) -> None:
        """Bytes as they are."""
        self.socket.sendall(data)

    def hear(self) -> Optional[str]:
        """The next line; None where the program ended before its end."""
        while b"\n" not in self.heard:
            more = self.socket.recv(65536)
            if not more:
                return None
            self.heard += more
        line, _, self.heard = self.heard.partition(b"\n")
        return line.decode()

    def hello(self, number: int = 0) -> List[str]:
        """The device's own lines."""
        self.say(f"hello {number}\n".encode())
        lines: List[str] = []
        while True:
            line = self.hear()
            if line is None:
                raise Failed(f"the program ended before it said ok: {lines}")
            if line == "ok":
                return lines
            lines.append(line)

    def end(self) -> Tuple[int, str]:
        """Ends it, as the library does; its status, and what it said on standard error."""
        with contextlib.suppress(OSError):
            self.socket.close()
        try:
            _, errors = self.program.communicate(timeout=SECONDS)
        except subprocess.TimeoutExpired:
            self.program.kill()
            self.program.communicate()
            raise
        return self.program.returncode, errors.decode()


@contextlib.contextmanager
def told() -> Iterator[io.StringIO]:
    """What is said on standard error meanwhile."""
    text = io.StringIO()
    with contextlib.redirect_stderr(text):
        yield text
