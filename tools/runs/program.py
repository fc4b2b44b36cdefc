"""A program that is watched: its environment, its process group, its end; and what is said of it."""
import errno
import os
import pathlib
import resource
import shutil
import signal
import sys
from typing import Dict, NoReturn, Sequence

# The status of a run that the limit ended.
OVER = 124
# How many seconds the library has, behind the limit, to end the run by itself; and a program behind a SIGTERM.
SLACK, GRACE = 2.0, 1.0


class Speaker:
    """The program that the user has started, in whose name something is told."""

    name = "tirnouch-run"


def tell(*sentences: str) -> None:
    """Each sentence is a line of its own."""
    sys.stdout.flush()
    for sentence in sentences:
        print(f"{Speaker.name}: {sentence}", file=sys.stderr, flush=True)


def end_by(number: int) -> NoReturn:
    """Ends this process by the signal that ended the program, without a second core file."""
    resource.setrlimit(resource.RLIMIT_CORE, (0, 0))
    if number not in (signal.SIGKILL, signal.SIGSTOP):  # these can't be caught or blocked
        signal.signal(number, signal.SIG_DFL)
        signal.pthread_sigmask(signal.SIG_UNBLOCK, {number})
    os.kill(os.getpid(), number)
    os._exit(128 + number)


def program_environment() -> Dict[bytes, bytes]:
    """The environment as it came: Python may have put in a locale of its own."""
    try:
        block = pathlib.Path("/proc/self/environ").read_bytes()
    except OSError:
        return dict(os.environb)
    return dict(one.split(b"=", 1) for one in block.split(b"\0") if b"=" in one)


def become(words: Sequence[str], environment: Dict[bytes, bytes]) -> NoReturn:
    """Becomes the program; a text without a first line that names its interpreter is a shell's, as a shell has it."""
    for number in (signal.SIGPIPE, signal.SIGXFSZ):
        signal.signal(number, signal.SIG_DFL)
    try:
        try:
            os.execvpe(words[0], words, environment)
        except OSError as error:
            if error.errno != errno.ENOEXEC:
                raise
            os.execve("/bin/sh", ["sh", shutil.which(words[0]) or words[0], *words[1:]], environment)
    except OSError as error:
        tell(f"{words[0]} can't be run: {error.strerror}")
        os._exit(127 if error.errno == errno.ENOENT else 126)


def signal_group(group: int, number: int) -> bool:
    """Whether there was somebody in the group."""
    try:
        os.killpg(group, number)
    except ProcessLookupError:
        return False
    except PermissionError:
        pass
    return True
