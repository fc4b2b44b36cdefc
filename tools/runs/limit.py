"""A run with a limit. The program has the terminal, and a process group of its own, so that its children end with it.

The library itself ends the run when the time is over, since it knows what is in flight; a program that doesn't get so far, or hangs
elsewhere, is ended from here somewhat later."""
import argparse
import os
import pathlib
import signal
import sys
import tempfile
import time
from typing import Dict, NoReturn, Optional, Sequence

from judged import Judgement
from program import GRACE, OVER, SLACK, become, end_by, program_environment, signal_group, tell
from traces import last_lines, numbered, traces_of

LAST_LINES = 10
# A run without a limit ends before this many seconds.
NEVER = 1e9
# What is passed on to the program: whatever asks this process to end, or tells it something.
PASSED_ON = (signal.SIGINT, signal.SIGTERM, signal.SIGHUP, signal.SIGQUIT, signal.SIGUSR1, signal.SIGUSR2, signal.SIGTSTP)


def move_terminal(source: int, target: int) -> bool:
    """Gives the terminal of standard input from one process group to another, so that this one can read and be interrupted there.
    Whether it was the first one's."""
    before = signal.signal(signal.SIGTTOU, signal.SIG_IGN)
    try:
        was_its = os.isatty(0) and os.tcgetpgrp(0) == source
        if was_its:
            os.tcsetpgrp(0, target)
        return was_its
    except OSError:
        return False
    finally:
        signal.signal(signal.SIGTTOU, before)


class Watched:
    """A program in the foreground, in a process group of its own."""

    def __init__(self, words: Sequence[str], environment: Dict[bytes, bytes]) -> None:
        self.ours = os.getpgrp()
        self.status: Optional[int] = None
        self.had_terminal = False
        heard = {it for it in PASSED_ON if signal.getsignal(it) != signal.SIG_IGN} | {signal.SIGCHLD}
        signal.signal(signal.SIGCHLD, signal.SIG_DFL)
        before = signal.pthread_sigmask(signal.SIG_BLOCK, heard)
        self.heard = heard
        self.group = os.fork()
        if self.group == 0:
            os.setpgid(0, 0)
            move_terminal(self.ours, os.getpid())
            signal.pthread_sigmask(signal.SIG_SETMASK, before)
            become(words, environment)
        try:
            os.setpgid(self.group, self.group)
        except OSError:
            pass  # it is the program already
        move_terminal(self.ours, self.group)

    def wait(self, until: float) -> bool:
        """Whether it ended before that moment. What was asked of this process meanwhile, is asked of the program."""
        while self.status is None:
            left = until - time.monotonic()
            if left <= 0:
                return False
            heard = signal.sigtimedwait(self.heard, left)
            if heard is None:
                continue
            if heard.si_signo == signal.SIGCHLD:
                until += self.look()
            else:
                signal_group(self.group, heard.si_signo)
        return True

    def look(self) -> float:
        """What became of the program; where it was stopped, this process stops too. For how long, is the answer."""
        number, status = os.waitpid(self.group, os.WNOHANG | os.WUNTRACED)
        if number and os.WIFSTOPPED(status):
            began = time.monotonic()
            move_terminal(self.group, self.ours)
            os.kill(os.getpid(), signal.SIGSTOP)
            move_terminal(self.ours, self.group)
            signal_group(self.group, signal.SIGCONT)
            return time.monotonic() - began
        if number:
            self.status = status
            self.had_terminal = move_terminal(self.group, self.ours)
        return 0

    def end(self) -> str:
        """Ends the whole group, and says by which signal."""
        signal_group(self.group, signal.SIGTERM)
        signal_group(self.group, signal.SIGCONT)
        until = time.monotonic() + GRACE
        self.wait(until)
        while self.status is not None and time.monotonic() < until:
            if not signal_group(self.group, 0):
                return "SIGTERM"
            time.sleep(0.01)
        signal_group(self.group, signal.SIGKILL)
        self.wait(time.monotonic() + 10)
        return "SIGKILL"


def tell_last_steps(name: str, since: float) -> None:
    traces = traces_of(name, since)
    if not traces:
        tell("there is no trace: no context was begun")
        return
    with max(reversed(traces), key=lambda it: it.stat().st_mtime_ns).open("rb") as file:
        lines = last_lines(file, LAST_LINES)
    tell("the last lines of its trace:" if lines else "its trace is empty")
    for line in lines:
        print(f"    {line}", file=sys.stderr, flush=True)


def end_as(program: Watched, status: int) -> NoReturn:
    """Ends as the program did."""
    sys.stdout.flush()
    if os.WIFSIGNALED(status):
        if program.had_terminal and os.WTERMSIG(status) == signal.SIGINT:
            # The keyboard interrupted the program's group alone: whoever waits in ours is to know of it.
            signal.signal(signal.SIGINT, signal.SIG_IGN)
            os.killpg(program.ours, signal.SIGINT)
        end_by(os.WTERMSIG(status))
    os._exit(os.WEXITSTATUS(status))


def judged_status(judgement: Judgement, devices: Optional[str], program: str, status: int) -> int:
    """The status as `wait` has it. Without the devices' name the run isn't judged. One that a signal ended has its hints too."""
    if devices is None:
        return status
    if not os.WIFEXITED(status):
        judgement.tell_hints()
        return status
    return judgement.status(program, devices, os.WEXITSTATUS(status)) << 8


def remove(file: Optional[pathlib.Path]) -> None:
    """Removes the text that was made for this run alone, if one was, and those of further buses."""
    for path in numbered(str(file), 0) if file else ():
        path.unlink(missing_ok=True)


def run_judged(asked: argparse.Namespace, words: Sequence[str]) -> NoReturn:
    """Runs the program, and ends as it does, or by what is judged."""
    devices = None if asked.lenient else asked.devices
    environment = program_environment()
    with tempfile.TemporaryDirectory(prefix="tirnouch-run-") as folder:
        judgement = Judgement(pathlib.Path(folder))
        environment.update(judgement.environment())
        program = Watched(words, environment)
        program.wait(time.monotonic() + NEVER)
        status = judged_status(judgement, devices, words[0], program.status or 0)
    remove(asked.remove)
    end_as(program, status)


def run_with_limit(asked: argparse.Namespace, words: Sequence[str]) -> NoReturn:
    """Runs the program, and ends as it does, or with status 124 where the limit is over. It is judged where the devices' name is said."""
    said, milliseconds, devices = asked.said, asked.milliseconds, asked.judge
    environment = program_environment()
    # A file's moment may be a little earlier than the clock.
    began, since = time.monotonic(), time.time() - 1
    with tempfile.TemporaryDirectory(prefix="tirnouch-run-") as folder:
        name = environment.setdefault(b"TIRNOUCH_TRACE", os.fsencode(folder) + b"/trace")
        judgement = Judgement(pathlib.Path(folder))
        if devices is not None:
            environment.update(judgement.environment())
        program = Watched(words, environment)
        is_in_time = program.wait(began + milliseconds / 1000 + SLACK)
        status = program.status
        # The library has told its hints then.
        is_over = is_in_time and os.WIFEXITED(status) and os.WEXITSTATUS(status) == OVER and time.monotonic() - began >= milliseconds / 1000
        if not is_in_time:
            tell(f"{words[0]} didn't end within {said}: it was ended by {program.end()}")
            tell_last_steps(os.fsdecode(name), since)
            status = None
        elif is_over:
            program.end()
            tell(f"{words[0]} didn't end within {said}: the library ended it")
            tell_last_steps(os.fsdecode(name), since)
        if status is not None and not is_over:
            status = judged_status(judgement, devices, words[0], status)
    remove(asked.remove)
    end_as(program, OVER << 8 if status is None else status)
