"""The wrong bodies whose turn it is: a twentieth of those beside the gate, chosen by a commit's files, and tried until some processor
minutes are spent.

Each is looked for where it is: the prover checks the function that it changes, then that function's module, then the crate, until one of
these isn't proved. It takes the libraries that the gate has just left below crates/, so it proves nothing else."""
import hashlib
import os
import pathlib
import re
import resource
import shutil
import subprocess
import tempfile
import threading
from concurrent.futures import ThreadPoolExecutor
from typing import Callable, Dict, List, NamedTuple, Optional, Tuple

import edits
import prover
from wrong_goals import first_goal

# Of how many edits one is chosen; the processor seconds of a turn, and of one check at most; what a check isn't begun without.
SHARE, BUDGET, MOST, LEAST = 20, 360.0, 120.0, 25.0
REFUSED, PROVED, BAD, UNKNOWN = "refused", "proved", "bad", "unknown"
# The prover's own limits, which it meets wherever it checks the same.
LIMIT = re.compile(r"antt ran out of (stack|the (steps|memory) that the check of one declaration may (take|use))"
                   r"|(outgrew the memory limit|stopped at the step limit) \(")
# What the prover says of a text that it can't read, in place of a goal.
UNREAD = re.compile(r"is not in scope|has no field|is no name|operand is missing|expected the end|cannot continue")


class Tried(NamedTuple):
    """What came of an edit: one of the four words, the goal that refuses it, why it isn't known or is bad, and the processor seconds."""

    word: str
    goal: Optional[str]
    why: str
    seconds: float


def content() -> str:
    """The sum of the files of the commit that stands here; nothing where git doesn't know one."""
    ran = subprocess.run(["git", "rev-parse", "HEAD^{tree}"], cwd=edits.ROOT, capture_output=True, text=True)
    return ran.stdout.strip() if ran.returncode == 0 else ""


def name_of(edit: pathlib.Path) -> str:
    return f"{edit.parent.name}/{edit.stem}"


def turn(content: str, found: List[pathlib.Path]) -> List[pathlib.Path]:
    """The edits whose turn it is with these files, in the order in which they are tried: anybody gets the same ones."""
    by_sum = sorted(found, key=lambda it: hashlib.sha256(f"{content} {name_of(it)}".encode()).digest())
    return by_sum[: -(-len(found) // SHARE)]


class Purse:
    """Processor seconds, of which each check is lent some, at most so many: no more are spent than were there."""

    def __init__(self, seconds: float, most: float = MOST) -> None:
        self.left, self.most, self.lent, self.changed = seconds, most, 0, threading.Condition()

    def lend(self) -> int:
        """Seconds for a check; 0 where too few are left, and none will come back."""
        with self.changed:
            self.changed.wait_for(lambda: self.left >= LEAST or not self.lent)
            if self.left < LEAST:
                return 0
            given = int(min(self.most, self.left))
            self.left -= given
            self.lent += 1
            return given

    def give_back(self, given: float, spent: float) -> None:
        with self.changed:
            self.left += given - spent
            self.lent -= 1
            self.changed.notify_all()


class Checked(NamedTuple):
    """What the prover printed and how it ended; and the processor seconds that it took."""

    lines: List[str]
    status: int
    seconds: float


def run(words: List[str], folder: pathlib.Path, most: int) -> Checked:
    """Runs the prover in a folder for so many processor seconds at most."""
    with tempfile.TemporaryFile("w+", errors="replace") as out:
        limit = lambda: resource.setrlimit(resource.RLIMIT_CPU, (most, most))
        it = subprocess.Popen(words, cwd=folder, stdin=subprocess.DEVNULL, stdout=out, stderr=subprocess.STDOUT, preexec_fn=limit)
        _, status, used = os.wait4(it.pid, 0)
        it.returncode = os.waitstatus_to_exitcode(status)
        out.seek(0)
        return Checked(out.read().rstrip("\n").split("\n"), it.returncode, used.ru_utime + used.ru_stime)


def cannot_read(lines: List[str], changed: Dict[str, str]) -> Optional[str]:
    """The line that says that an edited text, or one of src or specs, can't be read, if there is one: then no contract was tried."""
    for line in lines:
        at = re.match(r"(?:\./)?(\S+?):\d+:\d+: error: (?:(`[^`]*`): )?(.*)", line)
        if at and (at[1] in changed or at[1].startswith(("src/", "specs/"))):
            if not at[2] or UNREAD.search(re.sub(r"`[^`]*`", "", at[3])):
                return line
    return None


def judged(it: Checked, changed: Dict[str, str], most: int) -> Tuple[str, Optional[str], str]:
    """What a check of an edited crate shows: a word, the goal, and why."""
    last = it.lines[-1]
    if it.status == 0:
        return PROVED, None, ""
    if it.status == 1 and last.startswith(("only=", "logic=not-proved")):
        unread = cannot_read(it.lines, changed)
        return (BAD, None, f"the prover can't read it: {unread[:160]}") if unread else (REFUSED, first_goal(it.lines), "")
    if it.status == 3 and any(map(LIMIT.search, it.lines)):
        return REFUSED, first_goal([line for line in it.lines if ": error" in line]), ""
    error = next((line for line in it.lines if re.search(r"\berror\[[\w-]+\]", line)), None)
    if it.status == 1 and error:
        return BAD, None, f"it doesn't reach the prover: {error[:160]}"
    if it.status < 0:
        return UNKNOWN, None, f"its check was ended by signal {-it.status}, behind {it.seconds:.0f} of at most {most} processor seconds"
    return UNKNOWN, None, f"its check ended with status {it.status}: {last[:160]}"


def tried(edit: pathlib.Path, purse: Purse) -> Tried:
    """Has the prover refuse an edit, in a copy of its crate."""
    crate, seconds = edits.CRATES / edit.parent.name, 0.0
    try:
        texts = edits.applied(edit, crate)
    except edits.Misfit as why:
        return Tried(BAD, None, str(why), 0.0)
    words = prover.check_words(crate.name)
    with tempfile.TemporaryDirectory(prefix="wrong-body-") as room:
        folder = pathlib.Path(room)
        for part in edits.PARTS:
            if (crate / part).is_dir():
                shutil.copytree(crate / part, folder / part)
        for file, text in texts.items():
            (folder / file).write_text(text)
        for place in edits.places(edit, crate):
            given = purse.lend()
            if not given:
                return Tried(UNKNOWN, None, "no processor time is left", seconds)
            it = run([*words, *(["--only", place] if place else [])], folder, given)
            purse.give_back(given, it.seconds)
            seconds += it.seconds
            word, goal, why = judged(it, texts, given)
            # (a name that the prover doesn't know, or knows twice, ends with status 2)
            if word in (REFUSED, BAD) or not place or (word == UNKNOWN and it.status != 2):
                return Tried(word, goal, why, seconds)
    raise AssertionError("the last place is the crate")


def try_turn(chosen: List[pathlib.Path], seconds: float, tell: Callable[[str, Tried], None]) -> None:
    """Tries the chosen edits, as many at a time as there are processors, and tells what came of each, in their order. No more processor
    seconds are spent."""
    purse = Purse(seconds)
    with ThreadPoolExecutor(os.cpu_count()) as pool:
        for edit, it in zip(chosen, pool.map(lambda edit: tried(edit, purse), chosen)):
            tell(name_of(edit), it)
