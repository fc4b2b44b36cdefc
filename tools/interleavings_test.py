#!/usr/bin/env python3
"""Whether the search of all schedules finds a hang: tools/interleavings_test.py [NAME ..].

In a copy of c/usb a wake-up is left out, one at a time. A scene of tools/interleavings has to hang, and to hang again by the schedule that
was told. Needs the core in bin/ (`make c-try`); some seconds of the processor's each. With the word `rattle` it is the library's turn: in
the built program a function that wakes or waits does nothing, one at a time. Status 1 where one isn't found."""
import pathlib
import re
import shutil
import subprocess
import sys
import tempfile
from typing import Dict, List, NamedTuple, Optional

ROOT = pathlib.Path(__file__).resolve().parent.parent
sys.path[:0] = [str(ROOT / "tools"), str(ROOT / "tools" / "interleavings")]

import planted  # noqa: E402
import programs  # noqa: E402
from searched import Limits, searched  # noqa: E402

HANG = "no thread can go on"


class Fault(NamedTuple):
    """A wrong body: its file and function, what is left out there, what stands in its place; and the scene that hangs."""

    file: str
    function: str
    left_out: str
    instead: str
    scene: str


FAULTS: Dict[str, Fault] = {
    "an_interrupt_wakes_nobody": Fault("events.c", "void libusb_interrupt_event_handler", "    wake(x);\n", "", "interrupt"),
    "an_interrupt_is_lost_before_events": Fault("events.c", "static int handle_events", "    context->is_working = true;\n",
                                                "    context->is_working = true;\n    context->is_interrupted = false;\n", "interrupt"),
    "the_event_lock_tells_nobody": Fault("events.c", "void step_down", "        pthread_cond_broadcast(&context->moved);\n", "        {}\n",
                                         "event_lock"),
    "who_leaves_tells_nobody": Fault("events.c", "void tell_leaver", "        pthread_cond_signal(&context->left);\n", "        {}\n",
                                     "exit_amid_events"),
    "a_submission_tells_no_handler": Fault("inline.h", "static inline void wake", "        ring(context);\n", "        {}\n",
                                           "submission_to_a_handler"),
    "waiters_are_not_told": Fault("events.c", "void tell_lockers", "    pthread_cond_broadcast(&context->happened);\n", "",
                                  "event_waiters"),
}

# Functions that do nothing, each with a scene that fails.
SILENT: Dict[str, str] = {
    "usb_library::wakes::Waiting::wake_all": "a_read",
    "usb_library::wakes::Watchers::wake_workers": "nothing_to_do",
    "usb_library::library::Library::wake_if": "a_read",
    "usb_library::library::Library::wake_row": "a_read",
    "usb_library::library::Library::stop_workers": "nothing_to_do",
    "usb_library::library::Library::leave": "a_read_without_an_answer",
    "usb_workers::park::Parking::park": "a_read",
    "core::atomic::wake": "a_read",
}


def write_wrong(fault: Fault, folder: pathlib.Path) -> None:
    """A copy of the sources with this fault."""
    for part in ("usb", "include"):
        shutil.copytree(ROOT / "c" / part, folder / "c" / part)
    file = folder / "c" / "usb" / fault.file
    text = file.read_text()
    at = text.index(fault.left_out, text.index(f"\n{fault.function}("))
    file.write_text(text[:at] + fault.instead + text[at + len(fault.left_out):])


def search(folder: pathlib.Path, scene: str, *more: str) -> "subprocess.CompletedProcess[str]":
    """Tries a scene over these sources."""
    words = [sys.executable, str(ROOT / "tools" / "interleavings"), "c", "--sources", str(folder), "--only", scene, *more]
    return subprocess.run(words, capture_output=True, text=True)


def wrong(fault: Fault) -> Optional[str]:
    """What is wrong with the search, if something is."""
    with tempfile.TemporaryDirectory(prefix="interleavings-") as room:
        folder = pathlib.Path(room)
        write_wrong(fault, folder)
        ran = search(folder, fault.scene)
        told = re.search(r"--schedule (\S+): ", ran.stdout)
        if ran.returncode != 1 or HANG not in ran.stdout or not told:
            return f"not found: {ran.stdout}{ran.stderr}"
        again = search(folder, fault.scene, "--schedule", told[1])
        return None if HANG in again.stdout else f"not found again by {told[1]}: {again.stdout}{again.stderr}"


def silent() -> int:
    """How many functions of the library may do nothing, and no scene fails."""
    count = 0
    with tempfile.TemporaryDirectory(prefix="interleavings-") as room:
        folder = pathlib.Path(room)
        right = programs.rattle_program(ROOT, folder)
        for function, scene in SILENT.items():
            planted.do_nothing(right.file, function, folder / "planted")
            found = searched(programs.Program("rattle", folder / "planted"), scene, Limits(bound=0, seconds=20), folder)
            print(f"{function}: {found.faults[0].strip().splitlines()[0] if found.faults else 'not found'}", flush=True)
            count += not found.faults
    return count


def main(names: List[str]) -> int:
    """0 where all are found."""
    if names == ["rattle"]:
        return 1 if silent() else 0
    count = 0
    for name, fault in FAULTS.items():
        if not names or name in names:
            why = wrong(fault)
            count += why is not None
            print(f"{name}: {why or 'found'}", flush=True)
    return 1 if count else 0


if __name__ == "__main__":
    sys.exit(main(sys.argv[1:]))
