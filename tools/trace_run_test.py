#!/usr/bin/env python3
"""Tries tools/tirnouch-run on the traces of runs: tools/trace_run_test.py [NAME ..], all or these trials. A driver is run against a text of
devices, and once more, without editing anything, against the trace of that run: it prints the same, its status is 0, and nothing is told.
A driver that writes another byte than it did ends with status 3, and that is told.

The drivers are those of c/tests/run/again, over bin/libusb-1.0.so.0; bin/usbtrace reads the traces. What they print follows from their
devices' texts by docs/DEVICES.md, and what is told by its "What the driver writes"."""
import os
import pathlib
import re
import subprocess
import sys
import tempfile
from concurrent.futures import ThreadPoolExecutor
from typing import Callable, Dict, List, NamedTuple, Optional, Tuple

ROOT = pathlib.Path(__file__).resolve().parent.parent
RUN, REPLAY = ROOT / "tools" / "tirnouch-run", ROOT / "tools" / "replay.py"
USBTRACE, SOURCES = ROOT / "bin" / "usbtrace", sorted((ROOT / "c" / "tests" / "run" / "again").glob("*.c"))
FLAGS = ["-std=c11", "-O1", "-D_GNU_SOURCE", "-Wall", "-Wextra", "-pedantic", "-I", str(ROOT / "c" / "include")]
SECONDS = 120
# Bulk IN 81 and OUT 02 with packets of 64 bytes; the same at full speed with a second interface; and interrupt IN 81.
BULK = "0902200001010080320904000002ff0000000705810240000007050202400000"
TWO = "0902290002010080320904000002ff00000007058102400000070502024000000904010000ff000000"
INTERRUPT = "0902190001010080320904000001ff00000007058103080001"
HUB = "09021900010100e0000904000001090000000705810301000c"
# So often is a request asked that is answered `n` (DEVICES.md, "Control requests"): the answers of one that has none before another.
SILENT = " n" * 4096
UNPROVED = "tirnouch-run: the core of this library is not proved"

Ran = subprocess.CompletedProcess[str]


def counting(first: int, length: int) -> str:
    return "".join(f"{(first + i) % 256:02x}" for i in range(length))


class Case(NamedTuple):
    """A driver of c/tests/run/again: its devices, what it prints, what is told where its first written byte has another bit, and options of its runs."""

    kind: str
    devices: str
    printed: str
    told: str
    words: Tuple[str, ...] = ()


CASES = [
    # Fields of a request are told as in DEVICES.md: type, number, value, index.
    Case("requests", f"""device 0 {BULK}
control 0 c0 01 0000 0000 d:{counting(3, 300)} d:0102
control 0 40 * * * a
control 0 c0 05 0000 0000 b s
""", f"""asked: {counting(3, 300)}
asked: 0102
told: 200
told: 4096
asked: LIBUSB_ERROR_PIPE
told: 0
asked: LIBUSB_ERROR_IO
asked: LIBUSB_ERROR_PIPE
""", f"device 0, requests 40 02 0007 0001: request 1 differs at offset 0: came [03]{counting(3, 16)}.. (length 200), "
         f"expected [02]{counting(3, 16)}.. (length 200)"),
    # Where time is virtual each request is asked before it is over.
    Case("silent", f"""device 0 {BULK}
control 0 c0 01 0000 0000{SILENT} d:0102 d:03{SILENT}{SILENT} d:04 n
control 0 40 02 0007 0001 a{SILENT} a
control 0 c0 03 0000 0000{SILENT} d:05
control 0 c0 04 0000 0000 n
""", """asked: LIBUSB_ERROR_TIMEOUT
asked: 0102
asked: 03
asked: LIBUSB_ERROR_TIMEOUT
asked: LIBUSB_ERROR_TIMEOUT
asked: 04
asked: LIBUSB_ERROR_TIMEOUT
asked: LIBUSB_ERROR_TIMEOUT
told: 3
told: -7
told: 3
it waits
cancelled: 1
asked: 05
it waits
""", "device 0, requests 40 02 0007 0001: request 1 differs at offset 0: came [03]0304 (length 3), expected [02]0304 (length 3)",
         ("--virtual",)),
    Case("tells", f"""device 0 {TWO}
ids 0 1209 0001 0203
class 0 02 01 03
speed 0 full
string 0 1 Maker of things
string 0 2 u:4d006500740065007200
string 0 5 Spare
driver 0 1
script 0 02 a
""", """1209:0001 0203, class 02 01 03, strings 1 2 0
speed 2, driver 0 1
string 1: Maker of things
string 2: Meter
string 3: LIBUSB_ERROR_PIPE
string 4: LIBUSB_ERROR_PIPE
string 5: Spare
written: all, 1
""", "device 0, endpoint 02: packet 1 differs at offset 0: came [08] (length 1), expected [09] (length 1)"),
    # A hub, a device that nobody opens, and the one that is used; by their addresses from 2 on.
    Case("lists", f"""device 0 {HUB}
class 0 09 00 00
control 0 a0 06 2900 0000 d:0929040000320064ff
device 1 {BULK}
ids 1 1209 0002
string 1 2 Unused
device 2 {BULK}
ids 2 1209 0003
script 2 02 a
script 2 81 d:0102
after 2 81 0 02 1
""", """1209:0001 at 2
1209:0002 at 3
1209:0003 at 4
hub: 0929040000320064ff
written: all, 2
read: 0102
""", "device 2, endpoint 02: packet 1 differs at offset 0: came [02]03 (length 2), expected [03]03 (length 2)"),
    Case("waits", f"""device 0 {INTERRUPT}
control 0 40 * * * a
script 0 81 d:0a d:0b d:0c
after 0 81 0 00 1
after 0 81 1 00 2
after 0 81 2 00 3
""", "it waits\ntold: 0\nevent: 0a\nit waits\ntold: 1\nevent: 0b\nit waits\ntold: 2\nevent: 0c\n",
         "device 0, requests 40 06 0007 0001: request 1 differs at offset 0: came [07] (length 1), expected [06] (length 1)"),
    # The thread that reads gets a byte for each one that was written.
    Case("threads", f"""device 0 {BULK}
script 0 02 a a a a a a a a
script 0 81 d:20 d:21 d:22 d:23 d:24 d:25 d:26 d:27
{"".join(f"after 0 81 {i} 02 {i + 1}" + chr(10) for i in range(8))}{"".join(f"control 0 c0 01 {i:04x} 0000 d:{0x11 * i:02x}" + chr(10)
                                                                     for i in range(8))}""",
         "read: 2021222324252627\nfailures: 0\n",
         "device 0, endpoint 02: packet 1 differs at offset 0: came [01] (length 1), expected [00] (length 1)"),
    # Two reads are polled in vain; and 02 takes one packet, so that the second write waits until its time is over.
    Case("stalls", f"""device 0 {BULK}
script 0 02 a
script 0 81 d:0102 s d:03
after 0 81 2 81 2
""", """written: all, 3
read: 0102
read: LIBUSB_ERROR_PIPE
polled: LIBUSB_ERROR_TIMEOUT
polled: LIBUSB_ERROR_TIMEOUT
polled: 03
written: LIBUSB_ERROR_TIMEOUT, 0
""", "device 0, endpoint 02: packet 1 differs at offset 0: came [00]0101 (length 3), expected [01]0101 (length 3)"),
    # The second answer waits for the write in the second run; a halted endpoint stalls meanwhile.
    Case("halts", f"device 0 {BULK}\nscript 0 02 a\nscript 0 81 s d:01\n",
         "read: LIBUSB_ERROR_PIPE\nread: LIBUSB_ERROR_PIPE\nwritten: all, 3\nread: LIBUSB_ERROR_PIPE\nread: 01\n",
         "device 0, endpoint 02: packet 1 differs at offset 0: came [00]0101 (length 3), expected [01]0101 (length 3)"),
    # A reset begins the scripts anew (DEVICES.md, "The lines").
    Case("resets", f"device 0 {BULK}\nscript 0 02 a\nscript 0 81 d:01 d:02\n",
         "written: all, 1\nread: 01\nread: 02\nreset: 0\nwritten: all, 1\nread: 01\n",
         "device 0, endpoint 02: packet 1 differs at offset 0: came [00] (length 1), expected [01] (length 1)"),
    Case("returns", f"device 0 {BULK}\nscript 0 02 a\nscript 0 81 d:01 d:02\nleaves 0 81 1\n",
         "written: all, 2\nread: 01\nread: LIBUSB_ERROR_NO_DEVICE\n",
         "device 0, endpoint 02: packet 1 differs at offset 0: came [05]04 (length 2), expected [04]04 (length 2)"),
    Case("loader", f"""device 0 {BULK}
device 1 {BULK}
ids 1 1209 0002
script 0 02 a
script 0 81 d:01
leaves 0 81 1
script 1 02 a
script 1 81 d:02
comes back 0 as 1
""", "the second is not there\nwritten: all, 2\nread: 01\nwritten: all, 2\nread: 02\n",
         "device 0, endpoint 02: packet 1 differs at offset 0: came [05]04 (length 2), expected [04]04 (length 2)"),
    # 300,000 bytes are 4,688 packets, of which the last has 32 bytes.
    Case("large", f"device 0 {BULK}\nscript 0 02{' a' * 4688}\nscript 0 81{(' d:' + '5a' * 64) * 4687} d:{'5b' * 32}\n",
         "written: 0, 300000\nread: 0, 300000, last 5b\n",
         f"device 0, endpoint 02: packet 1 differs at offset 0: came [01]{counting(1, 16)}.. (length 64), "
         f"expected [00]{counting(1, 16)}.. (length 64)"),
    # Device 1 has a function amid the run, and so a core of its own, in which it is device 0: its script, and then the function's answers.
    Case("moves", f"""device 0 {BULK}
control 0 c0 01 0000 0000 d:a0
script 0 02 a a
script 0 81 d:01 d:02
device 1 {BULK}
ids 1 1209 0002
control 1 c0 01 0000 0000 d:b0
control 1 c0 03 0000 0000 n
script 1 02 a a a
script 1 81 d:11
""", """written: all, 2
read: 11
asked: b0
written: all, 2
read: 01
asked: a0
it waits
moves: 0
withdrawn: 3, 0
written: all, 2
event: 31
written: all, 2
read: 32
asked: b0
written: all, 2
read: 02
asked: a0
""", "device 1, endpoint 02: packet 1 differs at offset 0: came [03]02 (length 2), expected [02]02 (length 2)"),
    Case("twice", f"device 0 {BULK}\nscript 0 02 a\n", "written: all, 1\nwritten: all, 1\n",
         "device 0, endpoint 02: packet 1 differs at offset 0: came [00] (length 1), expected [01] (length 1)"),
]
# A device that is a program: it counts what is written, and tells that at 81, and by a vendor request in 300 bytes; before that it isn't ready.
COUNTER = """count=0
while read -r kind first second; do
    case $kind in
    hello)
        echo "device $first %s"
        echo "ids $first 1209 0001"
        echo "string $first 2 Counter"
        echo ok
        ;;
    out) count=$((count + 1)) && echo a ;;
    in) test $count -gt 0 && printf 'd:%%02x\\n' $count || echo n ;;
    control) case $first in c0*) test $count -gt 0 && printf 'd:%%0600d\\n' $count || echo n ;; *) echo a ;; esac ;;
    esac
done
""" % BULK


class Trial:
    """A folder of its own, in which runs are made; and what was wrong."""

    def __init__(self, program: pathlib.Path, folder: pathlib.Path) -> None:
        self.program, self.folder = program, folder
        (folder / "tmp").mkdir()
        self.faults: List[str] = []

    def check(self, is_so: bool, sentence: str) -> None:
        if not is_so:
            self.faults.append(sentence)

    def run(self, *words: str) -> Ran:
        """tirnouch-run with these words; it leaves no file but those that it was to write."""
        clean: Dict[str, str] = {name: value for name, value in os.environ.items() if not name.startswith(("TIRNOUCH_", "LIBUSB_"))}
        # One driver closes a handle with a request in flight, which libusb's manual forbids.
        more = {"TMPDIR": str(self.folder / "tmp"), "TIRNOUCH_MISUSE": "no"}
        ran = subprocess.run([RUN, *words], cwd=self.folder, env={**clean, **more}, capture_output=True,
                             text=True, timeout=SECONDS, check=False)
        left = list((self.folder / "tmp").iterdir())
        self.check(not left, f"{words}: files were left: {left}")
        return ran

    def go(self, devices: str, kind: str, *words: str, changed: bool = False) -> Ran:
        return self.run(devices, *words, "--limit", "60s", "--", str(self.program), kind, *(["changed"] if changed else []))

    def record(self, devices: str, kind: str, *words: str) -> Ran:
        """The first run: its trace is run.txt."""
        (self.folder / "devices.txt").write_text(devices)
        return self.go("devices.txt", kind, "--trace", "run.txt", *words)

    def expect(self, ran: Ran, status: int, *sentences: str) -> None:
        self.check(ran.returncode == status, f"status {ran.returncode}, not {status}: {ran.stdout[-600:]!r} {ran.stderr[-1500:]!r}")
        for it in sentences:
            self.check(it in ran.stdout + ran.stderr, f"{it!r} isn't in {ran.stdout[-600:]!r} {ran.stderr[-1500:]!r}")

    def passes(self, ran: Ran, printed: str, when: str) -> None:
        """It printed this, and nothing is told."""
        told = [line for line in ran.stderr.splitlines() if not line.startswith(UNPROVED)]
        self.check(ran.returncode == 0 and not told, f"{when}: status {ran.returncode}, {told}")
        self.check(ran.stdout == printed, f"{when}: printed {ran.stdout[-600:]!r}, not {printed[-600:]!r}")

    def text(self, *words: str) -> List[str]:
        """The lines that are made of run.txt, for a program that does nothing."""
        self.expect(self.run("run.txt", "--text", "kept.txt", "--lenient", *words, "--", "true"), 0)
        file = self.folder / "kept.txt"
        return file.read_text().splitlines() if file.is_file() else []


def round_trip(case: Case) -> Callable[[Trial], None]:
    def passes_again(trial: Trial) -> None:
        trial.passes(trial.record(case.devices, case.kind, *case.words), case.printed, "first")
        trial.passes(trial.go("run.txt", case.kind, *case.words, "--trace", "again.txt"), case.printed, "again")
        trial.passes(trial.go("again.txt", case.kind, *case.words), case.printed, "once more")
        ran = trial.go("run.txt", case.kind, *case.words, changed=True)
        trial.expect(ran, 3, case.told, "what " + str(trial.program) + " wrote isn't what run.txt expects: status 3 in place of 0")
        trial.expect(trial.go("run.txt", case.kind, *case.words, "--lenient", changed=True), 0, case.told)
        ran = trial.go("run.txt", case.kind, *case.words, "--seeds", "1-3")
        trial.expect(ran, 0, "3 runs, 0 failed")
    passes_again.__name__ = f"{case.kind}: the run passes again"
    return passes_again


def seeds_are_repeated_too(trial: Trial) -> None:
    """Whatever the dice of the first run were."""
    for case in CASES:
        if case.kind == "large":
            continue
        for seed in ("3", "8"):
            words = (*case.words, "--seed", seed)
            trial.passes(trial.record(case.devices, case.kind, *words), case.printed, f"{case.kind}, seed {seed}")
            trial.passes(trial.go("run.txt", case.kind, *case.words), case.printed, f"{case.kind}, behind seed {seed}")


def programs_are_in_their_own_traces(trial: Trial) -> None:
    """A device that computes, beside one that is scripted: their traces are joined, and nothing computes in the second run."""
    (trial.folder / "counter.sh").write_text(COUNTER)
    devices = f"program 0 sh counter.sh\ndevice 1 {BULK}\nids 1 1209 0003\nscript 1 02 a\nscript 1 81 d:77\n"
    counted = "".join(f"{it:02x}" for it in range(1, 9))
    trial.passes(trial.record(devices, "counts"), f"read: {counted}\nasked: {8:0600d}\n", "counts")
    trial.check((trial.folder / "run.txt.d0").is_file(), "the program has no trace of its own")
    (trial.folder / "counter.sh").unlink()
    trial.passes(trial.go("run.txt", "counts"), f"read: {counted}\nasked: {8:0600d}\n", "counts again")
    ran = trial.go("run.txt", "counts", changed=True)
    trial.expect(ran, 3, "device 0, endpoint 02: packet 1 differs at offset 0: came [00] (length 1), expected [01] (length 1)")
    lines = trial.text()
    for line in (f"device 0 {BULK}", "string 0 2 Counter", f"device 1 {BULK}"):
        trial.check(line in lines, f"{line!r} isn't in {lines}")
    trial.check(trial.text("--device", "1209:0003")[1] == f"device 0 {BULK}", "--device doesn't choose the second device")
    (trial.folder / "run.txt.d0").unlink()
    trial.expect(trial.go("run.txt", "counts"), 2, "run.txt.d0 isn't there, which has the steps of device 0: keep it beside run.txt")


def requests_without_answers_wait_again(trial: Trial) -> None:
    """The text has them in their places, and the trace tells of each: where it waits, and how it ends; of one that the process leaves behind
    that it waits."""
    case = next(it for it in CASES if it.kind == "silent")
    trial.record(case.devices, case.kind, *case.words)
    wanted = [line.replace(" a", " a:020304") for line in case.devices.splitlines() if line.startswith("control ")]
    found = [line for line in trial.text() if line.startswith("control ")]
    trial.check(found == wanted, f"the lines are {[line.replace(SILENT, ' ..') for line in found]}")
    told = [line for line in (trial.folder / "run.txt").read_text().splitlines() if line.startswith("# request ")]
    trial.check(told.count("# request 0 c0 01 0000 0000 8 waits") == 5 and "# request 0 40 02 0007 0001 3 waits 020304" in told,
                f"the trace has {told}")
    ends = [told.count(f"# request 0 {it}") for it in ("TIMED_OUT", "CANCELLED", "NO_DEVICE")]
    trial.check(ends == [6, 2, 0], f"the trace has so many ends of each kind: {ends}")
    waits = next(it for it in CASES if it.kind == "waits")
    printed = re.sub("told: .", "told: -7", waits.printed)
    trial.passes(trial.record(waits.devices.replace("* a\n", "* n\n"), "waits", "--virtual"), printed, "answers that wait for them")
    trial.passes(trial.go("run.txt", "waits", "--virtual"), printed, "answers that wait for them, again")
    devices = f"device 0 {BULK}\ncontrol 0 c0 03 0000 0000 d:07 n\n"
    for words in ((), ("--seed", "3")):
        trial.passes(trial.record(devices, "vanishes", *words), "asked: 07\nit waits\n", f"vanishes, {words}")
        trial.check(devices.splitlines()[1] in trial.text(), f"a request that is left behind: {trial.text()}")
        trial.passes(trial.go("run.txt", "vanishes", *words), "asked: 07\nit waits\n", f"vanishes again, {words}")


def programs_that_are_not_ready_wait_again(trial: Trial) -> None:
    """A request that a device that computes isn't ready for, before one that it answers."""
    (trial.folder / "counter.sh").write_text(COUNTER)
    printed = f"asked: LIBUSB_ERROR_TIMEOUT\nwritten: all, 1\nasked: {1:0600d}\n"
    trial.passes(trial.record("program 0 sh counter.sh\n", "readies", "--virtual"), printed, "readies")
    trial.check(f"control 0 c0 01 0000 0000{SILENT} d:{1:0600d}" in trial.text(), "the text hasn't the request that waits")
    trial.passes(trial.go("run.txt", "readies", "--virtual"), printed, "readies again")
    trial.expect(trial.go("run.txt", "readies", "--virtual", "--seeds", "1-3"), 0, "3 runs, 0 failed")


# A device's traces where it goes on in another session: a read that is taken out before it was answered, and one of which a packet came.
HEAD = '# What the core did. "usbtrace run" does it once more.\n'
BEGUN = f"{HEAD}device 0 {BULK}\n# descriptor 0 120100020000004009120100000100000001\nopen 0 0\n# done\nclaim 0 0\n# done\n"
ENDED = "command\ndeliver\ndeliver\ncommand\ndeliver\ntake\nreturn 0 {}\nclose 0\n"
TAKEN_OUT = """submit 0 81 bulk 64
# number 0
submit 0 81 bulk 65
# number 1
feed 0 81 d:{}
serve 0 81
feed 0 81 d:{}
serve 0 81
deliver
take
return 0 0
# device 0 goes on in another session: what is in flight is taken out
cancel 0 1
""" + ENDED.format(1)
GONE_ON = "submit 0 81 bulk 1\n# number 0\nfeed 0 81 d:07\nserve 0 81\ndeliver\ntake\nreturn 0 0\n"


def sessions_are_joined(trial: Trial) -> None:
    """A driver knows nothing of them: no read of its own was withdrawn, and no answer waits for that (docs/DEVICES.md, `after`)."""
    packets = "01" * 64, "02" * 64
    (trial.folder / "run.txt").write_text(f"{HEAD}# device 0 has a core of its own\n")
    (trial.folder / "run.txt.d0").write_text(BEGUN + TAKEN_OUT.format(*packets))
    (trial.folder / "run.txt.d0.2").write_text(BEGUN + GONE_ON)
    wanted = [f"device 0 {BULK}", "descriptor 0 120100020000004009120100000100000001", "lasts 0",
              f"script 0 81 d:{packets[0]} d:{packets[1]} d:07"]
    trial.check(trial.text()[1:] == wanted, f"the text is {trial.text()[1:]}")
    withdrawn = "submit 0 81 bulk 8\n# number 0\ncancel 0 0\n" + ENDED.format(0)
    (trial.folder / "run.txt.d0").write_text(BEGUN + withdrawn)
    trial.check(trial.text()[4:] == [], "a session that is older than the one before counts")
    (trial.folder / "run.txt.d0.2").write_text(BEGUN + GONE_ON)
    trial.check("after 0 81 0 81 1" in trial.text(), f"a read that the driver withdrew isn't one: {trial.text()}")
    moved = withdrawn.replace("cancel", "# device 0 goes on in another session: what is in flight is taken out\ncancel")
    (trial.folder / "run.txt.d0").write_text(BEGUN + moved)
    trial.check(trial.text()[4:] == ["script 0 81 d:07"], f"a read that went on is withdrawn: {trial.text()}")
    late = withdrawn.replace("cancel 0 0\n", "cancel 0 0\n# device 0 goes on in another session: what is in flight is taken out\n")
    (trial.folder / "run.txt.d0").write_text(BEGUN + late)
    trial.check("after 0 81 0 81 1" in trial.text(), f"a read that the driver withdrew as the session ended isn't one: {trial.text()}")


ASKED = "# request 0 c0 01 0000 0000 8 {}\n"


def requests_go_on_in_sessions(trial: Trial) -> None:
    """One that waits as a session ends ends in the next one, with an answer or without."""
    (trial.folder / "run.txt").write_text(f"{HEAD}# device 0 has a core of its own\n")
    writes = "# request 0 40 02 0007 0001 2 {}\n"
    for first, then, wanted in (
            (ASKED, ASKED.format("COMPLETED 1 07"), "c0 01 0000 0000 d:07"), (ASKED, "", "c0 01 0000 0000 n"),
            (ASKED, "# request 0 TIMED_OUT\n", "c0 01 0000 0000 n"),
            (ASKED, "# request 0 NO_DEVICE\n" + ASKED.format("STALL"), f"c0 01 0000 0000{SILENT} s"),
            (ASKED, ASKED.format("ERROR") + ASKED.format("waits"), "c0 01 0000 0000 b n"),
            (writes, writes.format("COMPLETED 2 0102"), "40 02 0007 0001 a:0102"),
            (writes, writes.format("COMPLETED 2 0102") + writes.format("waits 0304"), "40 02 0007 0001 a:0102 n")):
        (trial.folder / "run.txt.d0").write_text(BEGUN + first.format("waits 0102" if first is writes else "waits"))
        (trial.folder / "run.txt.d0.2").write_text(BEGUN + then)
        found = [line for line in trial.text() if line.startswith("control ")]
        trial.check(found == [f"control 0 {wanted}"], f"behind {then!r}: {[it.replace(SILENT, ' ..') for it in found]}")


def standard_requests_wait_too(trial: Trial) -> None:
    """A string that is read in vain, and then not: a line answers in the place of the descriptors. And a line has 65536 answers."""
    string = "# request 0 80 06 0302 0409 255 {}\n"
    (trial.folder / "run.txt").write_text(BEGUN + string.format("waits") + "# request 0 TIMED_OUT\n" + string.format("COMPLETED 4 04034100"))
    lines = trial.text()
    trial.check(f"control 0 80 06 0302 0409{SILENT} d:04034100" in lines, f"the text is {[it.replace(SILENT, ' ..') for it in lines]}")
    (trial.folder / "run.txt").write_text(BEGUN + (ASKED.format("waits") + "# request 0 CANCELLED\n") * 17 + ASKED.format("COMPLETED 1 07"))
    lines = trial.text()[-2:]
    trial.check(lines == ["# control c0 01 0000 0000: the first 65536 of 69633 answers", "control 0 c0 01 0000 0000" + SILENT * 16],
                f"the text ends with {[it.replace(SILENT, ' ..') for it in lines]}")


def buses_have_texts_of_their_own(trial: Trial) -> None:
    """Where they did different things: the second bus reads what the first one didn't. A change is told of the bus that has it."""
    printed = "written: all, 1\nwritten: all, 1\nread: 01\n"
    trial.passes(trial.record(f"device 0 {BULK}\nscript 0 02 a\nscript 0 81 d:01\n", "otherwise"), printed, "first")
    trial.passes(trial.go("run.txt", "otherwise", "--trace", "again.txt"), printed, "again")
    trial.passes(trial.go("again.txt", "otherwise", "--text", "kept.txt"), printed, "once more")
    made = [sum(line.startswith("script ") for line in (trial.folder / it).read_text().splitlines()) for it in ("kept.txt", "kept.txt.2")]
    trial.check(made == [1, 2], f"the texts have {made} scripts")
    trial.expect(trial.go("run.txt", "otherwise", changed=True), 3, "packet 1 differs at offset 0: came [00] (length 1), expected [01]")
    trial.expect(trial.go("run.txt", "otherwise", "--seeds", "1-2"), 0, "2 runs, 0 failed")
    os.utime(trial.folder / "run.txt.2", (1, 1))
    (trial.folder / "kept.txt.2").unlink()
    trial.text()
    trial.check(not (trial.folder / "kept.txt.2").exists(), "an old trace counts as that of another bus")


def devices_of_a_second_bus_move(trial: Trial) -> None:
    """Into cores of their own, whose traces stand beside that bus's: of the first bus the device has none."""
    case = next(it for it in CASES if it.kind == "moves")
    printed = "written: all, 2\nread: 01\nasked: a0\n" + case.printed
    for words in ((), ("--seed", "3"), ("--seed", "8")):
        trial.passes(trial.record(case.devices, "moves_later", *words), printed, f"first, {words}")
        there = sorted(it.name for it in trial.folder.glob("run.txt*"))
        trial.check(there == ["run.txt", "run.txt.2", "run.txt.2.d1"], f"the traces are {there}")
        trial.passes(trial.go("run.txt", "moves_later", "--text", "kept.txt", "--trace", "again.txt"), printed, f"again, {words}")
        trial.passes(trial.go("again.txt", "moves_later"), printed, f"once more, {words}")
        texts = [(trial.folder / it).read_text().splitlines() for it in ("kept.txt", "kept.txt.2")]
        found = [[line for line in text if line.startswith("script 1 81")] for text in texts]
        trial.check(found == [[], ["script 1 81 d:11 d:31 d:32"]], f"device 1 has {found}")
        trial.check("after 1 81 1 81 1" in texts[1], f"the read that the driver withdrew isn't one: {texts[1]}")
    trial.expect(trial.go("run.txt", "moves_later", "--seeds", "1-3"), 0, "3 runs, 0 failed")


def a_trace_is_told_from_a_text(trial: Trial) -> None:
    """By its first line, and by a step."""
    case = next(it for it in CASES if it.kind == "resets")
    trial.record(case.devices, case.kind)
    whole = (trial.folder / "run.txt").read_text()
    (trial.folder / "run.txt").write_text("\n" + whole.partition("\n")[2])
    trial.passes(trial.go("run.txt", case.kind), case.printed, "without its first line")
    trial.expect(trial.run("devices.txt", "--text", "made.txt", "--", "true"), 2, "isn't a capture")
    trial.expect(trial.run("run.txt", "--descriptors", "devices.txt", "--", "true"), 2, "run.txt is a trace")
    trial.expect(trial.go("run.txt", case.kind, "--device", "1209:0009"), 2, "run.txt has no device 1209:0009; it has device 0 (1209:0001)")
    lines = whole.splitlines()
    (trial.folder / "run.txt").write_text("\n".join([*lines[:lines.index("take")], "submit 0 99"]) + "\n")
    trial.expect(trial.go("run.txt", case.kind), 2, "run.txt: usbtrace: line")
    (trial.folder / "run.txt").write_text(lines[0] + "\n")
    trial.expect(trial.go("run.txt", case.kind), 2, "run.txt has no device")


def comments_change_nothing(trial: Trial) -> None:
    """What usbtrace makes of a trace is the same without the comments, for each of its words; and replaying it agrees."""
    case = next(it for it in CASES if it.kind == "lists")
    trial.record(case.devices, case.kind)
    trace = (trial.folder / "run.txt").read_bytes()
    without = re.sub(rb"(?m)^#.*$", b"", trace)
    trial.check(trace.count(b"\n# descriptor ") == 3 and b"\n# string 1 2 Unused\n" in trace, "the trace has no such comments")
    for word in ("capture", "run", "left", "draw", "devices"):
        made: List[Optional[bytes]] = []
        for text in (trace, without):
            ran = subprocess.run([USBTRACE, word], input=text, capture_output=True, timeout=SECONDS, check=False)
            made.append(None if ran.returncode else ran.stdout)
        trial.check(made[0] == made[1] and (word == "devices" or made[0] is not None), f"usbtrace {word} differs")
    ran = subprocess.run([REPLAY, USBTRACE, trial.folder / "run.txt"], capture_output=True, text=True, timeout=SECONDS, check=False)
    trial.check(ran.returncode == 0, f"replay: {ran.stdout!r} {ran.stderr!r}")


TRIALS = [*map(round_trip, CASES), seeds_are_repeated_too, programs_are_in_their_own_traces, requests_without_answers_wait_again,
          programs_that_are_not_ready_wait_again, sessions_are_joined, requests_go_on_in_sessions, standard_requests_wait_too,
          buses_have_texts_of_their_own, devices_of_a_second_bus_move, a_trace_is_told_from_a_text, comments_change_nothing]
TRIALS_NAMED = {it.__name__.partition(":")[0]: it for it in TRIALS}


def build(folder: pathlib.Path) -> pathlib.Path:
    program = folder / "again"
    subprocess.run([os.environ.get("CC", "cc"), *FLAGS, *SOURCES, "-L", ROOT / "bin", "-lusb-1.0", "-pthread", "-o", program], check=True)
    return program


def attempt(trial_of: Callable[[Trial], None], program: pathlib.Path) -> List[str]:
    with tempfile.TemporaryDirectory(prefix="trace-run-test-") as folder:
        trial = Trial(program, pathlib.Path(folder))
        try:
            trial_of(trial)
        except (subprocess.TimeoutExpired, OSError, ValueError) as error:
            trial.faults.append(str(error))
    return [f"{trial_of.__name__.replace('_', ' ')}: {it}" for it in trial.faults]


def main() -> int:
    chosen = [TRIALS_NAMED[it] for it in sys.argv[1:]] or TRIALS
    if not USBTRACE.is_file():
        print("skipped: there is no bin/usbtrace, which reads traces (make run builds one)")
        return 0
    with tempfile.TemporaryDirectory(prefix="trace-run-test-") as folder:
        program = build(pathlib.Path(folder))
        with ThreadPoolExecutor(4) as pool:
            found = list(pool.map(lambda it: attempt(it, program), chosen))
    print("".join(f"{line}\n" for lines in found for line in lines), end="")
    failed = sum(1 for lines in found if lines)
    print(f"{len(found) - failed} passed, {failed} failed")
    return 1 if failed else 0


if __name__ == "__main__":
    sys.exit(main())
