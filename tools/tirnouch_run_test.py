#!/usr/bin/env python3
"""Tries tools/tirnouch-run on programs that hang, crash, or fail with some seeds alone: tools/tirnouch_run_test.py.

The programs are those of c/tests/run/program.c, over bin/libusb-1.0.so.0. What a run with many seeds says is compared with as many runs
that are made one by one."""
import hashlib
import os
import pathlib
import pty
import re
import signal
import subprocess
import sys
import tempfile
import time
from concurrent.futures import ThreadPoolExecutor
from typing import Callable, Dict, List, Optional, Sequence

ROOT = pathlib.Path(__file__).resolve().parent.parent
RUN = ROOT / "tools" / "tirnouch-run"
TESTS = ROOT / "c" / "tests" / "run"
DEVICES = TESTS / "devices.txt"
SECONDS = 60
LAST_SEED = 40


class Trial:
    """A folder of its own, in which tirnouch-run is run; and what was wrong."""

    def __init__(self, program: pathlib.Path, folder: pathlib.Path) -> None:
        self.program, self.folder = program, folder
        self.faults: List[str] = []

    def check(self, is_so: bool, sentence: str) -> None:
        if not is_so:
            self.faults.append(sentence)

    def run(self, words: Sequence[str], env: Optional[Dict[str, str]] = None) -> "subprocess.CompletedProcess[str]":
        clean = {name: value for name, value in os.environ.items() if not name.startswith("TIRNOUCH_")}
        return subprocess.run([RUN, *words], cwd=self.folder, env={**clean, **(env or {})}, capture_output=True, text=True,
                              timeout=SECONDS, check=False)

    def go(self, kind: str, *words: str) -> "subprocess.CompletedProcess[str]":
        return self.run([str(DEVICES), *words, "--", str(self.program), *kind.split()])

    def expect(self, ran: "subprocess.CompletedProcess[str]", status: int, *sentences: str) -> None:
        """The status; and each sentence stands in what was printed."""
        self.check(ran.returncode == status, f"status {ran.returncode}, not {status}: {ran.stdout[-400:]!r} {ran.stderr[-800:]!r}")
        for sentence in sentences:
            self.check(sentence in ran.stdout + ran.stderr, f"{sentence!r} isn't in {ran.stdout[-400:]!r} {ran.stderr[-800:]!r}")

    def files(self) -> List[str]:
        return sorted(it.name for it in self.folder.iterdir())


def plain_runs_are_the_program(trial: Trial) -> None:
    trial.expect(trial.go("ends"), 0)
    trial.expect(trial.go("status", "--virtual"), 2)
    trial.expect(trial.go("aborts"), -signal.SIGABRT)
    trial.expect(trial.go("crashes", "--seed", "3"), -signal.SIGSEGV)


def wrong_words_are_refused(trial: Trial) -> None:
    refusals = {
        **{f"--seeds {it}": "decimal numbers from 1 on" for it in ("0-4", "all", "1-", "1-2-3", "-3")},
        **{f"--limit {it}": "500ms, 10s or 2m" for it in ("soon", "10", "0s", "1.5s", "ms", "-1s")},
        "--seeds 5-1": "the first one is past the last", "--seeds": "needs a word behind it", "--limit": "needs a word behind it",
        "--limit 99999999m": "the longest limit", "--jobs 2": "for many runs", "--keep-going": "for many runs",
        "--seeds 1-2 --jobs 0": "from 1 to 1000", "--seeds 1-2 --jobs many": "from 1 to 1000", "--seeds 1-2 --seed 1": "say one of them",
        "--seeds 1-2 --trace t": "a trace of its own", "--seed x": "a decimal number, from 1 on", "--quickly": "isn't known",
    }
    for words, sentence in refusals.items():
        trial.expect(trial.go("ends", *words.split()), 2, sentence)
    trial.expect(trial.run([str(DEVICES), "--limit", "1s"]), 2, "which program?")
    trial.expect(trial.run([str(DEVICES), "--limit", "1s", "--", "./nowhere"]), 127, "there is no program ./nowhere")
    trial.check(trial.files() == [], f"files were left: {trial.files()}")


def help_names_every_word(trial: Trial) -> None:
    ran = trial.run(["--help"])
    words = "--trace --seed --virtual --no-programs --lenient --limit --seeds --keep-going --jobs --version --umockdev --descriptors"
    trial.expect(ran, 0, *words.split(), "--device", "--text", "--preload", "CAPTURE")


def programs_are_refused(trial: Trial) -> None:
    devices = trial.folder / "program.txt"
    devices.write_text("program 0 true\n")
    told = trial.run([str(devices), "--no-programs", "--", "sh", "-c", "echo $TIRNOUCH_PROGRAMS"])
    trial.check(told.stdout == "no\n", f"the program's environment has {told.stdout!r}")
    ran = trial.run([str(devices), "--no-programs", "--", str(trial.program), "ends"])
    trial.expect(ran, 10, f'{devices}, line 1, "program 0 true": no program is started', "--no-programs")
    ran = trial.run([str(devices), "--no-programs", "--seeds", "1-1", "--", str(trial.program), "ends"])
    trial.expect(ran, 1, f"--seed 1 --no-programs -- {trial.program} ends")
    for it in trial.files():
        (trial.folder / it).unlink()


def the_version_is_told(trial: Trial) -> None:
    ran = trial.run(["--version"])
    trial.expect(ran, 0, str(ROOT / "bin" / "libusb-1.0.so.0"))
    told = re.match(r"tirnouch, (proved|unproved|trusted) core libusb 1\.0\.\d+\.\d+\n", ran.stdout)
    trial.check(told is not None, f"the version is {ran.stdout!r}")


def a_limit_lets_a_program_end(trial: Trial) -> None:
    trial.expect(trial.go("ends", "--limit", "20s"), 0)
    trial.expect(trial.go("status", "--limit", "20s"), 2)
    trial.expect(trial.go("aborts", "--limit", "1m"), -signal.SIGABRT)
    ran = trial.go("much", "--limit", "20s")
    trial.expect(ran, 3)
    trial.check(ran.stdout.count("\n") == 200000, "not all of the output came")
    told = trial.run([str(DEVICES), "--limit", "700ms", "--", "sh", "-c", "echo $TIRNOUCH_LIMIT $TIRNOUCH_DEVICES"])
    trial.check(told.stdout == f"700 {DEVICES}\n", f"the program's environment has {told.stdout!r}")


def over_limit(kind: str, *sentences: str) -> Callable[[Trial], None]:
    def hangs(trial: Trial) -> None:
        began = time.monotonic()
        ran = trial.go(kind, "--limit", "300ms")
        trial.expect(ran, 124, "didn't end within 300ms", *sentences)
        trial.check(time.monotonic() - began < 20, "it took too long")
        trial.check(trial.files() == [], f"files were left: {trial.files()}")
    hangs.__name__ = f"{kind} is ended by a limit"
    return hangs


def a_limit_tells_the_last_steps(trial: Trial) -> None:
    ran = trial.go("events", "--limit", "300ms", "--trace", "kept.txt")
    trial.expect(ran, 124)
    trial.check(trial.files() == ["kept.txt"], f"the files are {trial.files()}")
    lines = (trial.folder / "kept.txt").read_text().splitlines()
    trial.expect(ran, 124, *(lines[-10:] or ["its trace is empty"]))


def is_running(number: int) -> bool:
    try:
        return not pathlib.Path(f"/proc/{number}/stat").read_text().split(") ")[1].startswith("Z")
    except OSError:
        return False


def a_limit_ends_children_too(trial: Trial) -> None:
    ran = trial.go("forks", "--limit", "300ms")
    trial.expect(ran, 124, "didn't end within 300ms")
    child = int(ran.stdout)
    until = time.monotonic() + SECONDS
    while is_running(child) and time.monotonic() < until:
        time.sleep(0.1)  # a busy machine takes its time to end what was killed
    trial.check(not is_running(child), "the child goes on")


def signals_are_passed_on(trial: Trial) -> None:
    words = [RUN, DEVICES, "--limit", "30s", "--", trial.program, "loop"]
    with subprocess.Popen(words, cwd=trial.folder, stderr=subprocess.DEVNULL) as running:
        time.sleep(1)
        running.terminate()
        status = running.wait(SECONDS)
    trial.check(status == -signal.SIGTERM, f"SIGTERM made status {status}")


def the_terminal_is_the_programs(trial: Trial) -> None:
    """A program reads from the terminal, and is interrupted by its key."""
    child, terminal = pty.fork()
    if child == 0:
        os.chdir(trial.folder)
        os.execv(RUN, [str(RUN), str(DEVICES), "--limit", "20s", "--", str(trial.program), "reads"])
    os.write(terminal, b"a line\n")
    shown = b""
    while b"read a line" not in shown:
        try:
            part = os.read(terminal, 4096)
        except OSError:
            break
        shown += part
    os.write(terminal, b"\x03")
    status = os.waitpid(child, 0)[1]
    os.close(terminal)
    trial.check(b"read a line" in shown, f"the terminal shows {shown!r}")
    trial.check(os.WIFSIGNALED(status) and os.WTERMSIG(status) == signal.SIGINT, f"the key made status {status:#x}")


def steps_in(trace: pathlib.Path) -> str:
    lines = [line for line in trace.read_text().splitlines() if not line.startswith(("#", "device ", "script "))]
    return hashlib.sha256("\n".join(lines).encode()).hexdigest()


def one_by_one(trial: Trial) -> Dict[int, "subprocess.CompletedProcess[str]"]:
    return {seed: trial.go("race", "--seed", str(seed), "--trace", f"{seed}.txt") for seed in range(1, LAST_SEED + 1)}


def seeds_stop_at_the_lowest(trial: Trial) -> None:
    single = one_by_one(trial)
    steps = {seed: steps_in(trial.folder / f"{seed}.txt") for seed in single}
    for it in list(trial.folder.iterdir()):
        it.unlink()
    first = min((seed for seed, ran in single.items() if ran.returncode == 0), default=0)
    lowest = min((seed for seed, ran in single.items() if ran.returncode and seed > first), default=0)
    trial.check(first > 0 and lowest > 0, "the planted fault isn't one of some seeds alone")
    ran = trial.go("race", "--seeds", f"{first}-{LAST_SEED}", "--jobs", "3")
    trial.expect(ran, 1, f"seed {lowest} failed: status 3\nits output:\n{single[lowest].stdout}", f"./tirnouch-seed-{lowest}.trace",
                 f"--seed {lowest} -- {trial.program} race\n")
    trace = trial.folder / f"tirnouch-seed-{lowest}.trace"
    trial.check(steps_in(trace) == steps[lowest], "the trace that is kept is another run's")
    if (ROOT / "bin" / "usbtrace").is_file():
        trial.check(trial.files() == [f"tirnouch-seed-{lowest}.html", trace.name], f"the files are {trial.files()}")
        trial.check("<svg" in (trial.folder / f"tirnouch-seed-{lowest}.html").read_text(), "there is no picture")
    else:
        trial.expect(ran, 1, "no picture: there is no ")
    failing = [seed for seed, it in single.items() if it.returncode]
    ran = trial.go("race", "--seeds", f"1-{LAST_SEED}", "--keep-going")
    trial.expect(ran, 1, f"seed {failing[0]} failed: status 3",
                 f"{LAST_SEED} runs, {len(failing)} failed, {len(set(steps.values()))} told apart by their steps\n")
    trial.check(ran.stdout.count(" failed: ") == 1, "one kind of failure is shown several times")
    passing = f"{first}-{first}"
    trial.expect(trial.go("race", "--seeds", passing), 0, "1 run, 0 failed, 1 told apart by their steps")


def seeds_have_a_limit(trial: Trial) -> None:
    ran = trial.go("hanging-race", "--seeds", f"1-{LAST_SEED}", "--limit", "300ms")
    trial.expect(ran, 1, " failed: it didn't end within 300ms\n", "--limit 300ms -- ")


def seeds_tell_other_failures(trial: Trial) -> None:
    trial.expect(trial.go("aborts", "--seeds", "4-9"), 1, "seed 4 failed: signal 6 (SIGABRT)", "it printed nothing", "--seed 4 -- ")
    ran = trial.go("much", "--seeds", "1-3")
    trial.expect(ran, 1, "its output, the last 65536 of ", "line 199999 of much", "it left no trace")
    trial.check(len(ran.stdout) < 70000, "the output is too long")


def expecting(trial: Trial, script: str, how: str, *words: str) -> "subprocess.CompletedProcess[str]":
    """A run of the program that writes 0102 and 0304, against a device with this script."""
    devices = trial.folder / "expects.txt"
    devices.write_text(DEVICES.read_text() + f"script 0 02 {script}\n")
    return trial.run([str(devices), *words, "--", str(trial.program), "writes", how])


# What is told of the second packet where 0305 is expected.
DIFFERS = "device 0, endpoint 02: packet 2 differs at offset 1: came 03[04] (length 2), expected 03[05] (length 2)"


def what_is_written_is_judged(trial: Trial) -> None:
    for script in ("a:0102 a:0304", "a a:03*", "a a"):
        ran = expecting(trial, script, "ends")
        trial.expect(ran, 0)
        trial.check("libusb: error" not in ran.stderr and " expects" not in ran.stderr, f"{script}: told {ran.stderr!r}")
    judged = f"what {trial.program} wrote isn't what {trial.folder}/expects.txt expects: status 3 in place of 0"
    for how in ("ends", "exits"):
        ran = expecting(trial, "a:0102 a:0305", how)
        trial.expect(ran, 3, f"libusb: error {DIFFERS}\n", f"1 difference; the first: {DIFFERS}\n", judged)
    trial.expect(expecting(trial, "a:0102 a:0305", "leaves"), 3, f"libusb: error {DIFFERS}\n", judged)
    trial.expect(expecting(trial, "a:0102 a:0305", "ends", "--limit", "20s"), 3, DIFFERS, judged)


def other_differences_make_the_status(trial: Trial) -> None:
    ran = expecting(trial, "a:0102 a:0304 a:05 a:06", "ends")
    trial.expect(ran, 3, "2 expected packets never came; the first is packet 3: expected 05 ")
    trial.expect(expecting(trial, "a:0102", "ends"), 3, "packet 2 is more than the script takes, and waits: came 0304 (length 2)")
    ran = expecting(trial, "a:0102 a:0304 a:05", "leaves")
    trial.expect(ran, 0, "ended without exit and without libusb_exit: what it didn't write isn't known")


def a_status_of_its_own_stays(trial: Trial) -> None:
    ran = expecting(trial, "a:0102 a:0305", "fails")
    trial.expect(ran, 7, DIFFERS)
    trial.check("status 3" not in ran.stderr, f"told {ran.stderr!r}")
    trial.expect(expecting(trial, "a:0102 a:0305", "fails", "--limit", "20s"), 7, DIFFERS)


def lenient_runs_only_tell(trial: Trial) -> None:
    for words in ([], ["--limit", "20s"]):
        ran = expecting(trial, "a:0102 a:0305", "ends", "--lenient", *words)
        trial.expect(ran, 0, DIFFERS)
        trial.check("status 3" not in ran.stderr, f"told {ran.stderr!r}")
    trial.expect(expecting(trial, "a:0102 a:0305", "ends", "--lenient", "--seeds", "1-3"), 0, "3 runs, 0 failed")


def each_seed_is_judged(trial: Trial) -> None:
    trial.expect(expecting(trial, "a:0102 a:0304", "ends", "--seeds", "1-5"), 0, "5 runs, 0 failed")
    ran = expecting(trial, "a:0102 a:0305", "ends", "--seeds", "1-3", "--keep-going")
    trial.expect(ran, 1, "seed 1 failed: it wrote something else than is expected\n", DIFFERS, "so did 2, 3\n", "3 runs, 3 failed")
    trial.expect(expecting(trial, "a:0102", "ends", "--seeds", "1-2", "--keep-going"), 1, "is more than the script takes", "2 failed")
    trace = (trial.folder / "tirnouch-seed-1.trace").read_text()
    trial.check("# differs: device 0, endpoint 02: packet 2 is more" in trace, "the trace says nothing of it")


def a_program_of_a_device_expects(trial: Trial) -> None:
    """Its own lines have what is expected; and the text that starts it is judged as any other."""
    lines = DEVICES.read_text().splitlines()[0], "script 0 02 a:0102 a:0305", "ok"
    (trial.folder / "device.sh").write_text("read hello\n" + "".join(f"echo '{it}'\n" for it in lines) + "cat >/dev/null\n")
    devices = trial.folder / "program.txt"
    devices.write_text("program 0 sh device.sh\n")
    ran = trial.run([str(devices), "--", str(trial.program), "writes", "ends"])
    trial.expect(ran, 3, DIFFERS)


# What is told where a transfer is freed before its callback.
MISUSE = ("libusb: error misuse: libusb_free_transfer: the transfer of 8 bytes at 81 is cancelled, and its callback didn't run yet: "
          "free it in its callback, or behind that\n")


def misuse_makes_the_status(trial: Trial) -> None:
    """At any level of the log; and a status of the program's own stays."""
    judged = f"tirnouch-run: {trial.program} did what libusb's manual forbids: status 3 in place of 0 (--lenient only tells)\n"
    trial.expect(trial.go("frees before"), 3, MISUSE, judged)
    trial.expect(trial.go("frees before", "--limit", "20s"), 3, MISUSE, judged)
    silent = trial.run([str(DEVICES), "--", str(trial.program), "frees", "before"], {"LIBUSB_DEBUG": "0"})
    trial.expect(silent, 3, MISUSE, judged)
    failed = trial.go("frees before 7")
    trial.expect(failed, 7, MISUSE)
    trial.check("status 3" not in failed.stderr, f"told {failed.stderr!r}")
    ran = trial.go("frees before", "--seeds", "1-2", "--keep-going")
    trial.expect(ran, 1, "seed 1 failed: it did what libusb's manual forbids\n", MISUSE, "so did 2\n", "2 runs, 2 failed")
    traced = (trial.folder / "tirnouch-seed-1.trace").read_text()
    trial.check("# misuse: libusb_free_transfer: the transfer of 8 bytes at 81" in traced, "the trace says nothing of it")


def lenient_runs_only_tell_misuse(trial: Trial) -> None:
    for words in ([], ["--limit", "20s"]):
        ran = trial.go("frees before", "--lenient", *words)
        trial.expect(ran, 0, MISUSE)
        trial.check("status 3" not in ran.stderr, f"told {ran.stderr!r}")
    trial.expect(trial.go("frees before", "--lenient", "--seeds", "1-3"), 0, "3 runs, 0 failed")


def what_is_allowed_is_not_told(trial: Trial) -> None:
    for words in ([], ["--seeds", "1-20"]):
        ran = trial.go("frees behind", *words)
        trial.expect(ran, 0)
        trial.check("misuse" not in ran.stdout + ran.stderr, f"told {ran.stdout!r} {ran.stderr!r}")


def hints_are_told_where_a_run_fails(trial: Trial) -> None:
    """And nothing where it doesn't."""
    devices = trial.folder / "hints.txt"
    devices.write_text(f"{DEVICES.read_text().splitlines()[0]}\nscript 0 81 d:0102030405060708 d:01*2\n")

    def get(*how: str, words: Sequence[str] = ()) -> "subprocess.CompletedProcess[str]":
        return trial.run([str(devices), *words, "--", str(trial.program), "gets", *how])

    room = "hint: device 0: a packet of 8 bytes at 81 came into room for 4 (OVERFLOW)"
    left = "hint: device 0: 81 has 2 answers left of 3, which nobody read\n"
    lacking = "hint: device 0 has no endpoint 82 for bulk or interrupt transfers: it has 81 (bulk), 02 (bulk)\n"
    trial.expect(get("81", "4", "1"), 1, f"tirnouch-run: {room}", f"tirnouch-run: {left}")
    trial.expect(get("81", "8", "1", words=["--limit", "20s"]), 1, f"tirnouch-run: {left}")
    trial.expect(get("82", "8", "1"), 1, f"tirnouch-run: {lacking}")
    trial.expect(get("82", "8", "1", words=["--seeds", "1-1"]), 1, f"\n{lacking}")
    for words in ([], ["--limit", "20s"], ["--seeds", "1-2"]):
        ran = get("81", "4", "0", words=words)
        trial.expect(ran, 0)
        trial.check("hint" not in ran.stdout + ran.stderr, f"told {ran.stdout!r} {ran.stderr!r}")


def environment_of(process: str) -> str:
    """The environment of a process; nothing where it has ended."""
    try:
        return pathlib.Path(f"/proc/{process}/environ").read_bytes().decode("utf-8", "replace")
    except OSError:
        return ""


def running_in(trial: Trial) -> List[str]:
    """The trial's own programs, of those that run."""
    found = subprocess.run(["pgrep", "-f", f"^{trial.program} deaf"], capture_output=True, text=True, check=False).stdout.split()
    return [it for it in found if f"TMPDIR={trial.folder}" in environment_of(it)]


def asked_to_end(trial: Trial) -> None:
    words = [RUN, DEVICES, "--seeds", "1-9", "--jobs", "3", "--", trial.program, "deaf"]
    with subprocess.Popen(words, cwd=trial.folder, env={**os.environ, "TMPDIR": str(trial.folder)}) as running:
        until = time.monotonic() + SECONDS / 2
        while not running_in(trial) and time.monotonic() < until:
            time.sleep(0.1)
        running.send_signal(signal.SIGINT)
        status = running.wait(SECONDS)
    trial.check(status == -signal.SIGINT, f"SIGINT made status {status}")
    trial.check(trial.files() == [], f"files were left: {trial.files()}")
    trial.check(not running_in(trial), f"programs go on: {running_in(trial)}")


DEVICE_IN_C = """#include "tirnouch.h"
#include <string.h>

static int give(void *user, uint8_t ep, uint8_t *data, int length)
{
    (void)user, (void)ep, (void)length;
    data[0] = 42;
    return 1;
}

__attribute__((constructor)) static void begin(void)
{
    static const char text[] = "device 0 0902190001010080320904000001ff00000007058102080000\\nids 0 1209 0002\\n";
    tirnouch_plug(text, strlen(text));
    tirnouch_on_packet(0, 0x81, give, NULL);
}
"""
DRIVER_IN_C = """#include "libusb.h"
#include <stdio.h>

int main(void)
{
    libusb_context *context;
    unsigned char data[8] = { 0 };
    int moved = 0;
    if (libusb_init(&context))
        return 1;
    libusb_device_handle *handle = libusb_open_device_with_vid_pid(context, 0x1209, 2);
    int result = handle ? libusb_claim_interface(handle, 0) : -1;
    if (!result)
        result = libusb_bulk_transfer(handle, 0x81, data, 8, &moved, 1000);
    printf("answer %d, %d bytes: %d\\n", result, moved, data[0]);
    libusb_close(handle);
    libusb_exit(context);
    return result != 0;
}
"""


def a_device_is_loaded_before_the_program(trial: Trial) -> None:
    """A library whose constructor plugs a device in, in each kind of run; it isn't loaded into tirnouch-run and what that runs."""
    include, library = ROOT / "c" / "include", ROOT / "bin"
    for name, text in (("device.c", DEVICE_IN_C), ("driver.c", DRIVER_IN_C)):
        (trial.folder / name).write_text(text)
    words = {"device.so": ["-shared", "-fPIC", "device.c"], "driver": ["driver.c", "-L", library, "-lusb-1.0"]}
    for name, those in words.items():
        subprocess.run(["gcc", "-I", include, *those, "-o", name], cwd=trial.folder, check=True)
    for how in ([], ["--limit", "20s"], ["--seeds", "1-2"], ["--virtual", "--seed", "3"]):
        ran = trial.run([str(DEVICES), *how, "--preload", "./device.so", "--", "./driver"])
        trial.expect(ran, 0, *([] if "--seeds" in how else ["answer 0, 1 bytes: 42"]))
    trial.expect(trial.run([str(DEVICES), "--preload", "./nothing.so", "--", "./driver"]), 2, "there is no such library")


TRIALS = [
    plain_runs_are_the_program, wrong_words_are_refused, help_names_every_word, programs_are_refused, the_version_is_told, a_limit_lets_a_program_end,
    over_limit("events"), over_limit("loop"), over_limit("before", "ended by SIGTERM", "there is no trace"), over_limit("deadlock"),
    over_limit("callback", "libusb:   the callback of a transfer of 8 bytes at 81 runs, for "),
    over_limit("function", "libusb:   device 0: its function for endpoint 81 doesn't return"),
    over_limit("deaf"), a_limit_tells_the_last_steps, a_limit_ends_children_too, signals_are_passed_on, the_terminal_is_the_programs,
    what_is_written_is_judged, other_differences_make_the_status, a_status_of_its_own_stays, lenient_runs_only_tell,
    each_seed_is_judged, misuse_makes_the_status, lenient_runs_only_tell_misuse, what_is_allowed_is_not_told,
    hints_are_told_where_a_run_fails, a_program_of_a_device_expects, a_device_is_loaded_before_the_program, seeds_stop_at_the_lowest,
    seeds_have_a_limit, seeds_tell_other_failures, asked_to_end,
]


def build(folder: pathlib.Path) -> pathlib.Path:
    program = folder / "program"
    words = ["-std=c11", "-O1", "-D_GNU_SOURCE", "-I", ROOT / "c" / "include", TESTS / "program.c", "-L", ROOT / "bin", "-lusb-1.0"]
    subprocess.run([os.environ.get("CC", "cc"), *words, "-pthread", "-o", program], check=True)
    return program


def attempt(trial_of: Callable[[Trial], None], program: pathlib.Path) -> List[str]:
    with tempfile.TemporaryDirectory(prefix="tirnouch-run-test-") as folder:
        trial = Trial(program, pathlib.Path(folder))
        try:
            trial_of(trial)
        except (subprocess.TimeoutExpired, OSError, ValueError) as error:
            trial.faults.append(str(error))
    return [f"{trial_of.__name__.replace('_', ' ')}: {it}" for it in trial.faults]


def main() -> int:
    with tempfile.TemporaryDirectory(prefix="tirnouch-run-test-") as folder:
        program = build(pathlib.Path(folder))
        # A fork of a process with threads is safest without them.
        found = [attempt(the_terminal_is_the_programs, program)]
        with ThreadPoolExecutor(4) as pool:
            found += pool.map(lambda it: attempt(it, program), [it for it in TRIALS if it is not the_terminal_is_the_programs])
    print("".join(f"{line}\n" for lines in found for line in lines), end="")
    failed = sum(1 for lines in found if lines)
    print(f"{len(found) - failed} passed, {failed} failed")
    return 1 if failed else 0


if __name__ == "__main__":
    sys.exit(main())
