#!/usr/bin/env python3
"""Tries libusb's interface over the core, bin/libusb-1.0.a: tools/c_test.py [--quick] [NAME ..].

Each program of c/tests/usb that has an .expected file is built and run: by gcc and, where it is there, clang; and with c/usb under the
address, undefined and thread sanitizers. Without a seed its lines are those of the file. With TIRNOUCH_SEED, where devices and controller
go ahead by dice, it must end well. Each run is traced, and bin/usbtrace, where it is built, makes the same steps once more: every refusal,
number and callback is compared, bytes too (tools/replay.py). A run that leaves no trace, or fewer submissions in its traces than the
program made (c/tests/usb/submissions.c), fails. Runs without a seed are made without a trace too, since packets then go a quicker way: the
lines must be the same. Then the example of docs/C.md is run as that page says; and where no NAME is given, the tools of TOOLS are run,
random calls are made (tools/fuzz_calls), and threads run in every order (tools/interleavings). `--quick` is gcc alone, with one seed."""
import os
import pathlib
import shutil
import subprocess
import sys
import tempfile
from concurrent.futures import ThreadPoolExecutor

ROOT = pathlib.Path(__file__).resolve().parent.parent
TESTS = ROOT / "c" / "tests" / "usb"
FUZZER = ROOT / "tools" / "fuzz"
FLAGS = "-std=c11 -g -Wall -Wextra -pedantic -D_GNU_SOURCE".split() + ["-I", str(ROOT / "c" / "include")]
WRAPPED = ["-Wl,--wrap=malloc,--wrap=calloc,--wrap=realloc"]
# What is counted of a scene (submissions.c).
COUNTED = [f"-Wl,--wrap={it}" for it in ("libusb_submit_transfer", "libusb_cancel_transfer", "libusb_bulk_transfer",
                                         "libusb_interrupt_transfer", "tirnouch_begin", "tirnouch_end")]
# Programs all of whose buses have no trace by the environment.
UNTRACED = ("kept", "scarce", "within")
MORE = {"memory": WRAPPED, "scarce": WRAPPED}
# A process that forks isn't looked at by the thread sanitizer; nor are allocations that are refused its own.
LEFT_OUT = {"thread": {"fork", "memory", "scarce"}}
# Those that take no seed: they have dice of their own, refuse memory, or are long.
UNSEEDED = ("memory", "scarce", "races", "endless")
SECONDS = 240
# What is tried besides: runs that hang, crash or fail with some seeds; recordings; runs against those, and against traces; what a trace has
# where a run ends; what long work says; devices and examples in Python; what is to be tried for a change; writes that are changed; how
# costs grow; and wrong bodies: whether they fit, and whose turn it is.
TOOLS = ["tirnouch_run_test.py", "tirnouch_record_test.py", "capture_run_test.py", "trace_run_test.py", "traces_test.py",
         "progress_test.py", "device_test.py", "python_test.py", "changed_test.py", "changed_writes_test.py", "growth_test.py",
         "wrong_bodies_test.py"]
# How many seeds each program is tried with, and how many dice the program that has its own.
SEEDS, DICE = {"plain": 6, "sanitized": 2}, {"plain": 12, "sanitized": 3}


class Way:
    """A way of building: compiler, sanitizers, and what the library is then."""

    def __init__(self, folder, compiler, sanitizers=""):
        self.name = compiler + (f" -fsanitize={sanitizers}" if sanitizers else "")
        self.sanitizers, self.folder = sanitizers, folder / self.name.replace(" ", "_").replace(",", "_")
        self.folder.mkdir()
        self.words = [compiler, *FLAGS, "-O1" if sanitizers else "-O2", *([f"-fsanitize={sanitizers}"] if sanitizers else [])]
        self.library = [str(ROOT / "bin" / "libusb-1.0.a")]
        if sanitizers:
            self.library = [str(self.object(it)) for it in sorted((ROOT / "c" / "usb").glob("*.c"))]
            self.library.append(str(ROOT / "bin" / "libtirnouch_core.a"))

    def object(self, source):
        built = self.folder / f"{source.stem}.o"
        subprocess.run([*self.words, "-c", source, "-o", built], check=True)
        return built

    def build(self, name):
        built = self.folder / name
        sources = [TESTS / f"{name}.c", TESTS / "scene.c", TESTS / "submissions.c"]
        subprocess.run([*self.words, *COUNTED, *MORE.get(name, []), *sources, *self.library, "-pthread", "-o", built], check=True)
        return built

    def build_fuzzer(self):
        built = self.folder / "calls"
        subprocess.run([*self.words, *sorted(FUZZER.glob("*.c")), *self.library, "-pthread", "-o", built], check=True)
        return f"{self.sanitizers or self.words[0]}={built}"

    def kind(self):
        return "sanitized" if self.sanitizers else "plain"


def replay(traces):
    """What differs between traces and the same steps made by usbtrace; nothing where that isn't built."""
    usbtrace = ROOT / "bin" / "usbtrace"
    if not usbtrace.is_file() or not traces:
        return ""
    ran = subprocess.run([sys.executable, ROOT / "tools" / "replay.py", usbtrace, *traces], capture_output=True, text=True)
    told = [line for line in ran.stdout.splitlines() if not line.endswith(" 0 differences")]
    return "" if ran.returncode == 0 else "\n".join(told)[:2000] + ran.stderr[-2000:]


def untold(name, counted, traces):
    """What a run's traces lack of the transfers that it submitted, if something."""
    if not traces:
        return None if name in UNTRACED else "it left no trace"
    signs = counted.read_text() if counted.is_file() else ""
    least = signs.count("+") - signs.count("-")
    told = sum(line.startswith("submit ") for it in traces for line in it.read_text(errors="replace").splitlines())
    return f"its traces have {told} submissions, and it made {least} at least" if told < least else None


def run(program, name, words, seed, label, is_traced=True):
    """Runs a program once: what is wrong with that, if something is."""
    with tempfile.TemporaryDirectory() as folder:
        counted, at = pathlib.Path(folder) / "submissions", pathlib.Path(folder) / "traces"
        at.mkdir()
        traced = {"TIRNOUCH_TRACE": str(at / "trace"), "SCENE_SUBMISSIONS": str(counted)}
        env = {**os.environ, **(traced if is_traced else {})}
        if seed:
            env["TIRNOUCH_SEED"] = str(seed)
        try:
            ran = subprocess.run([program, *words], cwd=TESTS, env=env, capture_output=True, text=True, timeout=SECONDS)
        except subprocess.TimeoutExpired:
            return f"{label}: doesn't end"
        if ran.returncode:
            return f"{label}: status {ran.returncode}\n{ran.stdout[-500:]}{ran.stderr[-3000:]}"
        expected = (TESTS / f"{name}.expected").read_text()
        if not seed and ran.stdout != expected:
            pairs = zip([*ran.stdout.splitlines(), "(end)"], [*expected.splitlines(), "(end)"])
            return f"{label}: " + next(f"expected {b!r}, got {a!r}" for a, b in pairs if a != b)
        traces = sorted(at.iterdir())
        told = (untold(name, counted, traces) if is_traced else None) or replay(traces)
        return f"{label}: {told}" if told else None


def runs(way, names):
    """The runs of a way: program, its name, its words, its seed, what it is called, and whether it is traced."""
    for name in names:
        if name in LEFT_OUT.get(way.sanitizers, ()):
            continue
        program = way.build(name)
        for dice in range(1, 1 + (DICE[way.kind()] if name == "races" else 1)):
            yield program, name, [str(dice)], None, f"{name} {dice}, {way.name}", True
            yield program, name, [str(dice)], None, f"{name} {dice}, untraced, {way.name}", False
        for seed in range(1, 1 + (0 if name in UNSEEDED else SEEDS[way.kind()])):
            yield program, name, ["1"], seed, f"{name}, seed {seed}, {way.name}", True


def example():
    """The example of docs/C.md, as that page runs it."""
    at = ROOT / "c" / "example"
    with tempfile.TemporaryDirectory() as folder:
        driver = pathlib.Path(folder) / "driver"
        subprocess.run(["gcc", "-I", ROOT / "c" / "include", at / "driver.c", "-L", ROOT / "bin", "-lusb-1.0", "-o", driver], check=True)
        words = [ROOT / "tools" / "tirnouch-run", at / "devices.txt", "--", driver]
        ran = subprocess.run(words, capture_output=True, text=True, timeout=SECONDS)
    if ran.stdout != (at / "expected").read_text() or ran.returncode:
        return f"the example: status {ran.returncode}, {ran.stdout!r} {ran.stderr!r}"
    return None


def tool(name):
    """What is wrong with a tool's run, if something is. What it skips is printed."""
    ran = subprocess.run([ROOT / "tools" / name], capture_output=True, text=True)
    print("".join(f"{it}\n" for it in ran.stdout.splitlines() if it.startswith("skipped: ")), end="")
    return f"tools/{name}: status {ran.returncode}\n{ran.stdout}{ran.stderr}" if ran.returncode else None


def shared_library():
    """bin/libusb-1.0.so is a file of its own: the gate refuses links."""
    return "bin/libusb-1.0.so is a link" if (ROOT / "bin" / "libusb-1.0.so").is_symlink() else None


def fuzzed(programs):
    """Some rounds of random calls; tools/fuzz_calls makes more of them."""
    words = [ROOT / "tools" / "fuzz_calls", "--rounds", "6", "--count", "300", "--built", *programs]
    ran = subprocess.run(words, capture_output=True, text=True)
    return f"tools/fuzz_calls: status {ran.returncode}\n{ran.stdout}{ran.stderr[-2000:]}" if ran.returncode else None


def interleavings():
    """Short programs of threads, in every order that a bound allows."""
    ran = subprocess.run([sys.executable, ROOT / "tools" / "interleavings", "c"], capture_output=True, text=True)
    return f"tools/interleavings: status {ran.returncode}\n{ran.stdout}{ran.stderr[-2000:]}" if ran.returncode else None


def main(words):
    quick = "--quick" in words
    chosen = [it for it in words if it != "--quick"]
    names = chosen or sorted(it.stem for it in TESTS.glob("*.expected"))
    with tempfile.TemporaryDirectory(prefix="c-test-") as folder:
        folder = pathlib.Path(folder)
        ways = [Way(folder, "gcc")]
        if not quick:
            ways += [Way(folder, "clang")] if shutil.which("clang") else []
            ways += [Way(folder, "gcc", it) for it in ("address,undefined", "thread")]
        all_runs = [it for way in ways for it in runs(way, names)]
        with ThreadPoolExecutor(os.cpu_count()) as pool:
            faults = [it for it in pool.map(lambda it: run(*it), all_runs) if it]
        others = [example(), shared_library()]
        if not chosen:
            others += [*map(tool, TOOLS), interleavings(), fuzzed([way.build_fuzzer() for way in ways])]
    faults += [it for it in others if it]
    print("".join(f"{it}\n" for it in faults), end="")
    if not (ROOT / "bin" / "usbtrace").is_file():
        print("no trace was made once more: there is no bin/usbtrace (make run builds one)")
    print(f"{len(all_runs) + len(others) - len(faults)} passed, {len(faults)} failed")
    return 1 if faults else 0


sys.exit(main(sys.argv[1:]))
