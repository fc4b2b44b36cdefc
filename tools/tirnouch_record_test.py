#!/usr/bin/env python3
"""Tries tools/tirnouch-record on programs that wait, resubmit, fork, close all files or leave in flight: tools/tirnouch_record_test.py.

The programs are those of c/tests/record/program.c, over bin/libusb-1.0.so.0 and the devices beside it; what has to be in their captures
stands in c/tests/record/expected. They are run once more under the address and the thread sanitizer, and a capture is read by tshark and
replayed to libusb itself by umockdev, where these are installed."""
import os
import pathlib
import re
import shutil
import struct
import subprocess
import sys
import tempfile
from concurrent.futures import ThreadPoolExecutor
from typing import Callable, Dict, Iterator, List, NamedTuple, Sequence

ROOT = pathlib.Path(__file__).resolve().parent.parent
TESTS = ROOT / "c" / "tests" / "record"
DEVICES = TESTS / "devices.txt"
RUN, RECORD = ROOT / "tools" / "tirnouch-run", ROOT / "tools" / "tirnouch-record"
FLAGS = ["gcc", "-std=c11", "-g", "-Wall", "-Wextra", "-pedantic", "-D_GNU_SOURCE", "-I", str(ROOT / "c" / "include")]
SHARED = ["-fPIC", "-shared", f"-Wl,--version-script={ROOT / 'c' / 'record.map'}"]
PROGRAM = [TESTS / "program.c", TESTS / "processes.c"]
LINKED = ["-Wl,--no-as-needed", "-L", str(ROOT / "bin"), "-l:libusb-1.0.so.0", "-pthread"]
TYPES = {1: "interrupt", 2: "control", 3: "bulk"}
SECONDS = 120
KINDS = ["waits", "bulk", "resubmits", "otherwise", "leaves", "drops", "forks", "closes", "two", "isochronous"]
PIECE = 262144
Ran = subprocess.CompletedProcess[str]


class Event(NamedTuple):
    """An event of a capture, as docs/FORMATS.md has its bytes."""

    kind: str
    id: int
    type: int
    ep: int
    device: int
    status: int
    length: int
    setup: bytes
    data: bytes

    def line(self) -> str:
        """As c/tests/record/expected has it."""
        status = [] if self.kind == "S" else [str(self.status)]
        return " ".join([self.kind, f"{self.ep:02x}", TYPES[self.type], *status, str(self.length),
                         *filter(None, [self.setup.hex(), self.data.hex()])])


def events_of(capture: pathlib.Path) -> Iterator[Event]:
    data, at = capture.read_bytes(), 24
    while at < len(data):
        kept, length = struct.unpack_from("<II", data, at + 8)
        assert kept == length and at + 16 + kept <= len(data), f"a record of {kept} bytes at {at}"
        it = data[at + 16:at + 16 + kept]
        number, kind, type_, ep, device, bus, no_setup, mark, *_, status, moved, held = struct.unpack_from("<QcBBBHBBqiiII", it)
        wanted = {"S": ord("<") if ep & 0x80 else 0, "C": 0 if ep & 0x80 else ord(">"), "E": ord("E")}[kind.decode()]
        assert (bus, mark, held, it[64:]) == (1, wanted, kept - 64, it[64:64 + held]), f"the event at {at}: bus {bus}, mark {mark}, {held}"
        yield Event(kind.decode(), number, type_, ep, device, status, moved, b"" if no_setup else it[40:48], it[64:])
        at += 16 + kept


def expected() -> Dict[str, List[str]]:
    """The lines by the name of the program's word."""
    parts: Dict[str, List[str]] = {}
    for line in (it for it in (TESTS / "expected").read_text().splitlines() if not it.startswith("#")):
        if line.startswith("== "):
            lines = parts.setdefault(line[3:], [])
        else:
            lines += parts[line] if line in parts else [line]
    return parts


class Trial:
    """A folder of its own, the program that is recorded, and what was wrong."""

    def __init__(self, program: pathlib.Path, library: pathlib.Path, folder: pathlib.Path) -> None:
        self.program, self.library, self.folder, self.capture = program, library, folder, folder / "run.pcap"
        self.faults: List[str] = []
        self.skipped: List[str] = []

    def check(self, is_so: bool, sentence: str) -> None:
        if not is_so:
            self.faults.append(sentence)

    def run(self, *words: str, **env: str) -> Ran:
        clean = {name: value for name, value in os.environ.items() if not name.startswith("TIRNOUCH_")}
        return subprocess.run(words, cwd=self.folder, env={**clean, **env}, capture_output=True, text=True, timeout=SECONDS, check=False)

    def record(self, *words: str, devices: pathlib.Path = DEVICES, program: Sequence[str] = ()) -> Ran:
        """The program over the devices of a text, recorded by these words, whatever it does that libusb's manual forbids."""
        return self.run(str(RUN), str(devices), "--lenient", "--", str(RECORD), "-o", str(self.capture), *words, "--", *(program or [str(self.program)]))

    def record_kind(self, kind: str, *words: str) -> Ran:
        return self.record(*words, "--no-strings", program=[str(self.program), kind])

    def expect(self, ran: Ran, status: int, *sentences: str) -> None:
        self.check(ran.returncode == status, f"status {ran.returncode}, not {status}: {ran.stdout[-400:]!r} {ran.stderr[-2000:]!r}")
        for it in sentences:
            self.check(it in ran.stdout + ran.stderr, f"{it!r} isn't in {ran.stdout[-400:]!r} {ran.stderr[-800:]!r}")

    def compare(self, wanted: List[str], device: int = 0) -> None:
        """The events of the capture, of one device where it is said."""
        found = [it.line() for it in events_of(self.capture) if not device or it.device == device]
        pairs = zip([*found, "(end)"], [*wanted, "(end)"])
        self.check(found == wanted, next((f"expected {b!r}, got {a!r}" for a, b in pairs if a != b), "too much"))

    def ends_once(self) -> List[Event]:
        """Each event: an id is submitted once, and ends at most once, behind that."""
        open_ids, seen, found = set(), set(), list(events_of(self.capture))
        for it in found:
            if it.kind == "S":
                self.check(it.id not in seen, f"id {it.id:x} is submitted twice")
                seen.add(it.id)
                open_ids.add(it.id)
            else:
                self.check(it.id in open_ids, f"id {it.id:x} ends, and isn't in flight")
                open_ids.discard(it.id)
        return found


def kind_of(kind: str) -> Callable[[Trial], None]:
    def is_recorded(trial: Trial) -> None:
        trial.expect(trial.record_kind(kind), 0)
        trial.compare(expected()[kind])
        trial.ends_once()
    is_recorded.__name__ = f"{kind} is recorded"
    return is_recorded


def strings_are_asked_for(trial: Trial) -> None:
    trial.expect(trial.record(program=[str(trial.program), "leaves"]), 0)
    wanted = expected()
    at = len(wanted["opened"])
    trial.compare([*wanted["leaves"][:at], *wanted["strings"], *wanted["leaves"][at:]])


def one_device_is_recorded(trial: Trial) -> None:
    trial.expect(trial.record_kind("two", "--device", "1209:0002"), 0)
    trial.compare([*expected()["opened 1"], "S 81 bulk 8", "C 81 bulk 0 2 1111"])
    trial.expect(trial.record_kind("waits", "--device", "1209:abcd"), 3, "has no event: ", "didn't open a device 1209:abcd")


def a_full_disk_is_told(trial: Trial) -> None:
    trial.expect(trial.record_kind("no room"), 3, "File too large", "the recording ends here", "run.pcap isn't whole")
    trial.compare(expected()["no room"])


def what_has_no_device_is_told(trial: Trial) -> None:
    trial.expect(trial.record(program=["true"]), 3, "run.pcap has no event: true opened no device by libusb 1.0")
    trial.expect(trial.record(program=["false"]), 1, "has no event")
    trial.expect(trial.record(program=["sh", "-c", "kill -9 $$"]), -9, "has no event")


def words_are_refused(trial: Trial) -> None:
    refusals = {"": "into which file?", "-o": "needs a word", "-o x.pcap": "which program?", "-o x.pcap --device": "needs a word",
                "-o x.pcap --device 1:2 -- true": "four hexadecimal digits", "-o no/x.pcap -- true": "in a folder that is there",
                "-o . -- true": "no such file can be written", "--quickly -- true": "isn't known",
                "x.pcap -- true": "put -- before the program"}
    for words, sentence in refusals.items():
        trial.expect(trial.run(str(RECORD), *words.split()), 2, sentence)
    trial.expect(trial.run(str(RECORD), "--help"), 0, "-o FILE", "--device", "--no-strings")
    trial.expect(trial.run(str(RECORD), "-o", "x.pcap", "--", "./nowhere", LD_LIBRARY_PATH=str(ROOT / "bin")), 127, "no program ./nowhere")


def another_device_at_a_place_is_described(trial: Trial) -> None:
    lines = [it.replace(" 1 ", " 0 ", 1) for it in DEVICES.read_text().splitlines() if it.split()[1] == "1"]
    (trial.folder / "other.txt").write_text("".join(f"{it}\n" for it in lines))
    trial.expect(trial.record("--no-strings", program=[str(trial.program), "another", str(trial.folder / "other.txt")]), 0)
    wanted = expected()
    trial.compare([*wanted["opened"], *wanted["opened 1"], "S 81 bulk 8", "C 81 bulk 0 2 1111"])


def a_library_that_is_loaded_is_recorded(trial: Trial) -> None:
    """Python's ctypes loads libusb by itself."""
    text = """import ctypes, ctypes.util
usb = ctypes.CDLL("libusb-1.0.so.0")
usb.libusb_open_device_with_vid_pid.restype = ctypes.c_void_p
assert usb.libusb_init(None) == 0 and usb.libusb_get_version
handle = ctypes.c_void_p(usb.libusb_open_device_with_vid_pid(None, 0x1209, 2))
usb.libusb_claim_interface(handle, 0)
data, moved = ctypes.create_string_buffer(8), ctypes.c_int()
assert usb.libusb_bulk_transfer(handle, 0x81, data, 8, ctypes.byref(moved), 1000) == 0
"""
    trial.expect(trial.record("--no-strings", program=[sys.executable, "-c", text]), 0)
    trial.compare([*expected()["opened 1"], "S 81 bulk 8", "C 81 bulk 0 2 1111"])


def long_transfers_are_pieces(trial: Trial) -> None:
    """A read that asks for 600,000 bytes and gets 524,800; and these written again."""
    packets = [bytes([number % 256]) * 512 for number in range(1025)]
    config = "0902300002010080320904000002ff00000007058102000200070502020002000904010001ff0000000705830308000a"
    text = f"device 0 {config}\nids 0 1209 0001\nscript 0 81 {' '.join(f'd:{it.hex()}' for it in packets)} d:\nscript 0 02{' a' * 1025}\n"
    (trial.folder / "large.txt").write_text(text)
    trial.expect(trial.record("--no-strings", devices=trial.folder / "large.txt", program=[str(trial.program), "large"]), 0, "read 524800")
    whole = b"".join(packets)
    found = [it for it in trial.ends_once() if it.type == 3]
    shape = [(it.kind, it.ep, it.status, it.length) for it in found]
    rest = 600000 - 2 * PIECE
    reads = [("S", 0x81, -115, PIECE), ("S", 0x81, -115, PIECE), ("S", 0x81, -115, rest), ("C", 0x81, 0, PIECE), ("C", 0x81, 0, PIECE),
             ("C", 0x81, 0, 512)]
    writes = [(kind, 2, status, size) for kind, status in (("S", -115), ("C", 0)) for size in (PIECE, PIECE, 512)]
    trial.check(shape == reads + writes, f"the pieces are {shape}")
    for kind, ep in (("C", 0x81), ("S", 2)):
        moved = b"".join(it.data for it in found if (it.kind, it.ep) == (kind, ep))
        trial.check(moved == whole, f"{len(moved)} bytes at {ep:02x}, or others than moved")


def threads_are_recorded(trial: Trial) -> None:
    trial.expect(trial.record_kind("threads"), 0)
    found = trial.ends_once()
    count = {kind: sum(it.kind == kind and it.type != 2 for it in found) for kind in "SCE"}
    trial.check(count == {"S": 51, "C": 51, "E": 0}, f"the reports are {count}")
    requests = sum(it.kind == "S" and it.setup[:2] in (b"\xc0\x05", b"\x40\x06") for it in found)
    trial.check(requests == 3 * 4 * 50, f"{requests} requests")


def the_script_comes_back(trial: Trial) -> None:
    """`usbtrace devices` reads what was answered."""
    usbtrace = ROOT / "bin" / "usbtrace"
    if not usbtrace.is_file():
        trial.skipped.append("the text of a capture: there is no bin/usbtrace (make run builds one)")
        return
    trial.expect(trial.record_kind("resubmits"), 0)
    ran = trial.run(str(usbtrace), "devices", str(trial.capture))
    given = DEVICES.read_text().splitlines()
    for line in (given[1], "script 0 81 d:0102030405060708 d:0910 s d:aa"):
        trial.check(line in ran.stdout.splitlines(), f"{line!r} isn't in {ran.stdout!r}")
    trial.check(given[5].startswith("script 0 81 d:0102030405060708 d:0910 s d:aa "), "devices.txt has another script")


def tshark_reads_it(trial: Trial) -> None:
    if not shutil.which("tshark"):
        trial.skipped.append("tshark: apt-get install tshark")
        return
    trial.expect(trial.record_kind("waits"), 0)
    words = ["tshark", "-r", str(trial.capture), "-T", "fields", "-E", "separator=,"]
    ran = trial.run(*words, *(it for name in ("urb_type", "transfer_type", "endpoint_address", "urb_len") for it in ("-e", f"usb.{name}")))
    wanted = [f"'{it.kind}',0x{it.type:02x},0x{it.ep:02x},{it.length}" for it in events_of(trial.capture)]
    trial.check(ran.stdout.splitlines() == wanted, f"tshark shows {ran.stdout!r}")
    ran = trial.run("tshark", "-r", str(trial.capture), "-Y", "_ws.malformed || usb.unexpected")
    trial.check(ran.stdout == "", f"tshark finds {ran.stdout!r}")


def libusb_itself_is_recorded(trial: Trial) -> None:
    """A capture of ours, which umockdev replays to the system's libusb, is recorded once more: the same events."""
    sys.path.insert(0, str(ROOT / "tools" / "captures"))
    from replayed import ROOT_OF_BUS, described  # found in that folder
    if not shutil.which("umockdev-run") or "libusb-1.0.so.0" not in trial.run("/sbin/ldconfig", "-p").stdout:
        trial.skipped.append("libusb itself: apt-get install umockdev libusb-1.0-0")
        return

    class Device(NamedTuple):
        number: int
        raw: bytes
        value: int

    trial.expect(trial.record_kind("resubmits"), 0)
    first = [it.line() for it in events_of(trial.capture)]
    (trial.folder / "device.umockdev").write_bytes(described(Device(1, bytes.fromhex(DEVICES.read_text().splitlines()[1].split()[2]), 1)))
    again = trial.folder / "again.pcap"
    ran = trial.run("umockdev-run", "--device", "device.umockdev", "--pcap", f"/sys{ROOT_OF_BUS}/1-2={trial.capture}", "--", str(RECORD),
                    "-o", str(again), "--no-strings", "--", str(trial.program), "resubmits", LD_LIBRARY_PATH="")
    trial.expect(ran, 0)
    second = [it.line() for it in events_of(again)]
    differing = [pair for pair in zip(first, second) if pair[0] != pair[1] and not pair[0].startswith("C 80 control 0 18 ")]
    trial.check(len(first) == len(second) and not differing, f"libusb's events differ: {differing[:3]}, {len(first)} and {len(second)}")


def under(sanitizer: str) -> Callable[[Trial], None]:
    def is_clean(trial: Trial) -> None:
        words = [*FLAGS, f"-fsanitize={sanitizer}", "-O1"]
        program, library = trial.folder / "program", trial.folder / "librecord.so"
        subprocess.run([*words, *PROGRAM, *LINKED, "-o", program], check=True)
        subprocess.run([*words, *SHARED, *sorted((ROOT / "c" / "record").glob("*.c")), *LINKED, "-o", library], check=True)
        runtime = {"address": "libasan.so", "thread": "libtsan.so"}[sanitizer]
        path = trial.run("gcc", f"-print-file-name={runtime}").stdout.strip()
        for kind in ["threads", *(it for it in KINDS if it != "forks" or sanitizer != "thread")]:
            ran = trial.run(str(RUN), str(DEVICES), "--lenient", "--", "env", "ASAN_OPTIONS=verify_asan_link_order=0", f"LD_PRELOAD={path}",
                            sys.executable, "-B", str(ROOT / "tools" / "runs"), "record", str(trial.capture), str(library), "--no-strings",
                            "--", str(program), kind)
            trial.check(ran.returncode == 0 and "Sanitizer" not in ran.stderr, f"{kind}: status {ran.returncode}, {ran.stderr[-1500:]}")
    is_clean.__name__ = f"the {sanitizer} sanitizer finds nothing"
    return is_clean


TRIALS: List[Callable[[Trial], None]] = [
    *map(kind_of, KINDS), strings_are_asked_for, one_device_is_recorded, a_full_disk_is_told, what_has_no_device_is_told, words_are_refused,
    another_device_at_a_place_is_described, a_library_that_is_loaded_is_recorded, long_transfers_are_pieces, threads_are_recorded,
    the_script_comes_back, tshark_reads_it, libusb_itself_is_recorded, under("address"), under("thread"),
]


def main() -> int:
    library = ROOT / "bin" / "libtirnouch-record.so"
    if not library.is_file():
        sys.exit(f"there is no {library}: make c-try builds it")
    with tempfile.TemporaryDirectory(prefix="tirnouch-record-test-") as folder:
        program = pathlib.Path(folder) / "program"
        subprocess.run([*FLAGS, "-O2", *PROGRAM, *LINKED, "-o", program], check=True)

        def attempt(trial_of: Callable[[Trial], None]) -> Trial:
            trial = Trial(program, library, pathlib.Path(tempfile.mkdtemp(dir=folder)))
            try:
                trial_of(trial)
            except (AssertionError, subprocess.SubprocessError, OSError) as error:
                trial.faults.append(str(error))
            return trial

        with ThreadPoolExecutor(os.cpu_count()) as pool:
            trials = list(pool.map(attempt, TRIALS))
    names = [re.sub("_", " ", it.__name__) for it in TRIALS]
    for name, trial in zip(names, trials):
        print("".join(f"skipped: {it}\n" for it in trial.skipped), end="")
        print("".join(f"{name}: {it}\n" for it in trial.faults), end="")
    failed = sum(bool(it.faults) for it in trials)
    print(f"{len(trials) - failed} passed, {failed} failed")
    return 1 if failed else 0


sys.exit(main())
