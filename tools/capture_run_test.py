#!/usr/bin/env python3
"""Tries tools/tirnouch-run on captures: tools/capture_run_test.py. The run of a program is recorded (tools/tirnouch-record), and made once
more against what was recorded; and captures lack something, or aren't captures.

The program is that of c/tests/record, over bin/libusb-1.0.so.0; bin/usbtrace makes the texts of devices. Where the library isn't built,
the texts alone are tried of what Windows recorded."""
import os
import pathlib
import struct
import subprocess
import sys
import tempfile
from concurrent.futures import ThreadPoolExecutor
from typing import Callable, Iterator, List

ROOT = pathlib.Path(__file__).resolve().parent.parent
TESTS = ROOT / "c" / "tests" / "record"
DEVICES = TESTS / "devices.txt"
RUN, RECORD = ROOT / "tools" / "tirnouch-run", ROOT / "tools" / "tirnouch-record"
LIBRARY, USBTRACE = ROOT / "bin" / "libusb-1.0.so.0", ROOT / "bin" / "usbtrace"
FLAGS = ["gcc", "-std=c11", "-O2", "-D_GNU_SOURCE", "-I", str(ROOT / "c" / "include"), "-Wl,--no-as-needed", "-pthread"]
SECONDS = 120
# Of devices.txt: device 0's configuration, its device descriptor (USB 2.0, 9.6.1), and another device's.
CONFIG = DEVICES.read_text().splitlines()[1].split()[2]
DEVICE, OTHER = "120100020000004009120100000101000301", "120100020000004009120200000100000001"
SCRIPT = "script 0 81 d:0102030405060708 d:0910 s d:aa"
UMOCKDEV = f"""P: /devices/pci0000:00/0000:00:14.0/usb1/1-2
E: DEVTYPE=usb_device
E: BUSNUM=001
E: DEVNUM=002
A: manufacturer=Maker\\n
A: serial=77
A: speed=12
H: descriptors={(DEVICE + CONFIG).upper()}
"""
sys.path[:0] = [str(ROOT / "tools" / "runs"), str(ROOT / "tools" / "captures")]
sys.dont_write_bytecode = True
from capture import events_of, pcap  # noqa: E402
from event import Event  # noqa: E402
from forms import FORMS  # noqa: E402

Ran = subprocess.CompletedProcess[str]


class Trial:
    """A folder of its own, with the capture of a run; and what was wrong."""

    def __init__(self, program: pathlib.Path, recorded: bytes, folder: pathlib.Path) -> None:
        self.program, self.folder, self.capture = program, folder, folder / "run.pcap"
        self.capture.write_bytes(recorded)
        (folder / "tmp").mkdir()
        self.faults: List[str] = []
        self.skipped: List[str] = []

    def check(self, is_so: bool, sentence: str) -> None:
        if not is_so:
            self.faults.append(sentence)

    def run(self, *words: str) -> Ran:
        """tirnouch-run with these words; it leaves no file but those that it was to write."""
        clean = {name: value for name, value in os.environ.items() if not name.startswith("TIRNOUCH_")}
        ran = subprocess.run([RUN, *words], cwd=self.folder, env={**clean, "TMPDIR": str(self.folder / "tmp")}, capture_output=True,
                             text=True, timeout=SECONDS, check=False)
        left = list((self.folder / "tmp").iterdir())
        self.check(not left, f"{words}: files were left: {left}")
        return ran

    def go(self, *words: str, kind: str = "resubmits") -> Ran:
        return self.run("run.pcap", *words, "--", str(self.program), kind)

    def expect(self, ran: Ran, status: int, *sentences: str) -> None:
        self.check(ran.returncode == status, f"status {ran.returncode}, not {status}: {ran.stdout[-400:]!r} {ran.stderr[-1500:]!r}")
        for it in sentences:
            self.check(it in ran.stdout + ran.stderr, f"{it!r} isn't in {ran.stdout[-400:]!r} {ran.stderr[-800:]!r}")

    def text(self, *words: str) -> List[str]:
        """The lines of the text that is made, for a program that does nothing."""
        self.expect(self.run("run.pcap", "--text", "kept.txt", "--lenient", *words, "--", "true"), 0)
        file = self.folder / "kept.txt"
        return file.read_text().splitlines() if file.is_file() else []

    def made_text(self, capture: bytes, *words: str) -> List[str]:
        """The same of windows.pcapng, made without the library."""
        (self.folder / "windows.pcapng").write_bytes(capture)
        ran = subprocess.run([sys.executable, "-B", ROOT / "tools" / "runs", "text", "windows.pcapng", "made.txt", USBTRACE, *words],
                             cwd=self.folder, capture_output=True, text=True, timeout=SECONDS, check=False)
        file = self.folder / "made.txt"
        return file.read_text().splitlines() if ran.returncode == 0 else ran.stderr.splitlines()

    def keep_events(self, keeps: Callable[[Event], bool]) -> None:
        self.capture.write_bytes(pcap(it for it in events_of(self.capture.read_bytes()) if keeps(it)))

    def take_out_descriptors(self) -> None:
        """As tcpdump leaves a capture that it began without asking the devices."""
        self.keep_events(lambda it: it.type != 2)


def record(trial: Trial, kind: str) -> None:
    """Another run in the place of the first one."""
    ran = subprocess.run([RUN, DEVICES, "--", RECORD, "-o", trial.capture, "--", trial.program, kind], capture_output=True, check=False)
    trial.check(ran.returncode == 0, f"the recording: {ran.stderr!r}")


def holds(trial: Trial, lines: List[str], *wanted: str) -> None:
    for line in wanted:
        trial.check(line in lines, f"{line!r} isn't in {lines}")


def a_recorded_run_is_made_again(trial: Trial) -> None:
    trial.expect(trial.go(), 0)
    trial.expect(trial.go("--limit", "20s"), 0)
    trial.expect(trial.go("--lenient"), 0)
    lines = trial.text()
    trial.check(lines[:1] == ["# made by tirnouch-run of run.pcap"], f"the text begins with {lines[:1]}")
    holds(trial, lines, f"device 0 {CONFIG}", SCRIPT)
    trial.expect(trial.run("kept.txt", "--", str(trial.program), "resubmits"), 0)


def a_reset_does_not_begin_it_anew(trial: Trial) -> None:
    """What the device answered behind the reset stands behind the rest."""
    record(trial, "resets")
    trial.expect(trial.go(kind="resets"), 0, "read 01\nread 01\nread 09\n")
    holds(trial, trial.text(), "lasts 0", "script 0 81 d:0102030405060708 d:0102030405060708 d:0910")


def answers_at_two_endpoints_keep_their_order(trial: Trial) -> None:
    """A report comes behind a status, though the read of reports is in flight all the time. Without the line it comes while the command is
    written, and the program ends with status 38."""
    device, order = trial.folder / "two.txt", "after 0 83 1 81 1"
    scripts = ["script 0 81 d:00", "script 0 02 a", "script 0 83 d:01 d:02"]
    device.write_text("".join(f"{line}\n" for line in [f"device 0 {CONFIG}", "ids 0 1209 0001", *scripts, order]))
    ran = subprocess.run([RUN, device, "--", RECORD, "-o", trial.capture, "--", trial.program, "at two"], capture_output=True, check=False)
    trial.check(ran.returncode == 0, f"the recording: {ran.stderr!r}")
    trial.expect(trial.go(kind="at two"), 0)
    for seed in range(1, 6):
        trial.expect(trial.go("--seed", str(seed), kind="at two"), 0)
    lines = trial.text()
    holds(trial, lines, order)
    device.write_text("".join(f"{line}\n" for line in lines if line != order))
    trial.expect(trial.run("two.txt", "--", str(trial.program), "at two"), 38)


def seeds_say_how_to_run_again(trial: Trial) -> None:
    trial.expect(trial.go("--seeds", "1-3", "--device", "1209:0001"), 0, "3 runs, 0 failed")
    trial.expect(trial.go("--seeds", "1-1", "--device", "1209:0001", kind="nothing"), 1, "run.pcap --seed 1 --device 1209:0001 -- ")


def another_run_differs(trial: Trial) -> None:
    """A write that wasn't recorded, where the text says what was."""
    record(trial, "waits")
    if not any(" a:" in line for line in trial.text()):
        trial.skipped.append("a run that writes something else: usbtrace devices says `a`, and not what was written")
        return
    at = trial.capture.read_bytes().index(b"\x01\x02\x03", 24)
    data = bytearray(trial.capture.read_bytes())
    data[at] ^= 1
    trial.capture.write_bytes(data)
    trial.expect(trial.go(kind="waits"), 3, "isn't what run.pcap expects")


def other_forms_are_read(trial: Trial) -> None:
    data, first = trial.capture.read_bytes(), trial.text("--device", "1209:0001")
    for name, form in FORMS.items():
        trial.capture.write_bytes(form(data))
        found = trial.text("--device", "1209:0001")
        trial.check(found == first, f"as {name} it has other lines: {found}")


def what_it_lacks_is_told(trial: Trial) -> None:
    trial.take_out_descriptors()
    trial.expect(trial.go(), 2, "run.pcap: bus 1 device 2 is left out: no configuration descriptor", "--descriptors FILE",
                 "--umockdev FILE")


def who_is_left_out_is_told(trial: Trial) -> None:
    """Without its configuration, which was read where the first bytes of an answer are a configuration's (USB 2.0, table 9-10)."""
    trial.keep_events(lambda it: it.type != 2 or it.data[1:2] != b"\x02")
    trial.expect(trial.go(), 2, "run.pcap: bus 1 device 2 (1209:0001) is left out: no configuration descriptor")
    trial.expect(trial.go("--device", "1209:0003"), 2, "run.pcap has no device 1209:0003; it has bus 1 device 2 (1209:0001)")


def descriptors_complete_it(trial: Trial) -> None:
    trial.take_out_descriptors()
    (trial.folder / "copy.hex").write_text(DEVICE + CONFIG)
    lines = trial.text("--descriptors", "copy.hex")
    holds(trial, lines, "# the device descriptor is from copy.hex: the capture has none",
          "# the configuration is from copy.hex: the capture has none", f"device 0 {CONFIG}", SCRIPT)
    trial.check(not any(it.startswith("speed ") for it in lines), "the speed is told")
    trial.expect(trial.go("--descriptors", "copy.hex"), 0)


def a_device_folder_completes_it(trial: Trial) -> None:
    """As Linux has it: strings and speed stand beside the descriptors."""
    trial.take_out_descriptors()
    folder = trial.folder / "1-2"
    folder.mkdir()
    (folder / "descriptors").write_bytes(bytes.fromhex(DEVICE + CONFIG))
    for name, text in (("manufacturer", "Maker\n"), ("serial", "77\n"), ("speed", "12\n")):
        (folder / name).write_text(text)
    holds(trial, trial.text("--descriptors", "1-2/descriptors"), "# string 1 is from 1-2/descriptors: the capture has none",
          "# string 3 is from 1-2/descriptors: the capture has none", "# the speed is from 1-2/descriptors", "speed 0 full")


def umockdev_completes_it(trial: Trial) -> None:
    trial.take_out_descriptors()
    (trial.folder / "mine.umockdev").write_text(UMOCKDEV)
    holds(trial, trial.text("--umockdev", "mine.umockdev"), "# the configuration is from mine.umockdev: the capture has none",
          "# the speed is from mine.umockdev", "speed 0 full", SCRIPT)
    trial.expect(trial.go("--umockdev", "mine.umockdev"), 0)


def what_is_there_stays(trial: Trial) -> None:
    """A file that says something else of a device than the capture does."""
    (trial.folder / "copy.hex").write_text(DEVICE + CONFIG.replace("32", "33", 1))
    lines = trial.text("--descriptors", "copy.hex")
    trial.check(f"device 0 {CONFIG}" in lines and not any("is from" in it for it in lines), f"the text has {lines}")


def one_device_is_chosen(trial: Trial) -> None:
    record(trial, "two")
    lines = trial.text("--device", "1209:0001")
    trial.check("script 0 81 d:0102030405060708" in lines and not any("1111" in it for it in lines), f"the text has {lines}")
    trial.expect(trial.go("--device", "1209:0003"), 2, "run.pcap has no device 1209:0003",
                 "it has bus 1 device 2 (1209:0001), bus 1 device 3 (1209:0002)")


def wrong_files_are_refused(trial: Trial) -> None:
    (trial.folder / "ioctls").write_text("@DEV /dev/bus/usb/001/002\n")
    (trial.folder / "text.txt").write_text(DEVICES.read_text())
    (trial.folder / "other.hex").write_text(OTHER + CONFIG)
    (trial.folder / "short").write_text("0102")
    for words, status, sentence in (
            ("ioctls", 2, "is a recording of ioctls, of umockdev"), ("text.txt --device 1209:0001", 2, "isn't a capture"),
            ("run.pcap --device 12:1", 2, "four hexadecimal digits"), ("run.pcap --umockdev nowhere", 2, "there is no file nowhere"),
            ("run.pcap --umockdev short --descriptors short", 2, "say one of them"),
            ("run.pcap --umockdev short", 2, "short has no USB device"),
            ("run.pcap --descriptors short", 2, "short has no descriptors of a device"),
            ("run.pcap --descriptors other.hex", 2, "run.pcap has no device 1209:0002; it has bus 1 device 2 (1209:0001)"),
            ("run.pcap --text no/kept.txt", 2, "no/kept.txt: No such file or directory")):
        trial.expect(trial.run(*words.split(), "--", str(trial.program), "resubmits"), status, sentence)
    trial.capture.write_bytes(trial.capture.read_bytes()[:20])
    trial.expect(trial.go(), 2, "run.pcap: usbtrace: the capture is refused: a file header cut short")
    trial.capture.write_bytes(pcap([]))
    trial.expect(trial.go(), 2, "run.pcap has no device: record the run of a program that opens one")


def windows(ep: int, transfer: int, irp: int, data: bytes = b"", *, status: int = 0, function: int = 9, is_end: bool = False,
            stage: bytes = b"") -> bytes:
    """A packet of bus 1 device 2, by USBPcap's description of its format: the header, a control transfer's stage behind it, the data."""
    size = 27 + len(stage)
    return struct.pack("<HQIHBHHBBI", size, irp, status, function, int(is_end), 1, 2, ep, transfer, len(data)) + stage + data


def windows_pcapng(*packets: bytes) -> bytes:
    """A file of these packets, of link type 249, behind a packet of another interface (pcapng: a section, interfaces, packets)."""
    def block(kind: int, body: bytes) -> bytes:
        size = 12 + len(body) + -len(body) % 4
        return struct.pack("<II", kind, size) + body + bytes(-len(body) % 4) + struct.pack("<I", size)
    interfaces = [block(1, struct.pack("<HHI", link, 0, 0)) for link in (249, 1)]
    placed = [(1, packets[0]), *((0, it) for it in packets)]
    blocks = [block(6, struct.pack("<IIIII", which, 0, 0, len(it), len(it)) + it) for which, it in placed]
    return b"".join([block(0x0A0D0D0A, struct.pack("<IHHq", 0x1A2B3C4D, 1, 0, -1)), *interfaces, *blocks])


def windows_descriptor(value: int, raw: bytes) -> List[bytes]:
    """A descriptor as `USBPcapCMD --inject-descriptors` writes it: its request, and the end of that with the bytes."""
    setup = struct.pack("<BBHHH", 0x80, 6, value, 0, len(raw))
    return [windows(0x80, 2, 0, setup, function=0x0B, stage=b"\0"), windows(0x80, 2, 0, raw, function=0x0B, is_end=True, stage=b"\3")]


# Reads of 8 bytes that got 8, 2, a stall and one too many; a halt that was ended (URB function 1e) before the last, which stands behind a
# packet of no transfer (ABORT_PIPE, 02); and a write of 3 bytes. A status is that of Windows: STALL_PID, BABBLE_DETECTED.
RECORDED_BY_WINDOWS = [
    windows(0x81, 3, 0xA0), windows(0x81, 3, 0xA0, bytes(range(1, 9)), is_end=True),
    windows(0x81, 3, 0xB0), windows(0x81, 3, 0xB0, b"\x09\x10", is_end=True),
    windows(0x81, 3, 0xA0), windows(0x81, 3, 0xA0, status=0xC0000004, is_end=True),
    windows(0x81, 0xFE, 0xC0, function=0x1E), windows(0x81, 0xFE, 0xC0, function=0x1E, is_end=True),
    windows(0x81, 3, 0xA0), windows(0x81, 0xFE, 0xC0, function=0x02),
    windows(0x81, 3, 0xA0, status=0xC0000012, is_end=True),
    windows(0x02, 3, 0xD0, b"\x01\x02\x03"), windows(0x02, 3, 0xD0, is_end=True)]
# What DEVICES.md and CAPTURES.md say of them: the packet that was too long has one byte more than the endpoint's packets.
OF_WINDOWS = [f"device 0 {CONFIG}", "script 0 81 d:0102030405060708 d:0910 s d:000000000000000000", "script 0 02 a:010203"]
TOO_LONG = "# ep 81: 1 packets were too long; their bytes are 00 here (first in frame {})"


WITH_DESCRIPTORS = [*windows_descriptor(0x100, bytes.fromhex(DEVICE)), *windows_descriptor(0x200, bytes.fromhex(CONFIG))]


def windows_captures_are_read(trial: Trial) -> None:
    """With the descriptors, and without them: a file has them then, and comments name the same packets."""
    (trial.folder / "mine.umockdev").write_text(UMOCKDEV)
    whole, alone = windows_pcapng(*WITH_DESCRIPTORS, *RECORDED_BY_WINDOWS), windows_pcapng(*RECORDED_BY_WINDOWS)
    holds(trial, trial.made_text(whole), *OF_WINDOWS, f"descriptor 0 {DEVICE}", TOO_LONG.format(16))
    holds(trial, trial.made_text(whole, "--device", "1209:0001"), *OF_WINDOWS, TOO_LONG.format(16))
    holds(trial, trial.made_text(alone, "--device", "1209:0001", "--umockdev", "mine.umockdev"), *OF_WINDOWS, TOO_LONG.format(12),
          "# the configuration is from mine.umockdev: the capture has none", "speed 0 full")
    holds(trial, trial.made_text(alone), "tirnouch-run: windows.pcapng: bus 1 device 2 is left out: no configuration descriptor")


def are_told(trial: Trial, packets: List[bytes], wanted: List[str]) -> None:
    """The lines of scripts and requests, of the capture as it is and of what is written anew."""
    for words in ((), ("--device", "1209:0001")):
        text = trial.made_text(windows_pcapng(*WITH_DESCRIPTORS, *packets), *words)
        lines = [it for it in text if it.startswith(("script ", "control "))]
        trial.check(lines == wanted, f"{words}: the text has {lines}")


def what_windows_does_not_record_is_nothing(trial: Trial) -> None:
    """The end of a write without its beginning, a write at fault, of which no byte is known to have moved, and a read that doesn't end. The
    end of a read says all by itself; two packets that fill it have none behind them."""
    are_told(trial, [
        windows(0x02, 3, 0xE0, is_end=True), windows(0x81, 3, 0xE1, b"\x07", is_end=True),
        windows(0x02, 3, 0xE2, bytes(24)), windows(0x02, 3, 0xE2, status=0xC0000011, is_end=True),
        windows(0x81, 3, 0xE3), windows(0x81, 3, 0xE3, bytes(16), is_end=True), windows(0x81, 3, 0xE4),
    ], ["script 0 81 d:07 d:0000000000000000 d:0000000000000000", "script 0 02 b"])


def requests_on_windows_are_read(trial: Trial) -> None:
    """A halt is ended between two stalls, STALL_PID and ENDPOINT_HALTED; another read ended by the first one. A request of the vendor's has
    what it writes behind its setup data, and a second stage, which says nothing; another reads."""
    write, read = bytes((0x40, 6, 0, 0, 0, 0, 2, 0)), bytes((0xC0, 5, 2, 1, 3, 0, 8, 0))
    are_told(trial, [
        windows(0x81, 3, 0xA0), windows(0x81, 3, 0xA1), windows(0x81, 3, 0xA0, status=0xC0000004, is_end=True),
        windows(0x81, 3, 0xA1, status=0xC0000030, is_end=True),
        windows(0x81, 0xFE, 0xC0, function=0x1E), windows(0x81, 0xFE, 0xC0, function=0x1E, is_end=True),
        windows(0x81, 3, 0xA0), windows(0x81, 3, 0xA0, status=0xC0000030, is_end=True),
        windows(0x00, 2, 0xB0, write + b"\x01\x02", function=0x17, stage=b"\0"),
        windows(0x00, 2, 0xB0, bytes(8), function=0x17, stage=b"\1"),
        windows(0x00, 2, 0xB0, function=0x17, is_end=True, stage=b"\3"),
        windows(0x80, 2, 0xB1, read, function=0x17, stage=b"\0"),
        windows(0x80, 2, 0xB1, b"\x0a\x0b", function=0x17, is_end=True, stage=b"\3"),
    ], ["script 0 81 s s", "control 0 40 06 0000 0000 a:0102", "control 0 c0 05 0102 0003 d:0a0b"])


def windows_captures_are_run(trial: Trial) -> None:
    (trial.folder / "mine.umockdev").write_text(UMOCKDEV)
    # The program doesn't write.
    (trial.folder / "windows.pcapng").write_bytes(windows_pcapng(*RECORDED_BY_WINDOWS[:-2]))
    words = ("--device", "1209:0001", "--umockdev", "mine.umockdev", "--limit", "20s")
    trial.expect(trial.run("windows.pcapng", *words, "--trace", "run.trace", "--", str(trial.program), "resubmits"), 0)
    # What each callback got (tools/replay.py), without its number.
    called = [it.split()[3:] for it in (trial.folder / "run.trace").read_text().splitlines() if it.startswith("# called ")]
    wanted = ["ep 81 COMPLETED 8 0102030405060708", "ep 81 COMPLETED 2 0910", "ep 81 STALL 0 -", "ep 81 OVERFLOW 0 -"]
    trial.check([" ".join(it) for it in called] == wanted, f"the callbacks got {called}")


# Those that need the library, and those that need usbtrace alone.
TEXT_TRIALS: List[Callable[[Trial], None]] = [
    windows_captures_are_read, what_windows_does_not_record_is_nothing, requests_on_windows_are_read,
]
TRIALS: List[Callable[[Trial], None]] = [
    a_recorded_run_is_made_again, a_reset_does_not_begin_it_anew, answers_at_two_endpoints_keep_their_order, seeds_say_how_to_run_again,
    another_run_differs, other_forms_are_read,
    what_it_lacks_is_told, who_is_left_out_is_told, descriptors_complete_it, a_device_folder_completes_it, umockdev_completes_it,
    what_is_there_stays, one_device_is_chosen, wrong_files_are_refused, windows_captures_are_run, *TEXT_TRIALS,
]


def attempts(folder: pathlib.Path, trials: List[Callable[[Trial], None]]) -> Iterator[Trial]:
    """Each trial, behind it. The program is there where the library is."""
    program, recorded = folder / "program", folder / "recorded.pcap"
    recorded.write_bytes(b"")
    if LIBRARY.is_file():
        sources = [TESTS / "program.c", TESTS / "processes.c"]
        subprocess.run([*FLAGS, *sources, "-L", ROOT / "bin", "-l:libusb-1.0.so.0", "-o", program], check=True)
        subprocess.run([RUN, DEVICES, "--", RECORD, "-o", recorded, "--", program, "resubmits"], capture_output=True, check=True)

    def attempt(trial_of: Callable[[Trial], None]) -> Trial:
        trial = Trial(program, recorded.read_bytes(), pathlib.Path(tempfile.mkdtemp(dir=folder)))
        try:
            trial_of(trial)
        except (subprocess.SubprocessError, OSError, ValueError) as error:
            trial.faults.append(str(error))
        return trial

    with ThreadPoolExecutor(os.cpu_count()) as pool:
        yield from pool.map(attempt, trials)


def main() -> int:
    if not USBTRACE.is_file():
        print("skipped: captures that are run: there is no bin/usbtrace (make run builds one)")
        return 0
    if not LIBRARY.is_file():
        print("skipped: captures that are run: there is no bin/libusb-1.0.so.0 (make c-try builds one); their texts are tried")
    kinds = TRIALS if LIBRARY.is_file() else TEXT_TRIALS
    with tempfile.TemporaryDirectory(prefix="capture-run-test-") as folder:
        trials = list(attempts(pathlib.Path(folder), kinds))
    for name, trial in zip((it.__name__.replace("_", " ") for it in kinds), trials):
        print("".join(f"skipped: {it}\n" for it in trial.skipped), end="")
        print("".join(f"{name}: {it}\n" for it in trial.faults), end="")
    failed = sum(bool(it.faults) for it in trials)
    print(f"{len(trials) - failed} passed, {failed} failed")
    return 1 if failed else 0


if __name__ == "__main__":
    sys.exit(main())
