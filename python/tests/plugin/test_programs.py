"""Programs of other processes, over devices of this one."""
from __future__ import annotations

import os
import pathlib
import shutil
import subprocess
import sys
import time
from typing import Any, List

import pytest

import tirnouch as t
from tirnouch.sources import USBTRACE, place_of

PYTHON = pathlib.Path(t.__file__).resolve().parent.parent
# A driver by ctypes: it sends each word, and prints what is read; its status is 1 where a call fails.
DRIVER = """\
import ctypes, sys
c = ctypes.CDLL("libusb-1.0.so.0")
c.libusb_open_device_with_vid_pid.restype = ctypes.c_void_p
context, moved, data = ctypes.c_void_p(), ctypes.c_int(), ctypes.create_string_buffer(64)
if c.libusb_init(ctypes.byref(context)):
    sys.exit("no bus")
found = c.libusb_open_device_with_vid_pid(context, 0x1209, int(sys.argv[1], 16))
if not found:
    sys.exit("no device")
device = ctypes.c_void_p(found)
c.libusb_claim_interface(device, 0)
status = 0
for word in sys.argv[2:]:
    raw = word.encode()
    status = c.libusb_bulk_transfer(device, 2, raw, len(raw), ctypes.byref(moved), 0)
    status = status or c.libusb_bulk_transfer(device, 0x81, data, 64, ctypes.byref(moved), 0)
    print(status or data.raw[:moved.value].decode())
c.libusb_close(device)
c.libusb_exit(context)
sys.exit(1 if status else 0)
"""
METER = """\
import tirnouch as t

class Meter(t.Device):
    ids = (0x1209, 0x0020)
    config = t.config(t.bulk_out(0x02), t.bulk_in(0x81))

    def out_02(self, packet):
        if packet == b"bug":
            raise KeyError("a bug of the device")
        self.send(0x81, packet[::-1])
"""


class Echo(t.Device):
    """It sends back what it took, and counts."""

    ids = (0x1209, 0x0020)
    config = t.config(t.bulk_out(0x02), t.bulk_in(0x81))
    count = 0

    def out_02(self, packet: bytes) -> Any:
        if packet == b"bug":
            raise KeyError("a bug of the device")
        if packet == b"quiet":
            return None
        self.count += 1
        self.send(0x81, packet[::-1])
        return t.ACK


@pytest.fixture
def words(tmp_path: pathlib.Path) -> List[str]:
    """The command of the driver."""
    path = tmp_path / "driver.py"
    path.write_text(DRIVER)
    return [sys.executable, str(path)]


def test_a_device_of_this_process_answers(words: List[str]) -> None:
    device = Echo()
    ran = t.run([*words, "20", "abc", "de"], devices=[device])
    assert ran == t.Completed(0, "cba\ned\n", "", [])
    assert device.count == 2
    assert t.run([*words, "20", "x"], [device], seed=3, time="virtual").output == "x\n"
    assert device.count == 3


def test_two_devices_and_a_text_that_judges(words: List[str]) -> None:
    text = t.text("device 0 0902200001010080320904000002ff0000000705810240000007050202400000\nids 0 1209 0002\nscript 0 02 a:6162\n"
                  "script 0 81 d:6f6b\n")
    class Other(Echo):
        ids = (0x1209, 0x0021)
    ran = t.run([*words, "21", "abc"], devices=[Echo, text, Other])
    assert (ran.status, ran.output) == (0, "cba\n")
    assert ran.report == ["device 1, endpoint 02: 1 expected packet never came; the first is packet 1: expected 6162 (length 2)"]
    assert t.run([*words, "2", "ab"], devices=[Echo, text]) == t.Completed(0, "ok\n", "", [])
    ran = t.run([*words, "2", "ac"], devices=[Echo, text])
    assert ran.report == ["device 1, endpoint 02: packet 1 differs at offset 1: came 61[63] (length 2), expected 61[62] (length 2)"]


def test_an_exception_of_a_device_is_raised(words: List[str]) -> None:
    with pytest.raises(KeyError, match="a bug of the device"):
        t.run([*words, "20", "bug"], devices=[Echo()])


def test_a_run_that_hangs_ends(words: List[str]) -> None:
    began = time.monotonic()
    ran = t.run([*words, "20", "quiet"], devices=[Echo()], limit="300ms")
    assert ran.status == 124
    assert "the transfer of 64 bytes at 81 is in flight" in ran.errors
    ran = t.run([sys.executable, "-c", "import time; time.sleep(60)"], devices=[Echo()], limit="300ms")
    assert ran.status == 124
    assert time.monotonic() - began < 20


def test_a_firmware_loader(words: List[str]) -> None:
    class Loader(t.Device):
        ids = (0x1209, 0x0008)
        config = t.config(t.bulk_out(0x02))

        def out_02(self, packet: bytes) -> Any:
            return t.GONE

    assert t.run([*words, "8", "x"], devices=[t.becomes(Loader, Echo)]).output == "-4\n"
    assert t.run([*words, "20", "x"], devices=[t.becomes(Loader, Echo)]).errors == "no device\n"


def test_what_run_refuses(words: List[str]) -> None:
    refused: Any = (("lsusb", {}, TypeError, "the words of a command"), ([], {}, TypeError, "the words of a command"),
                    (words, {"seed": -1}, ValueError, "a seed"), (words, {"time": "x"}, ValueError, "time is"),
                    (words, {"devices": [5]}, TypeError, "a bus takes devices"),
                    (["/nowhere/driver"], {}, FileNotFoundError, "/nowhere/driver"))
    for given, named, error, sentence in refused:
        with pytest.raises(error, match=sentence):
            t.run(given, **named)
    device = Echo()
    with t.bus(device):
        with pytest.raises(ValueError, match="Echo is in a bus already"):
            t.run([*words, "20", "x"], devices=[device])
    assert t.run([*words, "20", "xy"], devices=[device]).output == "yx\n"


def serve(folder: pathlib.Path, *words: str) -> "subprocess.CompletedProcess[str]":
    """python -m tirnouch serve, in a folder with meter.py."""
    (folder / "meter.py").write_text(METER)
    (folder / "two.py").write_text(METER + "\nclass Other(Meter):\n    ids = (0x1209, 0x0021)\n")
    environment = {**os.environ, "PYTHONPATH": str(PYTHON)}
    return subprocess.run([sys.executable, "-m", "tirnouch", "serve", *words], cwd=folder, env=environment, capture_output=True, text=True,
                          timeout=60, check=False)


def test_serve(tmp_path: pathlib.Path, words: List[str]) -> None:
    for devices, product in (("meter.py", "20"), ("two.py:Meter", "20"), ("two.py:Other", "21")):
        ran = serve(tmp_path, devices, "--virtual", "--seed", "3", "--", *words, product, "abc")
        assert (ran.returncode, ran.stdout, ran.stderr) == (0, "cba\n", "")
    ran = serve(tmp_path, "meter.py", "--", *words, "20", "bug")
    assert ran.returncode == 1
    assert "KeyError: 'a bug of the device'\ntirnouch: Meter: an exception at `out 02 627567`, which was answered by a stall" in ran.stderr
    (tmp_path / "x.txt").write_text("device 0 0902200001010080320904000002ff0000000705810240000007050202400000\nids 0 1209 0002\n"
                                    "script 0 02 a:62\nscript 0 81 d:6f6b\n")
    ran = serve(tmp_path, "meter.py", "x.txt", "--", *words, "2", "a")
    assert (ran.returncode, ran.stdout) == (3, "ok\n")
    assert "status 3 in place of 0" in ran.stderr


def test_serve_takes_modules_and_words(tmp_path: pathlib.Path) -> None:
    """A stick of 64 blocks, or of 32 that are twice as large: READ CAPACITY (10) tells the last one, and the bytes of a block (SCSI Block
    Commands 3, 5.15)."""
    pytest.importorskip("usb.core")
    (tmp_path / "my disk.img").write_bytes(bytes(512 * 64))
    (tmp_path / "read.py").write_text("import struct, usb.core\n"
                                      "stick = usb.core.find(idVendor=0x1209, idProduct=0x0007)\n"
                                      "stick.write(2, struct.pack('<4sIIBBB16s', b'USBC', 1, 8, 0x80, 0, 10, bytes([0x25])))\n"
                                      "print(*struct.unpack('>II', bytes(stick.read(0x81, 8))))\n")
    for word, told in (("tirnouch.devices.stick 'my disk.img'", "63 512\n"),
                       ("tirnouch.devices.stick:Stick 'my disk.img' 1024", "31 1024\n")):
        ran = serve(tmp_path, word, "--", sys.executable, "read.py")
        assert (ran.returncode, ran.stdout, ran.stderr) == (0, told, "")


@pytest.mark.skipif(not place_of(USBTRACE), reason="there is no bin/usbtrace: build it by `make run`")
def test_usbtrace_explains_a_trace(tmp_path: pathlib.Path) -> None:
    """A scenario's line comes back (docs/FORMATS.md); behind its number, with what it prints; the status is usbtrace's."""
    words = [sys.executable, "-m", "tirnouch", "usbtrace"]
    environment = {**os.environ, "PYTHONPATH": str(PYTHON)}
    device = "device 0 0902190001010080320904000001ff00000007058102080000\n"
    ran = subprocess.run([*words, "explain"], input=device + "open 1 0\n", env=environment, capture_output=True, text=True, timeout=60,
                         check=False)
    assert (ran.returncode, ran.stdout) == (0, "2 open 1 0 | h1 done\n")
    ran = subprocess.run([*words, "nothing"], env=environment, capture_output=True, text=True, timeout=60, check=False)
    assert ran.returncode != 0


def test_what_serve_refuses(tmp_path: pathlib.Path) -> None:
    for given, status, sentence in ((("meter.py",), 2, "which program? Put it behind --"),
                                    (("two.py", "--", "true"), 2, "two.py has 2 devices: say which, as two.py:Meter"),
                                    (("two.py:None", "--", "true"), 2, "has no device None; it has Meter, Other"),
                                    (("none.py", "--", "true"), 2, "there is no file none.py"),
                                    (("meter.py 5", "--", "true"), 2, "the words of Meter stand behind it, in quotes"),
                                    (("tirnouch.devices.stick", "--", "true"), 2, "as \"tirnouch.devices.stick WORD\": missing"),
                                    (("tirnouch.devices.none", "--", "true"), 127, "tirnouch.devices.none"),
                                    (("tirnouch.answers", "--", "true"), 2, "tirnouch.answers has no device"),
                                    (("none.txt", "--", "true"), 127, "none.txt"),
                                    (("meter.py", "--", "/nowhere/x"), 127, "/nowhere/x"),
                                    (("meter.py", "--limit", "x", "--", "true"), 2, "a limit is"),
                                    (("meter.py", "--library", "/nowhere/x", "--", "true"), 127, "/nowhere/x isn't there")):
        ran = serve(tmp_path, *given)
        assert (ran.returncode, sentence in ran.stderr) == (status, True), (given, ran)


@pytest.mark.skipif(not shutil.which("lsusb"), reason="there is no lsusb (apt-get install usbutils)")
def test_lsusb() -> None:
    class Meter(Echo):
        manufacturer, product_name = "Works", "Meter"

    ran = t.run(["lsusb", "-d", "1209:0020"], devices=[Meter()])
    assert ran.status == 0
    assert "ID 1209:0020" in ran.output
