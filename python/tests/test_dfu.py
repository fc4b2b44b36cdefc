"""The device in DFU mode, by Device Firmware Upgrade 1.1: states and status by 6.1.2, transitions by A.2."""
from __future__ import annotations

import pathlib
import tempfile
import unittest
from typing import Tuple

from tests.harness import DEVICES, Host, ProgramHost, Stalled
from tirnouch.devices.dfu import Dfu

IDLE, DNLOAD_SYNC, DNBUSY, DNLOAD_IDLE, MANIFEST_SYNC, MANIFEST, UPLOAD_IDLE, ERROR = 2, 3, 4, 5, 6, 7, 9, 10
ERR_ADDRESS, ERR_STALLEDPKT = 8, 15


class Loader(Host):
    """A host's requests."""

    def download(self, block: int, data: bytes) -> None:
        """DFU_DNLOAD."""
        self.control(0x21, 1, block, 0, data)

    def upload(self, block: int, length: int) -> bytes:
        """DFU_UPLOAD."""
        return self.control(0xA1, 2, block, 0, length)

    def status(self) -> Tuple[int, int, int]:
        """DFU_GETSTATUS: bStatus, bwPollTimeout and bState; iString is 0."""
        data = self.control(0xA1, 3, 0, 0, 6)
        if len(data) != 6 or data[5]:
            raise AssertionError(data.hex())
        return data[0], int.from_bytes(data[1:4], "little"), data[4]

    def state(self) -> int:
        """DFU_GETSTATE."""
        return self.control(0xA1, 5, 0, 0, 1)[0]


class Transfers(unittest.TestCase):
    def setUp(self) -> None:
        folder = tempfile.TemporaryDirectory()
        self.addCleanup(folder.cleanup)
        self.path = pathlib.Path(folder.name) / "firmware"
        self.host = Loader(Dfu(str(self.path), "4096"))

    def refused(self, kind: int, request: int, data: "bytes | int" = b"", block: int = 0) -> Tuple[int, int, int]:
        """A request is refused; the status, which is cleared again (DFU_CLRSTATUS)."""
        with self.assertRaises(Stalled):
            self.host.control(kind, request, block, 0, data)
        status = self.host.status()
        self.host.control(0x21, 4, 0, 0)
        self.assertEqual(self.host.status(), (0, 0, IDLE))
        return status

    def test_a_firmware_is_written(self) -> None:
        self.assertEqual(self.host.status(), (0, 0, IDLE))
        for block, data in enumerate((b"a" * 1024, b"b" * 100)):
            self.host.download(block, data)
            self.assertEqual(self.host.state(), DNLOAD_SYNC)
            self.assertEqual(self.host.status(), (0, 20, DNBUSY))
            self.assertEqual(self.host.status(), (0, 0, DNLOAD_IDLE))
        self.assertFalse(self.path.exists())
        self.host.download(2, b"")
        self.assertEqual([self.host.state(), self.host.status(), self.host.status()], [MANIFEST_SYNC, (0, 50, MANIFEST), (0, 0, IDLE)])
        self.assertEqual(self.path.read_bytes(), b"a" * 1024 + b"b" * 100)

    def test_a_firmware_is_read(self) -> None:
        """A block that is shorter than was asked for ends it; one that is as long doesn't (6.2.1)."""
        self.path.write_bytes(bytes(range(256)) * 4)
        self.assertEqual(self.host.upload(0, 1024), bytes(range(256)) * 4)
        self.assertEqual(self.host.state(), UPLOAD_IDLE)
        self.assertEqual((self.host.upload(1, 1024), self.host.state()), (b"", IDLE))
        self.assertEqual((self.host.upload(0, 1000), self.host.upload(1, 1000), self.host.state()),
                         (self.path.read_bytes()[:1000], self.path.read_bytes()[1000:], IDLE))

    def test_a_device_without_firmware(self) -> None:
        self.assertEqual((self.host.upload(0, 64), self.host.state()), (b"", IDLE))

    def test_what_a_state_doesnt_allow_is_an_error(self) -> None:
        """A.2: a request that isn't named in a state stalls, and leads to dfuERROR."""
        self.assertEqual(self.refused(0x21, 1, b""), (ERR_STALLEDPKT, 0, ERROR))
        self.assertEqual(self.refused(0x21, 4), (ERR_STALLEDPKT, 0, ERROR))
        self.host.download(0, b"a")
        self.assertEqual(self.refused(0x21, 1, b"b", 1), (ERR_STALLEDPKT, 0, ERROR))
        self.host.download(0, b"a")
        self.assertEqual(self.refused(0xA1, 2, 64), (ERR_STALLEDPKT, 0, ERROR))
        self.host.download(0, b"a")
        self.assertEqual(self.refused(0x21, 6), (ERR_STALLEDPKT, 0, ERROR))
        self.path.write_bytes(bytes(2000))
        self.host.upload(0, 1024)
        self.assertEqual(self.refused(0x21, 1, b"a"), (ERR_STALLEDPKT, 0, ERROR))

    def test_in_an_error_only_its_status_is_told(self) -> None:
        with self.assertRaises(Stalled):
            self.host.download(0, b"")
        for kind, request, data in ((0x21, 1, b"a"), (0xA1, 2, 64), (0x21, 6, b"")):
            with self.assertRaises(Stalled):
                self.host.control(kind, request, 0, 0, data)
        self.assertEqual((self.host.status(), self.host.state()), ((ERR_STALLEDPKT, 0, ERROR), ERROR))

    def test_blocks_come_in_their_order_and_have_a_size(self) -> None:
        """bStatus errADDRESS where the memory ends; wTransferSize is 1024 (4.2.4)."""
        self.host.download(7, b"a")
        self.host.status()
        self.host.status()
        self.assertEqual(self.refused(0x21, 1, b"b", 9), (ERR_ADDRESS, 0, ERROR))
        self.assertEqual(self.refused(0x21, 1, bytes(1025)), (ERR_STALLEDPKT, 0, ERROR))
        self.assertEqual(self.refused(0xA1, 2, 1025), (ERR_STALLEDPKT, 0, ERROR))
        for block in range(4):
            self.host.download(block, bytes(1024))
            self.host.status()
            self.host.status()
        self.assertEqual(self.refused(0x21, 1, b"a", 4), (ERR_ADDRESS, 0, ERROR))

    def test_an_abort_leaves_the_firmware_as_it_was(self) -> None:
        self.path.write_bytes(b"old")
        self.host.download(0, b"new")
        self.host.status()
        self.host.status()
        self.host.control(0x21, 6, 0, 0)
        self.assertEqual((self.host.state(), self.host.upload(0, 64)), (IDLE, b"old"))

    def test_a_reset_begins_anew(self) -> None:
        for event in ("reset", "plugged"):
            self.host.download(0, b"new")
            self.host.tell(event)
            self.assertEqual((self.host.state(), self.path.exists()), (IDLE, False))

    def test_its_descriptors(self) -> None:
        """4.2.3 and 4.2.4: class FE, subclass 01, protocol 02; bitCanDnload, bitCanUpload, bitManifestationTolerant; 255 ms; 1024; 1.1."""
        program = ProgramHost(str(DEVICES / "dfu.py"), str(self.path))
        lines = program.hello()
        self.assertEqual(program.end(), (0, ""))
        self.assertEqual(lines[0], "device 0 09021b000101008032" + "0904000000fe010204" + "092107ff0000041001")
        self.assertIn("ids 0 1209 0006 0100", lines)
        self.assertIn("class 0 fe 01 02", lines)
        self.assertIn("string 0 4 memory", lines)
