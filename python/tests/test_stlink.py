"""The probe: commands as stlink 1.7 sends them; what the chip's registers have is by ST's RM0008 and ARM's ARMv7-M manual."""
from __future__ import annotations

import struct
import unittest

from tests.harness import DEVICES, Host, ProgramHost
from tirnouch.devices.stlink import Stlink

DHCSR = 0xE000EDF0


class Probes(unittest.TestCase):
    def setUp(self) -> None:
        self.host = Host(Stlink())

    def send(self, command: str, *words: int) -> None:
        """A command of 16 bytes: digits, and words of 32 bits behind them."""
        data = bytes.fromhex(command) + b"".join(struct.pack("<I", word) for word in words)
        self.host.write(0x02, data.ljust(16, b"\0"), 64)

    def ask(self, command: str, *words: int, length: int = 64) -> bytes:
        """A command, and its answer."""
        self.send(command, *words)
        return self.host.read(0x81, length, 64)

    def word(self, address: int) -> int:
        """A word of the target: a status of 4 bytes stands in front of it."""
        answer = self.ask("f236", address)
        self.assertEqual((answer[:4], len(answer)), (b"\x80\0\0\0", 8))
        return int.from_bytes(answer[4:], "little")

    def test_its_version(self) -> None:
        """Two bytes, the higher first: 4 bits of the version, 6 of JTAG, 6 of SWIM; then vendor and product."""
        answer = self.ask("f1")
        version = int.from_bytes(answer[:2], "big")
        self.assertEqual((version >> 12, version >> 6 & 63, version & 63, answer[2:].hex()), (2, 37, 7, "83044837"))

    def test_its_modes(self) -> None:
        """1 is a mass storage, 2 debugs."""
        self.assertEqual(self.ask("f5"), b"\1\0")
        self.assertEqual(self.ask("f230a3"), b"\x80\0")
        self.assertEqual(self.ask("f5"), b"\2\0")
        self.send("f221")
        self.assertEqual(self.ask("f5"), b"\1\0")
        self.send("f307")
        self.assertEqual(self.ask("f5"), b"\1\0")

    def test_a_reset_begins_anew(self) -> None:
        """A mass storage again, whose target runs; words that were to come are commands."""
        for event in ("reset", "plugged"):
            self.ask("f230a3")
            self.ask("f235", DHCSR, 0xA05F0003)
            self.send("f208", 0x20000000, 8)
            self.host.tell(event)
            self.assertEqual(self.ask("f5"), b"\1\0")
            self.assertFalse(self.word(DHCSR) & 1 << 17)

    def test_other_answers(self) -> None:
        """A speed is taken, the last status is good; a reset, by the wires or by the pin, lets the target run."""
        for command in ("f243", "f23b"):
            self.assertEqual(self.ask(command), b"\x80\0")
        for command in ("f232", "f23c02"):
            self.ask("f235", DHCSR, 0xA05F0003)
            self.assertEqual(self.ask(command), b"\x80\0")
            self.assertFalse(self.word(DHCSR) & 1 << 17)

    def test_the_targets_voltage(self) -> None:
        """Twice 1.2 V by the second reading over the first: 3.3 V."""
        factor, reading = struct.unpack("<II", self.ask("f7"))
        self.assertAlmostEqual(2 * 1.2 * reading / factor, 3.3, 2)

    def test_the_cores_number(self) -> None:
        """RM0008, 31.8.3: 1BA01477."""
        self.assertEqual(self.ask("f231")[4:8], struct.pack("<I", 0x1BA01477))

    def test_the_chips_registers(self) -> None:
        """DEV_ID 410 is medium density; the flash has 64 KiB; CPUID has part C23, a Cortex-M3."""
        self.assertEqual(self.word(0xE0042000) & 0xFFF, 0x410)
        self.assertEqual(self.word(0x1FFFF7E0) & 0xFFFF, 64)
        self.assertEqual(self.word(0xE000ED00) >> 4 & 0xFFF, 0xC23)
        self.assertEqual(self.word(0x20000000), 0)

    def test_the_core_is_halted_and_runs(self) -> None:
        """DHCSR takes A05F in its upper half. Bit 0 is C_DEBUGEN, 1 C_HALT, 16 S_REGRDY, 17 S_HALT."""
        self.assertEqual(self.word(DHCSR), 0x10001)
        self.assertEqual(self.ask("f235", DHCSR, 0xA05F0003), b"\x80\0")
        self.assertEqual(self.word(DHCSR), 0x30003)
        self.assertEqual(self.ask("f209"), b"\x80\0")
        self.assertFalse(self.word(DHCSR) & 1 << 17)

    def test_memory_is_written_and_read(self) -> None:
        self.send("f208", 0x20000000, 8)
        self.host.write(0x02, struct.pack("<II", 1, 0xDEADBEEF), 64)
        self.assertEqual(self.ask("f23e"), b"\x80" + bytes(11))
        self.assertEqual(self.ask("f207", 0x20000000, 12), struct.pack("<III", 1, 0xDEADBEEF, 0))
        self.assertEqual(self.word(0x20000004), 0xDEADBEEF)

    def test_memory_in_packets(self) -> None:
        self.send("f208", 0x20000000, 100)
        data = bytes(range(100))
        self.host.write(0x02, data, 64)
        self.assertEqual(self.ask("f207", 0x20000000, 100, length=100), data)

    def test_what_isnt_known_is_a_fault(self) -> None:
        self.assertEqual((self.ask("00"), self.ask("f2ff"), self.ask("f5")), (b"\x81\0", b"\x81\0", b"\1\0"))

    def test_its_text(self) -> None:
        program = ProgramHost(str(DEVICES / "stlink.py"), "0123456789ABCDEF01234567")
        lines = program.hello()
        program.end()
        configuration = "0902270001010080320904000003ffffff00" + "07050202400000" + "07058102400000" + "07058302400000"
        self.assertEqual(lines[:3], [f"device 0 {configuration}", "ids 0 0483 3748 0100", "speed 0 full"])
        self.assertIn("string 0 3 0123456789ABCDEF01234567", lines)
