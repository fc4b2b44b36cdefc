"""An ST-LINK/V2 with a microcontroller at its wires, as far as `st-info --probe` asks: what the probe is, and the registers that say which
chip stands there.

    stlink.py [SERIAL]    its serial number, 24 hexadecimal digits

ST has no public document of the commands; what stands here is what stlink 1.7 (src/stlink-lib/usb.c) and OpenOCD (stlink_usb.c) send. The
chip is an STM32F103 of 64 KiB: registers by ST's reference manual RM0008, 30.1.1 and 31.6.1, and by ARM's ARMv7-M manual, B3.2.3 and
C1.6."""
from __future__ import annotations

import struct
from typing import Callable, Dict

from tirnouch import Device, bulk_in, bulk_out, main

REPLIES, COMMANDS, PACKET, COMMAND = 0x81, 0x02, 64, 16
# Commands: the probe's version, its mode, the target's voltage; its loader's, and those that debug.
GET_VERSION, DFU, DEBUG, GET_MODE, GET_VOLTAGE = 0xF1, 0xF3, 0xF2, 0xF5, 0xF7
EXIT, READ_MEMORY, WRITE_MEMORY, RUN = 0x21, 0x07, 0x08, 0x09
ENTER, READ_IDS, RESET, READ_REGISTER, WRITE_REGISTER, LAST_STATUS, DRIVE_RESET, LAST_STATUS_2, SET_FREQUENCY = (
    0x30, 0x31, 0x32, 0x36, 0x35, 0x3B, 0x3C, 0x3E, 0x43)
MASS_MODE, DEBUG_MODE = 1, 2
OK, FAULT = 0x80, 0x81
# V2J37S7: four bits, six and six; then vendor and product.
VERSION = struct.pack(">H", 2 << 12 | 37 << 6 | 7) + struct.pack("<HH", 0x0483, 0x3748)
# 2 * 1.2 V by the two readings of the converter: 3.3 V
VOLTAGE = struct.pack("<II", 1490, 2049)
# SW-DP's number of a Cortex-M3 (RM0008, 31.8.3)
CORE = 0x1BA01477
# Addresses of the target: CPUID (ARMv7-M, B3.2.3), DBGMCU_IDCODE (RM0008, 31.6.1), the flash's size in KiB (30.1.1), and DHCSR (ARMv7-M,
# C1.6), with C_DEBUGEN, C_HALT, S_REGRDY and S_HALT.
CPUID, IDCODE, FLASH_SIZE, DHCSR = 0xE000ED00, 0xE0042000, 0x1FFFF7E0, 0xE000EDF0
ENABLED, HALT, REGISTER_READY, HALTED = 0x1, 0x2, 0x10000, 0x20000
# Cortex-M3 r1p1; medium density, revision X; 64 KiB.
WORDS = {CPUID: 0x411FC231, IDCODE: 0x20036410, FLASH_SIZE: 0xFFFF0040}


class Target:
    """The chip's words by their addresses; others are 0."""

    def __init__(self) -> None:
        self.words = dict(WORDS)
        self.is_halted = False

    def read(self, address: int) -> int:
        """A word. DHCSR tells whether the core is halted."""
        if address == DHCSR:
            return REGISTER_READY | ENABLED | (HALTED | HALT if self.is_halted else 0)
        return self.words.get(address, 0)

    def write(self, address: int, value: int) -> None:
        """A word. DHCSR halts the core, or lets it run."""
        if address == DHCSR:
            self.is_halted = bool(value & HALT)
        else:
            self.words[address] = value


class Stlink(Device):
    """The probe: a command of 16 bytes is answered at 81, or not at all, as those of the loader, which it is never in."""

    vendor, product = 0x0483, 0x3748
    interfaces = ((0xFF, 0xFF, 0xFF),)
    speed = "full"
    replies = bulk_in(REPLIES, PACKET)
    trace = bulk_in(0x83, PACKET)

    def __init__(self, serial: str = "303030303030303030303031") -> None:
        self.strings = ("STMicroelectronics", "STM32 STLink", serial)
        self.target = Target()
        self.commands: Dict[int, Callable[[bytes], bytes]] = {
            GET_VERSION: lambda _words: VERSION, GET_MODE: lambda _words: bytes((self.mode, 0)), GET_VOLTAGE: lambda _words: VOLTAGE,
            DFU: lambda _words: b"", DEBUG: self.debug}
        self.debugs: Dict[int, Callable[[bytes], bytes]] = {
            ENTER: self.enter, EXIT: self.leave, READ_IDS: lambda _words: status(OK, struct.pack("<II", CORE, 0)), RESET: self.reset,
            READ_REGISTER: self.read_register, WRITE_REGISTER: self.write_register, READ_MEMORY: self.read_memory,
            WRITE_MEMORY: self.write_memory, LAST_STATUS: lambda _words: bytes((OK, 0)), DRIVE_RESET: self.reset,
            LAST_STATUS_2: lambda _words: status(OK, bytes(8)), SET_FREQUENCY: lambda _words: bytes((OK, 0)), RUN: self.run}
        self.renew()

    def renew(self) -> None:
        """As it is when it is plugged in: a mass storage, which debugs nothing yet; the target runs."""
        self.mode, self.at, self.left = MASS_MODE, 0, 0
        self.target.is_halted = False

    def on_reset(self) -> None:
        self.renew()

    def on_plugged(self) -> None:
        self.renew()

    @bulk_out(COMMANDS, PACKET)
    def packet(self, data: bytes) -> None:
        """A command, or words for the target's memory. What isn't known is answered by a fault."""
        if self.left:
            self.store(data)
            return
        do = self.commands.get(data[0]) if data else None
        reply = do(data.ljust(COMMAND, b"\0")) if do else bytes((FAULT, 0))
        if reply:
            self.send(REPLIES, reply)

    def debug(self, words: bytes) -> bytes:
        """A command that debugs."""
        do = self.debugs.get(words[1])
        return do(words) if do else bytes((FAULT, 0))

    def enter(self, _words: bytes) -> bytes:
        """The wires are used for SWD."""
        self.mode = DEBUG_MODE
        return bytes((OK, 0))

    def leave(self, _words: bytes) -> bytes:
        """They are left; nothing is answered."""
        self.mode = MASS_MODE
        return b""

    def reset(self, _words: bytes) -> bytes:
        """The target begins anew, and runs."""
        self.target.is_halted = False
        return bytes((OK, 0))

    def run(self, _words: bytes) -> bytes:
        """The target runs."""
        self.target.is_halted = False
        return bytes((OK, 0))

    def read_register(self, words: bytes) -> bytes:
        """A word of the target, which stands behind the status."""
        return status(OK, struct.pack("<I", self.target.read(*struct.unpack_from("<I", words, 2))))

    def write_register(self, words: bytes) -> bytes:
        """A word of the target."""
        self.target.write(*struct.unpack_from("<II", words, 2))
        return bytes((OK, 0))

    def read_memory(self, words: bytes) -> bytes:
        """Words of the target, without a status."""
        address, length = struct.unpack_from("<IH", words, 2)
        return b"".join(struct.pack("<I", self.target.read(at)) for at in range(address, address + length, 4))

    def write_memory(self, words: bytes) -> bytes:
        """Words that come behind this command; nothing is answered."""
        self.at, self.left = struct.unpack_from("<IH", words, 2)
        return b""

    def store(self, data: bytes) -> None:
        """These words."""
        for at in range(0, min(len(data), self.left) // 4 * 4, 4):
            self.target.write(self.at + at, *struct.unpack_from("<I", data, at))
        self.at += len(data)
        self.left = max(0, self.left - len(data))


def status(code: int, data: bytes) -> bytes:
    """A status of four bytes, and data behind it."""
    return bytes((code, 0, 0, 0)) + data


if __name__ == "__main__":
    main(Stlink)
