#!/usr/bin/env python3
"""A probe with a microcontroller at its wires, as a program: `stlink.py [SERIAL]`. tirnouch/devices/stlink.py says what the words are."""
from tirnouch import main
from tirnouch.devices.stlink import Stlink

if __name__ == "__main__":
    main(Stlink)
