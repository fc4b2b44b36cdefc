#!/usr/bin/env python3
"""A key that answers challenges, as a program: `yubikey.py [NUMBER [KEY]]`. tirnouch/devices/yubikey.py says what the words are."""
from tirnouch import main
from tirnouch.devices.yubikey import Yubikey

if __name__ == "__main__":
    main(Yubikey)
