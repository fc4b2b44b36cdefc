#!/usr/bin/env python3
"""A programmer with a flash chip, as a program: `ch341a.py FILE`. tirnouch/devices/ch341a.py says what the words are."""
from tirnouch import main
from tirnouch.devices.ch341a import Ch341a

if __name__ == "__main__":
    main(Ch341a)
