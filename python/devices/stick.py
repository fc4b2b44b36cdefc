#!/usr/bin/env python3
"""A memory stick over a file, as a program: `stick.py FILE [BLOCK] [protected]`. tirnouch/devices/stick.py says what the words are."""
from tirnouch import main
from tirnouch.devices.stick import Stick

if __name__ == "__main__":
    main(Stick)
