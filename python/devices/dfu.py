#!/usr/bin/env python3
"""A device in DFU mode over a file, as a program: `dfu.py FILE [SIZE]`. tirnouch/devices/dfu.py says what the words are."""
from tirnouch import main
from tirnouch.devices.dfu import Dfu

if __name__ == "__main__":
    main(Dfu)
