#!/usr/bin/env python3
"""A reader of smart cards with a card in it, as a program: `ccid.py [VENDOR:PRODUCT]`. tirnouch/devices/ccid.py says what the words are."""
from tirnouch import main
from tirnouch.devices.ccid import Reader

if __name__ == "__main__":
    main(Reader)
