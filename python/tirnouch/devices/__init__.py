"""Devices that programs of a system use: a memory stick (stick.py), a loader of firmware (dfu.py), a reader of smart cards (ccid.py, with
card.py), a programmer with a flash chip (ch341a.py, w25q80.py), a probe (stlink.py), a key that answers challenges (yubikey.py).

    from tirnouch.devices.stick import Stick     # a class, for a test
    program 0 python3 -m tirnouch.devices.stick disk.img     # a line of a text of devices"""
