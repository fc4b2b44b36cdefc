"""Files of descriptors."""

# A device descriptor: vendor 1234, product 5678, USB 2.00, one configuration.
DEVICE = bytes.fromhex("12 01 00 02 00 00 00 40 34 12 78 56 00 01 01 02 03 01")
# The configuration that docs/FORMATS.md has byte by byte, as text: two interfaces of a vendor's own class, with three endpoints. And its bytes.
TEXT = (
    "09 02 30 00 02 01 00 80 32 09 04 00 00 02 FF 00 00 00 07 05 81 02 08 00 00 07 05 02 02 08 00 00 "
    "09 04 01 00 01 FF 00 00 00 07 05 83 03 08 00 0A"
)
CONFIGURATION = bytes.fromhex(TEXT)
# A device with two configurations, as text: the first has an association, a descriptor of a communications interface, an alternate
# setting with an isochronous endpoint of an audio device's length, a HID interface, and a descriptor of no known type.
MANY = """\
12 01 00 02 00 00 00 40 34 12 78 56 00 01 01 02 03 02 09 02 57 00 03 01 00 e0 fa 08 0b 00 02 02
02 01 00 09 04 00 00 00 02 02 01 00 05 24 00 10 01 09 04 01 00 00 ff 00 00 00 09 04 01 01 01 ff
00 00 00 09 05 84 0d 00 0b 01 00 02 09 04 02 00 01 03 01 02 00 09 21 11 01 00 01 22 3f 00 07 05
83 03 08 00 0a 04 31 aa bb 09 02 12 00 01 02 00 80 00 09 04 00 00 00 ff 00 00 00
"""
