"""The beginning of a scenario, of files of descriptors that are taken (docs/FORMATS.md, Devices from their descriptors); and the faults of
others, whose sentences are those of specs/DescriptorFaults of `trace_faults`."""
from usbtrace_tests.descriptor_files import CONFIGURATION, DEVICE, MANY, TEXT
from usbtrace_tests.trial import End, Trial, test

# The comment on the device descriptor.
DEVICE_LINE = b"# 1234:5678, USB 2.00, 1 configuration\n"
# The lines of the configuration.
LINES = b"""\
# configuration 1: 2 interfaces
# interface 0: class ff (vendor specific)
#   81 bulk IN, packets of 8 bytes
#   02 bulk OUT, packets of 8 bytes
# interface 1: class ff (vendor specific)
#   83 interrupt IN, packets of 8 bytes
device 0 0902300002010080320904000002ff00000007058102080000070502020800000904010001ff0000000705830308000a
"""
# What the device descriptor says of the device: its class is 00, and has no line.
IDS_LINE = b"ids 0 1234 5678 0100\n"
# The lines of the device with two configurations.
MANY_LINES = b"""\
# 1234:5678, USB 2.00, 2 configurations
# configuration 1: 3 interfaces
# interface 0: class 02 (communications)
# interface 1: class ff (vendor specific)
# interface 1, setting 1: not used here
# interface 2: class 03 (human interface device)
#   83 interrupt IN, packets of 8 bytes
# left out: 18 more bytes, which `usbtrace describe` prints
device 0 09025700030100e0fa080b00020202010009040000000202010005240010010904010000ff0000000904010101ff0000000905840d000b010002090402000103010200092111010001223f000705830308000a0431aabb
ids 0 1234 5678 0100
"""

NOT_A_DESCRIPTOR = b"no descriptor begins the input: give it a device's file `descriptors`, or the same bytes in hexadecimal"
NOT_A_DEVICE = b"the device descriptor in front isn't one of 18 bytes: give the whole file"
NO_CONFIGURATION = b"no configuration stands behind the device descriptor: give the whole file"
ODD_DIGITS = b"the text has an odd number of digits: give two for each byte"
NOT_HEX = b"behind %d digits the text has something else: give two hexadecimal digits for each byte"
TRUNCATED = b"the configuration is cut off at its byte %d: give the whole file"
BAD_LENGTH = b"the descriptor at byte %d of the configuration has an impossible length: `usbtrace describe` shows it"


def makes(trial: Trial, given: bytes, lines: bytes) -> None:
    """These lines are made of an input."""
    trial.expect("device", given, End(0, lines, b""))


def has_fault(trial: Trial, given: bytes, sentence: bytes) -> None:
    """None are, and this is why."""
    trial.expect("device", given, End(1, b"", b"usbtrace: " + sentence + b"\n"))


@test
def a_file_with_a_device_descriptor_says_its_vendor(trial: Trial) -> None:
    makes(trial, DEVICE + CONFIGURATION, DEVICE_LINE + LINES + IDS_LINE)


@test
def a_class_has_a_line_of_its_own(trial: Trial) -> None:
    makes(trial, b"12 01 10 02 00 00 01 40 b5 0b a3 10 0f 07 01 02 00 01 09 02 09 00 00 01 00 80 00", b"""\
# 0bb5:10a3, USB 2.10, 1 configuration
# configuration 1: 0 interfaces
device 0 090209000001008000
ids 0 0bb5 10a3 070f
class 0 00 00 01
""")


@test
def a_configuration_alone_is_taken(trial: Trial) -> None:
    makes(trial, CONFIGURATION, LINES)


@test
def text_is_taken_in_either_case(trial: Trial) -> None:
    makes(trial, TEXT.encode(), LINES)
    makes(trial, MANY.encode(), MANY_LINES)


@test
def a_prefix_and_colons_are_passed_over(trial: Trial) -> None:
    one = b"# configuration 1: 0 interfaces\ndevice 0 090209000001008000\n"
    makes(trial, b"0x09 0X02 0x09 0x00\n0x00 0x01 0x00 0x80 0x00\n", one)
    makes(trial, b"09:02:09:00:00:01:00:80:00\r\n", one)
    makes(trial, bytes([9, 2, 9, 0, 0, 1, 0, 0x80, 0]), one)


@test
def one_byte_behind_the_configuration_is_one(trial: Trial) -> None:
    makes(trial, b"09 02 09 00 00 01 00 80 00 07", b"""\
# configuration 1: 0 interfaces
# left out: 1 more byte, which `usbtrace describe` prints
device 0 090209000001008000
""")


@test
def what_begins_with_no_descriptor_is_refused(trial: Trial) -> None:
    for given in (b"", b"hello", b"0904"):
        has_fault(trial, given, NOT_A_DESCRIPTOR)
    has_fault(trial, bytes([17, 1, 0]), NOT_A_DEVICE)
    has_fault(trial, DEVICE, NO_CONFIGURATION)


@test
def text_that_is_not_hexadecimal_is_refused(trial: Trial) -> None:
    has_fault(trial, b"09 0", ODD_DIGITS)
    has_fault(trial, b"09 02 g0", NOT_HEX % 4)


@test
def a_configuration_that_is_refused_is_told_with_its_fault(trial: Trial) -> None:
    has_fault(trial, (DEVICE + CONFIGURATION)[:60], TRUNCATED % 42)
    has_fault(trial, bytes([9, 2, 3, 0, 0, 1, 0, 0x80, 0]), BAD_LENGTH % 0)
    has_fault(trial, bytes([9, 2, 11, 0, 1, 1, 0, 0x80, 0, 3, 4]), BAD_LENGTH % 9)


@test
def lines_are_whole_or_memory_is_wanting(trial: Trial) -> None:
    trial.refused("device", TEXT.encode())
