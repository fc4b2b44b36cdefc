"""Inputs of which only a part can be printed, and what is told of them (docs/FORMATS.md, the words and the descriptors)."""
import errno

from refuse_allocations import FOREVER, Failing

from usbtrace_tests.device_lines import NOT_A_DESCRIPTOR
from usbtrace_tests.trial import FAILED, UNREAD, End, Trial, test

# A device descriptor that counts one configuration, and that configuration, without interfaces.
DESCRIPTORS = b"""12 01 00 02 00 00 00 40 34 12 78 56 00 01 00 00 00 01
09 02 09 00 00 01 00 80 32
"""


@test
def a_whole_file_of_descriptors_ends_with_0(trial: Trial) -> None:
    trial.shows("describe", DESCRIPTORS, [b"    MaxPower              100mA\n"], step=100)


@test
def a_cut_file_of_descriptors_is_printed_and_ends_with_4(trial: Trial) -> None:
    told = b"usbtrace: byte 23: the input ends before the configuration does\n"
    half = b"    bNumInterfaces          0\n    ** cut off: 5 of 9 bytes\n"
    trial.shows("describe", DESCRIPTORS[:69], [half], step=100, status=4, err=told)


@test
def a_device_without_its_configurations_ends_with_4(trial: Trial) -> None:
    told = b"usbtrace: byte 18: the input ends behind 0 of 1 configurations\n"
    trial.shows("describe", DESCRIPTORS[:54], [b"** byte 18: "], step=100, status=4, err=told)


@test
def what_is_no_descriptor_ends_with_1(trial: Trial) -> None:
    trial.expect("describe", b"12 09", End(1, b"", b"usbtrace: " + NOT_A_DESCRIPTOR + b"\n"), step=100)


# A read of one packet; and a second one that is only submitted: the last record of the capture.
READ = b"""device 0 0902190001010080320904000001ff00000007058102080000
script 0 81 d:0102030405060708
open 1 0
claim 1 0
submit 1 81 bulk 8
serve 0 81
deliver
take
"""
READ_AND_MORE = READ + b"submit 1 81 bulk 8\n"


@test
def a_cut_capture_is_printed_and_ends_with_4(trial: Trial) -> None:
    capture = trial.run("capture", READ_AND_MORE, step=100).out
    trial.shows("devices", capture, [b"script 0 81 d:0102030405060708\n"], step=1_000)
    cut = [b"# the capture ends amid a record\n"]
    trial.shows("devices", capture[:-1], cut, step=1_000, status=4, err=b"usbtrace: the capture ends amid a record\n")


@test
def a_picture_without_steps_is_refused(trial: Trial) -> None:
    behind = b"usbtrace: no step stands at line 9 or behind it\n"
    trial.expect("draw --from 9", READ, End(1, b"", behind), step=100)
    within = b"usbtrace: no step stands in the lines 1 to 2\n"
    trial.expect("draw --html --to 2", READ, End(1, b"", within), step=100)
    trial.shows("draw --from 8", READ, [b"<svg ", b"\n</svg>\n"], step=100)


@test
def a_bad_line_is_told_before_a_picture_without_steps(trial: Trial) -> None:
    trial.expect("draw --from 9", b"open 1 0\nno line\n", End(1, b"", b"usbtrace: line 2 refused\n"), step=100)


@test
def a_version_that_cant_be_printed_is_told(trial: Trial) -> None:
    for code, told in ((errno.ENOSPC, FAILED), (errno.EPIPE, b"")):
        failing = Failing("writes", 1, FOREVER, code, room=5)
        trial.expect("--version", b"", End(1, b"usbtr", told), failing=failing)


@test
def a_test_that_cant_be_made_is_told_on_standard_error(trial: Trial) -> None:
    none = End(1, b"there/is/none: not tested\n0 passed, 1 failed\n", b"usbtrace: there/is/none can't be read\n")
    trial.expect("test there/is/none", UNREAD, none)
    told = b"usbtrace: --junit: say once into which file, behind it, and which files are tested\n"
    trial.expect("test --junit out.xml", UNREAD, End(2, b"", told))
