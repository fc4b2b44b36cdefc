"""The words that the program takes. Of bad ones it is said, in clap's own words, what is wrong with them."""
from typing import Sequence

from usbtrace_tests.trial import DEVICE, UNREAD, End, Trial, test

HELP = "\n\nFor more information, try '--help'.\n"
# Bad words, and what is said of them, before a hint at the help.
BAD = {
    "": """\
error: 'usbtrace' requires a subcommand but one was not provided
  [subcommands: run, alone, live, left, check, draw, capture, devices, explain, test, device, describe]

Usage: usbtrace <COMMAND>""",
    "walk": "error: unrecognized subcommand 'walk'\n\nUsage: usbtrace <COMMAND>",
    "live 1": "error: unexpected argument '1' found\n\nUsage: usbtrace live [OPTIONS]",
    "live --rounds many": "error: invalid value 'many' for '--rounds <N>': invalid digit found in string",
    "help": "error: unrecognized subcommand 'help'\n\nUsage: usbtrace <COMMAND>",
    "capture 1": "error: unexpected argument '1' found\n\nUsage: usbtrace capture",
    "devices 1": "error: unexpected argument '1' found\n\nUsage: usbtrace devices [OPTIONS]",
    "run 1": "error: unexpected argument '1' found\n\nUsage: usbtrace run [OPTIONS]",
    "alone": "error: the following required arguments were not provided:\n  <H>\n\nUsage: usbtrace alone <H>",
    "alone 1 2": "error: unexpected argument '2' found\n\nUsage: usbtrace alone <H>",
    "alone 64": "error: invalid value '64' for '<H>': 64 is not in 0..=63",
    "alone one": "error: invalid value 'one' for '<H>': invalid digit found in string",
}


@test
def bad_words_are_told_on_standard_error(trial: Trial) -> None:
    for words, said in BAD.items():
        end = End(2, b"", (said + HELP).encode())
        trial.expect(words, UNREAD, end)
        trial.expect(words, b"no line\n", end, step=1)


def helps(trial: Trial, words: str, parts: Sequence[str], lacks: Sequence[str] = ()) -> None:
    """These words end well without the input, and print all of these parts and none of those."""
    trial.shows(words, UNREAD, [it.encode() for it in parts], lacks=[it.encode() for it in lacks])


@test
def help_is_printed_and_no_fault(trial: Trial) -> None:
    parts = [
        "\n\nUsage: usbtrace <COMMAND>\n",
        "\n  run       Runs the scenario and prints its entries\n",
        "\n  alone     Prints the entries of one handle, alone over its own steps\n",
        "\n  live      Runs the scenario in threads, and prints what its callbacks were told\n",
        "\n  left      Prints what the scenario's run leaves behind, handle by handle\n",
        "\n  check     Prints what is wrong with the scenario, line by line\n",
        "\n  draw      Prints a picture of the scenario's run, an SVG document\n",
        "\n  capture   Writes the scenario's run as a capture of usbmon, a pcap file\n",
        "\n  devices   Prints the devices of a capture, and what they answered, as lines of a text\n",
        "\n  explain   Runs the scenario, and says of each refusal, idle step and end why it came\n",
        "\n  test      Runs a scenario with `expect` lines, and compares what it prints\n",
        "\n  device    Prints the device line of a configuration descriptor\n",
        "\n  describe  Prints descriptors as a table, as lsusb does\n",
        "\n  -h, --help  Print help\n",
    ]
    # There is no help subcommand.
    helps(trial, "-h", parts, lacks=["\n  help "])


@test
def the_help_of_each_subcommand_has_its_example(trial: Trial) -> None:
    scenario = "\nInput: a scenario, "
    run = ["| usbtrace run\n\nStatus: 0 ", scenario]
    helps(trial, "run --help", run)
    helps(trial, "--help", run)
    helps(trial, "alone --help", ["| usbtrace alone 1\n\nStatus: 0 ", scenario])
    helps(trial, "capture --help", ["| usbtrace capture > run.pcap\n\nStatus: 0 ", scenario])
    helps(trial, "devices --help", [
        "\nInput: a capture ",
        "\n  usbtrace devices < recorded.pcap > devices.txt\n",
        "\n  usbtrace devices --scenario < recorded.pcap > scenario.txt\n",
        "\n  --umockdev FILE            it is from a file of umockdev-record\n",
        " < recorded.pcap > devices.txt\n\nStatus: 0 ",
    ])


@test
def help_says_that_files_are_read_and_what_a_macro_is(trial: Trial) -> None:
    helps(trial, "--help", [": usbtrace run scenario.txt\n"])
    helps(trial, "test --help", ["\n  macro NAME ", ": usbtrace test first.txt second.txt\n"])


@test
def words_are_judged_before_a_file_is_opened(trial: Trial) -> None:
    walk = BAD["walk"] + HELP
    trial.expect("walk there/is/none", UNREAD, End(2, b"", walk.encode()))
    trial.expect("run there/is/none", UNREAD, End(1, b"", b"usbtrace: there/is/none can't be read\n"))


# A write of two bytes, of which the second isn't as expected; and what is told of it.
WRITTEN = DEVICE + b"""script 0 02 a:0102
open 1 0
claim 1 0
submit 1 02 bulk x:0103
serve 0 02
"""
TOLD = b"""\
# line 6: device 0, endpoint 02: packet 1 differs at offset 1: came 01[03] (length 2), expected 01[02] (length 2)
# what was written isn't what the scenario expects: 1 difference
"""


@test
def what_a_run_wrote_is_only_told_where_that_is_asked_for(trial: Trial) -> None:
    for words, status in (("run", 3), ("run --lenient", 0), ("run --lenient --steps", 0), ("left --lenient", 0), ("test", 3),
                          ("test --lenient", 0)):
        trial.shows(words, WRITTEN, [TOLD], step=7, status=status)
    # There is no run.
    ran = trial.run("check --lenient", WRITTEN, step=7)
    trial.check(ran.status != 0 or TOLD not in ran.out, "check --lenient tells what a run wrote")
