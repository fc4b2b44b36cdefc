"""Every word over every row, where an allocation or a thread is refused, alone or with all behind it: each that `run` makes, and a fifth of
those of every other word, evenly spread."""
from fractions import Fraction

from refuse_allocations import WORDS, said, told, tries
from runs import ROWS, Part, Tried, row_input

# The rows of the gate, each with its word: every word, and a run of `live` in which callbacks submit again.
GATE = (
    ("run", "cancel_amid_transfer"), ("run", "resubmit_three_rounds"), ("run", "unplug_amid_transfers"),
    ("run --steps", "again_without_a_place"), ("alone 2", "interface_changes_hands"), ("left", "all_that_can_be_left"),
    ("draw", "stall_and_clear_halt"), ("draw --html", "stall_and_clear_halt"), ("explain", "explained_ends"),
    ("test", "a_test_is_passed"), ("device", "a_device_of_its_descriptor"), ("check", "a_good_scenario_is_counted"), ("check", "slips_of_editors"),
    ("live", "resubmit_three_rounds_live"), ("live", "handles_by_their_names"), ("live", "an_unplug_line_behind_a_bad_one"),
)

# How many of the calls of a word are refused but of `run`, whose calls are all.
PART_OF_OTHERS = Fraction(1, 5)


def cases(_):
    """Every word and each row's own, over every row; each input once by a word. A row that sets its rounds may have no end without."""
    found = {}
    for path in sorted(ROWS.glob("*.cmd")):
        own = path.read_text().strip()
        for word in (own, *(word for word in WORDS if not own.startswith(f"{word} --rounds"))):
            found.setdefault((word, row_input(path.stem)), path.stem)
    return [(word, name, given) for (word, given), name in found.items()]


def gate_cases(_):
    return [(word, name, row_input(name)) for word, name in GATE]


def tried(runs, word, name, given):
    """The runs of a word over a row, each with a call that is refused."""
    is_run = word.split("--rounds")[0].strip() == "run"
    most = runs.most_of(None if is_run else PART_OF_OTHERS)
    for failing, kind, it in tries(runs, runs.program, word, given, most, runs.seconds):
        yield Tried(kind, f"{word}: {name}: {told(failing)}: {said(it)}")


PART = Part(cases, gate_cases, tried)
