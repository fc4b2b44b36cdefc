"""Steps of the core, plans, and calls of the library: what finds no memory is made again, and the run comes to the same."""
from refuse_allocations import said, told, tries_same
from runs import ROOT, Part, Tried

# How many seeds are tried of each word of check_parts; the gate tries one.
SEEDS = 5
WORDS = ("refusals", "drives")


def cases_of(asked, seeds):
    """The words of each program, which stands in bin/."""
    return [("check_library", "refusals"), *(("check_parts", f"{word} {asked.seed + k}") for word in WORDS for k in range(seeds))]


def cases(asked):
    return cases_of(asked, SEEDS)


def gate_cases(asked):
    return cases_of(asked, 1)


def tried(runs, name, word):
    """The runs of a program's word, each with an allocation that is refused."""
    program = ROOT / "bin" / name
    if not program.is_file():
        yield Tried("wrong", f"there is no bin/{name}: tools/program.py try {name} builds it")
        return
    for failing, kind, it in tries_same(runs, [program, *word.split()], runs.seconds, runs.most_of()):
        yield Tried(kind, f"{name} {word}: {told(failing)}: {said(it)}")


PART = Part(cases, gate_cases, tried)
