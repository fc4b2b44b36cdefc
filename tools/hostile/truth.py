"""The sentences of `explain` over random scenarios, beside a reader of the tool's own: each has to be true of the state that the entries
before it tell, and say it of the step that it stands below."""
import collections
import random
import re
from typing import Any, Iterator, NamedTuple, Optional

from crowded import scenario
from followed import Step, Unfit, World, known, need
from refusals import fault_of
from runs import Part, Runs, Tried, wrong_unless
from sentences import FORMS, judged

COUNT, GATE_COUNT = 1_000, 40
ENTRY = re.compile(r"(\d+) (.+) \| (?:h\d+|-) (.+)")
INDENT = "    "
# The words of a scenario that are no steps.
NO_STEPS = ("device", "script", "feed")


class Entry(NamedTuple):
    """An entry of a run, with the line that it stands behind, and the sentence below it, if there is one."""
    line: str
    step: Step
    reply: str
    sentence: Optional[str]

    @property
    def told(self) -> str:
        return f"{self.line} | {self.reply}"

    @property
    def has_second(self) -> bool:
        """Whether the callback stops then: its submission is refused, but not for what isn't there."""
        return self.step.verb == "return" and re.fullmatch("refused [^3]", self.reply) is not None


def entries_of(printed: list[str]) -> Iterator[Entry]:
    """The entries that `explain` prints."""
    for at, line in enumerate(printed):
        if line.startswith(INDENT) and at and not printed[at - 1].startswith(INDENT):
            continue
        found = ENTRY.fullmatch(line)
        if not found:
            raise Unfit(f"no line of an entry: {line}")
        below = printed[at + 1] if at + 1 < len(printed) else ""
        verb, *words = found[2].split()
        yield Entry(f"{found[1]} {found[2]}", Step(verb, words), found[3], below[len(INDENT):] if below.startswith(INDENT) else None)


def lines_of(text: str) -> list[str]:
    """The steps of a scenario, each behind its line's number."""
    lines = enumerate(text.splitlines(), 1)
    return [f"{number} {line}" for number, line in lines if line and not line.startswith("#") and line.split()[0] not in NO_STEPS]


def pieces_of(entries: list[Entry], text: str) -> Iterator[tuple[Entry, Optional[Entry]]]:
    """The entries of each step of a scenario, in their order: one, or two of a return whose submission is refused."""
    rest = iter(entries)
    for line in lines_of(text):
        first = known(next(rest, None), f"there is no entry of {line}")
        second = known(next(rest, None), f"there is no second entry of {line}") if first.has_second else None
        need(first.line == line and (second is None or (second.line, second.reply) == (line, "done")), f"no entry of {line}: {first.told}")
        yield first, second
    need(next(rest, None) is None, "there are more entries than steps")


def faults_of_step(world: World, it: Entry) -> Iterator[tuple[str, Optional[str]]]:
    """The form of a step's sentence, and what is wrong of it or of the entry."""
    fault = fault_of(world, it.step, it.reply)
    if fault:
        yield "", f"{it.told}: {fault}"
    for form, wrong in judged(world, it.step, it.reply, it.sentence):
        yield form, wrong and f"{it.told}: {it.sentence}: {wrong}"


def faults_of(text: str, printed: str) -> Iterator[tuple[str, Optional[str]]]:
    """The form of each sentence that `explain` prints of a scenario, and what is wrong; an entry that can't be is the last of it."""
    at = "the first line"
    try:
        world = World(text)
        for first, second in pieces_of([*entries_of(printed.splitlines())], text):
            at = first.told
            yield from faults_of_step(world, first)
            world.follow(first.step, first.reply)
            if second:
                need(second.sentence is None, "the second entry needs no reason")
                world.follow(second.step, second.reply)
    except (Unfit, LookupError, ValueError) as why:
        yield "", f"{at}: {why}"


def tried(runs: Runs, seed: int) -> Iterator[Tried]:
    """A scenario whose sentences are read."""
    text, name = scenario(random.Random(seed)), f"--seed {seed}"
    it = runs.of("explain", text)
    if (it.status, it.err) != (0, b""):
        yield wrong_unless(False, "true", name, it)
        return
    found = [*faults_of(text.decode(), it.out.decode())]
    forms = collections.Counter(form for form, _ in found if form)
    wrong = [Tried("wrong", f"{name}: {fault}") for _, fault in found if fault]
    yield from wrong or [Tried("true", name, forms)]


def cases(asked: Any) -> list[tuple[int]]:
    return [(asked.seed + number,) for number in range(asked.count or COUNT)]


def gate_cases(asked: Any) -> list[tuple[int]]:
    return [(asked.seed + number,) for number in range(GATE_COUNT)]


PART = Part(cases, gate_cases, tried, [form.named for form in FORMS])
