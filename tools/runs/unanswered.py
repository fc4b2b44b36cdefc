"""Control requests that had no answer in a run: the lines of a text that say so (docs/DEVICES.md, "Control requests"). Those that
`usbtrace devices` makes have the answers alone."""
from itertools import chain, islice
from typing import Dict, Iterable, List, Optional, Sequence

from event import Event
from retold import STATUSES, is_request

# A line has at most so many answers.
MOST_ANSWERS = 65536
# How often the library asks a request that is answered `n`: behind so many of them it waits for its end.
ASKED = 4096
FAULTS = {STATUSES["STALL"]: "s", STATUSES["ERROR"]: "b"}

# The answers to requests of one kind, in order; None for a request that had none.
Answers = List[Optional[str]]


def fields_of(setup: bytes) -> str:
    """Type, number, value and index, as a line has them."""
    value, index = (int.from_bytes(setup[at:at + 2], "little") for at in (2, 4))
    return f"{setup[0]:02x} {setup[1]:02x} {value:04x} {index:04x}"


def answer_of(begun: Event, ended: Event) -> str:
    """The word for how a request ended."""
    if ended.status in FAULTS:
        return FAULTS[ended.status]
    if begun.ep:
        return f"d:{ended.data.hex()}"
    return f"a:{begun.data.hex()}" if begun.data else "a"


def answers_of(events: Sequence[Event]) -> Dict[str, Answers]:
    """What each kind of request was answered, by its fields. A device answers one request after the other, so an end is of the last one."""
    found: Dict[str, Answers] = {}
    begun: Optional[Event] = None
    for it in filter(is_request, events):
        if it.setup is not None:
            begun = it
            found.setdefault(fields_of(it.setup), []).append(None)
        elif begun and begun.setup is not None:
            found[fields_of(begun.setup)][-1] = answer_of(begun, it)
    return found


def words_of(answers: Answers) -> Iterable[str]:
    """The words of a line, whose last one stays: so one word is enough for all requests behind the last answer."""
    answered = len(answers)
    while answered and answers[answered - 1] is None:
        answered -= 1
    words = (["n"] * ASKED if it is None else [it] for it in answers[:answered])
    return chain(chain.from_iterable(words), ["n"] if answered < len(answers) else [])


def unanswered(events: Sequence[Event]) -> Dict[str, Answers]:
    """Of each kind of request of which one had no answer, by its fields, what its requests were answered."""
    return {fields: answers for fields, answers in answers_of(events).items() if None in answers}


def request_lines(device: int, fields: str, answers: Answers) -> List[str]:
    """The line of such requests; with a comment where it has no room for all of them."""
    line = " ".join([f"control {device} {fields}", *islice(words_of(answers), MOST_ANSWERS)])
    count = sum(1 for _ in words_of(answers))
    return [f"# control {fields}: the first {MOST_ANSWERS} of {count} answers", line] if count > MOST_ANSWERS else [line]
