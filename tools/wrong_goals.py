"""By which goal each wrong body beside the gate was refused when it was last looked at: tools/wrong_bodies/goals.json. One that fails at
another goal today may fail for another reason than its name says, so that is told."""
import json
import re
from typing import Dict, List, Optional

from edits import BESIDE

FILE = BESIDE / "goals.json"
# A line of the prover that says what it refuses, and where; lines and columns move with any change.
AT = re.compile(r"(?:note: )?(?:\./)?(\S+?):\d+:\d+: (?:error: |warning: )?(.*)")
# What the prover notes of a proof that is dear, before it says what it refuses.
ASIDE = "note: large solution"
# The goal's name, behind which stands what it says: in an error at its front, in a note in parentheses behind a sentence. `rt` cuts such a
# line at 160 characters, its place included.
NAME, SENTENCE, WIDTH = re.compile(r"`[^`]+`"), re.compile(r".*?\(`[^`)]+`\)"), 130

Goals = Dict[str, str]


def goal_of(line: str) -> Optional[str]:
    """What a line of the prover refuses: a file, and the goal's name with what stands before that; None where it refuses nothing."""
    found = AT.match(line)
    if not found:
        return None
    named = NAME.match(found[2]) or SENTENCE.match(found[2])
    return f"{found[1]}: {named[0] if named else found[2]}"[:WIDTH].rstrip()


def first_goal(lines: List[str]) -> Optional[str]:
    """The goal by which a check refuses an edit, chosen from what it printed as `rt` does: an error or a note first, and what a proof file
    says of a name that is gone last."""
    told = [it for it in lines if AT.match(it) and ASIDE not in it]
    told = [it for it in told if ": error" in it or it.startswith("note: ")] or told
    gone = re.compile(r"(note: )?(\./)?proofs/.*(has no field|is not in scope|has no `|was not admitted)")
    return next((goal_of(it) for it in told if not gone.match(it)), goal_of(told[0]) if told else None)


def read() -> Goals:
    return json.loads(FILE.read_text()) if FILE.is_file() else {}


def write(goals: Goals) -> None:
    FILE.write_text(json.dumps(goals, indent=1, sort_keys=True, ensure_ascii=False) + "\n")


def are_same(one: str, other: str) -> bool:
    """Whether two goals are one, as far as both are told."""
    most = min(len(one), len(other))
    return one[:most] == other[:most]


class Kept:
    """The goals that are known, and what differs from them or is new in a run."""

    def __init__(self) -> None:
        self.known, self.seen = read(), {}

    def difference(self, name: str, goal: Optional[str]) -> Optional[str]:
        """What differs, where an edit is refused by this goal, if something does."""
        if goal is None:
            return None
        self.seen[name] = goal
        known = self.known.get(name)
        return f"refused by {goal}, and before by {known}" if known and not are_same(known, goal) else None

    def keep(self) -> int:
        """Keeps the goals of this run, those that differ too; how many weren't known."""
        new = len(set(self.seen) - set(self.known))
        write({**self.known, **self.seen})
        return new
