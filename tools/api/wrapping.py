"""Long clauses in lines: each premise in one of its own, and what is said of a result below its name."""
import re

from tokens import PAIRS

# A clause that is longer goes into lines.
WIDTH = 100
# What ends with a function whose body is the rest, as `IfOk result (λ x. ..)`.
FUNCTION = re.compile(r"([^()]*\(λ [^.()]*\.) (.*)\)", re.DOTALL)


def wrapped(text, indent=""):
    """The text of a clause in lines, if it is long and stands in one."""
    if len(indent + text) <= WIDTH or "\n" in text:
        return text
    premises = split_at(text, " →")
    if len(premises) > 1:
        return f"\n{indent}".join(wrapped(part, indent) for part in premises)
    factors = split_at(text, " ×")
    if len(factors) > 1:
        return f"\n{indent}".join(wrapped(part, indent) for part in factors)
    function = FUNCTION.fullmatch(text)
    if function and is_balanced(function.group(2)):
        inner = indent + "    "
        return f"{function.group(1)}\n{inner}{wrapped(function.group(2), inner)})"
    return text


def depths(text):
    """How many brackets are open behind each letter."""
    depth = 0
    for letter in text:
        depth += (letter in PAIRS) - (letter in PAIRS.values())
        yield depth


def is_balanced(text):
    """Whether no bracket of a text belongs to one outside."""
    found = list(depths(text))
    return not found or min(found) >= 0 and not found[-1]


def split_at(text, mark):
    """The parts of a text, each with the mark that ends it, where that stands in no brackets."""
    parts, begin = [], 0
    for at, depth in enumerate(depths(text)):
        if not depth and text.startswith(mark + " ", at):
            parts.append(text[begin:at + len(mark)].strip())
            begin = at + len(mark)
    return [*parts, text[begin:].strip()]
