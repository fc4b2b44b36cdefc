"""What the words of a signature, of a clause and of a line of definitions stand for, and which of them a text binds itself."""
import re

# A name in a clause or a definition: it may have - and ' in it.
WORD = re.compile(r"[^\W\d][\w']*(?:-[\w']+)*")
# What may stand before a ghost: `⟦<TableDevice as Device>⟧.`, and `(Device-box device).`.
INSTANCE = re.compile(r"⟦<(?P<of>\w+)[^⟦⟧]*? as (?P<trait>\w+)[^⟦⟧]*>⟧\.$|\((?P<boxed>\w+)-box [^()]*\)\.$")
PARAMETER = re.compile(r"\b([a-z_]\w*)\s*:\s*(?:&\s*(?:'\w+\s+)?(?:mut\s+)?)?([A-Z]\w*)\s*(?=[<,)])")
RESULT = re.compile(r"->\s*(?:&\s*(?:mut\s+)?)?([A-Z]\w*)\s*(?:<|$|where\b)")
GENERICS = re.compile(r"(?:unsafe )?impl\s*<|(?:\w+ )*?(?:fn|struct|enum|trait|type)\s+\w+\s*<")
EQUATION = re.compile(r"\s*([\w'-]+)((?: [^=:]*)?) =( |$)")


class Context:
    """Where a piece of logic stands: its scope and line, and the names that have a meaning of their own there."""

    def __init__(self, scope, line, bound=(), own=None, generics=None, values=None):
        self.scope, self.line = scope, line
        # Names that lead nowhere; names with where they lead; generic types with their bounds; and the values of a
        # function, its parameters and its result, each with where it is said what contracts see of it.
        self.bound, self.own, self.generics, self.values = bound, own or {}, generics or {}, values or {}

    def binding(self, names):
        """The same place, where these names lead nowhere either."""
        return Context(self.scope, self.line, {*self.bound, *names}, self.own, self.generics, self.values)


def variables(text):
    """The words of a text that begin with a small letter."""
    return {word for word in WORD.findall(text) if word[:1].islower()}


def generic_bounds(text):
    """What is generic in the header of an impl, or of an item: by name, the traits that are asked of it."""
    begin = GENERICS.match(text)
    if not begin:
        return {}
    parts, depth = [""], 1
    for at in range(begin.end(), len(text)):
        letter = text[at]
        depth += (letter in "<([") - (letter in ")]") - (letter == ">" and text[at - 1] not in "-=")
        if not depth:
            break
        if letter == "," and depth == 1:
            parts.append("")
        else:
            parts[-1] += letter
    pairs = (part.partition(":") for part in parts)
    return {name.strip().removeprefix("const "): type_names(bounds) for name, _, bounds in pairs}


def value_types(code, of=None):
    """The types of a function's parameters, of its result, and of self, which is of this type if one is given."""
    found = dict(PARAMETER.findall(code))
    result = RESULT.search(code)
    if result:
        found["result"] = result.group(1)
    if re.search(r"\(\s*(&\s*)?(mut\s+)?self\b", code):
        found["self"] = of
    return {name: of if of_name == "Self" else of_name for name, of_name in found.items()}


def super_traits(code):
    """The traits that a trait asks of its types."""
    return type_names(re.sub(r"<[^<>]*>", "", code).partition(":")[2])


def type_names(text):
    return re.findall(r"\b[A-Z]\w*", text)


def string_spans(text):
    """Where strings stand in a text."""
    return [match.span() for match in re.finditer(r'"(?:\\.|[^"\\\n])*"', text)]


def bound_in(text):
    """The names that a text binds itself: of functions, of premises, of `let` and of patterns."""
    found = set()
    for names in re.findall(r"λ ([^.]*)\.", text):
        found |= set(WORD.findall(re.sub(r":[^()]*", "", names)))
    for names in re.findall(r"[({]([\w' ]+) :", text):
        found |= set(names.split())
    found |= set(re.findall(r"\blet ([\w']+)", text))
    found |= set(re.findall(r"(?m)^\s+pub ([\w'-]+) :", text))
    for pattern in re.findall(r"[\[|]([^\[|↦]*)↦", text):
        found |= variables(pattern)
    return found


def bound_by_line(lines):
    """The names that each line of definitions binds: those of its own equation, and of the block around it."""
    blocks, block = [], []
    for line in [*lines, ""]:
        if line.strip():
            block.append(line)
            continue
        found = bound_in("\n".join(block))
        for text in block:
            left = EQUATION.match(text)
            if left:
                found |= variables(left.group(2))
        blocks += [found] * (len(block) + 1)
        block = []
    return blocks
