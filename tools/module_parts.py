"""A module in LLVM's text, cut in parts that are compiled side by side.

Each part has whole functions, those that stand beside each other, and all that they name: constants, and declarations of what stands in
other parts. A short function has a copy in each part that names it, and a function that only its own part names stays internal there, so the
compiler may still inline both. What nobody comes to from a function that is seen outside is left out before."""
import collections
import os
import pathlib
import re
import subprocess
from concurrent.futures import ThreadPoolExecutor
from typing import Dict, List, NamedTuple, Sequence, Set, Union

# A name behind an `@`, in quotes or plain.
NAME = re.compile(r'@("[^"\n]*"|[\w.$-]+)')
FUNCTION = re.compile(r"^define [^\n]*\n.*?^}\n", re.M | re.S)
# What a function's first line has that its declaration doesn't.
HEAD = re.compile(r"^define (?:internal |hidden )?")
# A global that stands once, with its type.
STATIC = re.compile(r"^(@\S+) = (?:private|internal) (global|constant) (<\{.*?\}>|\[[^]]*\]|\S+) .*$")
# The most characters of a function that each part may have for itself.
SHORT = 2000
# How many parts are made for each processor: some are dearer than others.
PARTS_EACH = 2

Word = Union[str, pathlib.Path]


class Module(NamedTuple):
    """A module, taken apart."""

    front: str              # what each part begins with, and what stands at its end: attributes and metadata
    back: str
    globals: Dict[str, str]
    declarations: Dict[str, str]
    functions: Dict[str, str]


def name_of(line: str) -> str:
    return NAME.search(line)[1]


def names_in(text: str) -> Set[str]:
    return set(NAME.findall(text))


def taken_apart(text: str) -> Module:
    functions, rest, at = {}, [], 0
    for found in FUNCTION.finditer(text):
        rest.append(text[at:found.start()])
        at = found.end()
        functions[name_of(found[0].partition("\n")[0])] = found[0]
    front, back, known, declared = [], [], {}, {}
    for line in "".join([*rest, text[at:]]).splitlines():
        if line.startswith("@"):
            known[name_of(line)] = line
        elif line.startswith("declare "):
            declared[name_of(line)] = line
        elif line.startswith(("attributes ", "!")):
            back.append(line)
        elif line and not line.startswith(";"):
            front.append(line)
    return Module("\n".join(front), "\n".join(back), known, declared, functions)


def reached(module: Module) -> Module:
    """The module with those functions alone that somebody outside may call, and what these come to."""
    named = {name: names_in(text) for name, text in {**module.globals, **module.functions}.items()}
    left = [name for name, text in module.functions.items() if not text.startswith("define internal ")]
    found = set(left)
    while left:
        more = named.get(left.pop(), set()) - found
        found |= more
        left += more
    return module._replace(
        globals={name: line for name, line in module.globals.items() if name in found},
        functions={name: text for name, text in module.functions.items() if name in found},
    )


def shares(functions: Dict[str, str], count: int) -> List[List[str]]:
    """The functions in so many shares of some length each, in their order."""
    most, found, length = sum(map(len, functions.values())) / count, [[]], 0
    for name, text in functions.items():
        if length >= most and len(found) < count:
            found.append([])
            length = 0
        found[-1].append(name)
        length += len(text)
    return found


def declaration(function: str) -> str:
    """The declaration of a function that stands in another part."""
    head = HEAD.sub("", function.partition("\n")[0]).rstrip().removesuffix("{").rstrip()
    return f"declare hidden {head}"


def is_own(line: str) -> bool:
    """Whether each part may have this of its own: a constant of which nobody asks where it stands."""
    return " = private unnamed_addr constant " in line


def elsewhere(line: str) -> str:
    """What a part says of a global of the first part."""
    return STATIC.sub(r"\1 = external hidden \2 \3", line)


def is_short(function: str) -> bool:
    return len(function) <= SHORT and function.startswith("define internal ")


def with_own(module: Module, names: Set[str], short: Dict[str, Set[str]]) -> Set[str]:
    """These names, and those that globals and short functions among them name, which each part has for itself."""
    found, left = set(names), list(names)
    while left:
        name = left.pop()
        more = (short[name] if name in short else names_in(module.globals.get(name, ""))) - found
        found |= more
        left += more
    return found


def cut(text: str, count: int) -> List[str]:
    """The texts of so many parts. What stands once in the module, and is no function, stands in the first."""
    module = reached(taken_apart(text))
    short = {name: names_in(it) for name, it in module.functions.items() if is_short(it)}
    parts = shares({name: it for name, it in module.functions.items() if name not in short}, count)
    statics = {name for name, line in module.globals.items() if not is_own(line)}
    named = [names_in("".join(module.functions[it] for it in part)) for part in parts]
    used = [with_own(module, names | statics if at == 0 else names, short) for at, names in enumerate(named)]
    users = collections.Counter(name for names in used for name in names)
    return [text_of(module, [*part, *sorted(names & short.keys())], names, statics, at == 0, users, set(short))
            for at, (part, names) in enumerate(zip(parts, used))]


def text_of(module: Module, part: List[str], names: Set[str], statics: Set[str], is_first: bool, users: Dict[str, int], short: Set[str]) -> str:
    """The text of a part: its functions, and what else it names."""
    lines, mine = [module.front, ""], set(part)
    for name in sorted(names & module.globals.keys()):
        line = module.globals[name]
        if name in statics:
            line = re.sub(" (?:private|internal) ", " hidden ", line, count=1) if is_first else elsewhere(line)
        lines.append(line)
    for name in part:
        function = module.functions[name]
        lines.append(function if name in short or users[name] == 1 else function.replace("define internal ", "define hidden ", 1))
    lines += [declaration(module.functions[it]) for it in sorted((names - mine) & module.functions.keys())]
    lines += [module.declarations[it] for it in sorted(names & module.declarations.keys())]
    return "\n".join([*lines, "", module.back, ""])


def compiled(text: str, folder: pathlib.Path, words: Sequence[Word]) -> List[pathlib.Path]:
    """The objects of a module's parts, made in a folder; `words` is the compiler and its options."""
    processors = os.cpu_count() or 1
    texts = cut(text, PARTS_EACH * processors if processors > 1 else 1)

    def compile_one(at: int) -> pathlib.Path:
        source, made = folder / f"part-{at}.ll", folder / f"part-{at}.o"
        source.write_text(texts[at])
        subprocess.run([*words, "-c", "-x", "ir", source, "-o", made], check=True)
        return made

    with ThreadPoolExecutor(processors) as pool:
        return list(pool.map(compile_one, range(len(texts))))
