"""Man pages, made from the programs' help."""
import re
import textwrap
from typing import Dict, Iterator, List

from build import day, version
from helps import Help, ROW, Row

# What help doesn't say of the programs.
FILES = {
    "usbtrace": ["A FILE behind a word and its options is read in the place of standard input. `test` takes several. "
                 "`usbtrace --version` prints the version."],
}
# What the rows of a help are, where they aren't options.
ROWS = {"tirnouch-replay": "COMMENTS OF A TRACE"}
EXAMPLES = {
    "tirnouch-run": ["tirnouch-run devices.txt --trace run.txt -- ./driver",
                     "tirnouch-run devices.txt --seeds 1-200 --limit 10s -- ./test"],
    "tirnouch-record": ["tirnouch-record -o run.pcap -- ./driver", "tirnouch-run run.pcap -- ./driver"],
    "tirnouch-replay": ["tirnouch-replay run.txt"],
    "usbtrace": ["usbtrace run --steps run.txt", "usbtrace draw --html run.txt > run.html"],
}
SEE = {
    "usbtrace": "tirnouch-run(1), tirnouch-record(1), tirnouch-replay(1)",
    "tirnouch-run": "tirnouch-record(1), usbtrace(1), tirnouch-replay(1)",
    "tirnouch-record": "tirnouch-run(1), usbtrace(1)",
    "tirnouch-replay": "tirnouch-run(1), usbtrace(1)",
}
# Stands for the dash between a name and what it does.
DASH = "\N{EM DASH}"
ESCAPES = {"\\": "\\e", "-": "\\-", "'": "\\(aq", "`": "\\(ga", "~": "\\(ti", "^": "\\(ha"}


def escaped(text: str) -> str:
    return "".join(ESCAPES.get(it, it) for it in text)


def line_of(text: str) -> str:
    """A line that is no request of roff's, though it begin with a dot."""
    return f"\\&{text}" if text.startswith(".") else text


def plain(text: str) -> str:
    """The text as roff takes it, letter by letter."""
    return line_of(escaped(text))


def prose(text: str) -> str:
    """A text in lines of roff, which fills them; words between ` are shown bold."""
    parts = re.split(r"`([^`]+)`", text)
    out = "".join(f"\\fB{escaped(it)}\\fR" if at % 2 else escaped(it) for at, it in enumerate(parts))
    return "\n".join(line_of(it) for it in textwrap.wrap(out, 78, break_long_words=False, break_on_hyphens=False))


def term(row: Row) -> Iterator[str]:
    yield ".TP"
    yield f"\\fB{plain(row.name)}\\fR"
    yield prose(row.text)


def block(text: str) -> Iterator[str]:
    """A block of text: its indented lines are rows of two columns, or shown as they are."""
    before = ".PP"
    for line in text.split("\n"):
        row = ROW.fullmatch(line.strip())
        if not line.startswith("  "):
            yield before
            yield prose(line)
            before = ".br"
        elif row:
            yield from term(Row(row.group(1), row.group(2)))
            before = ".PP"
        else:
            yield from (".PP", ".RS 4", ".nf", plain(line.strip()), ".fi", ".RE")
            before = ".PP"


def paragraph(text: str) -> Iterator[str]:
    """A block whose lines are filled."""
    yield ".PP"
    yield prose(" ".join(text.split("\n")))


def synopsis(lines: List[str]) -> Iterator[str]:
    for at, line in enumerate(lines):
        name, _, rest = line.partition(" ")
        yield from ([".br"] if at else [])
        yield f"\\fB{name.replace('-', chr(92) + '-')}\\fR {plain(rest)}"


def word_page(name: str, it: Help, top: Help) -> Iterator[str]:
    """The part of one of a program's words, without what the program's own help says."""
    yield f".SS {name}"
    yield from synopsis(it.usage)
    yield from paragraph(it.about + ".")
    for row in [*it.rows.get("Arguments:", []), *it.rows.get("Options:", [])]:
        if "--help" not in row.options():
            yield from term(row)
    for text in it.rest:
        if text not in top.rest:
            yield from block(text)


def manual(name: str, top: Help) -> str:
    """The man page of a program."""
    is_ours = not top.words
    first = re.split(r"[:.]( |$)", top.about)[0]
    lines = [f'.TH {name.upper().replace("-", chr(92) + "-")} 1 {day():%Y-%m-%d} "Tirnouch {version()}" "User Commands"',
             ".SH NAME", prose(f"{name} {DASH} {first[0].lower() + first[1:]}").replace(DASH, "\\-"), ".SH SYNOPSIS", *synopsis(top.usage),
             ".SH DESCRIPTION", *paragraph(top.about if is_ours else top.about + ".")]
    lines += [line for text in FILES.get(name, []) for line in paragraph(text)]
    lines += [line for text in top.rest for line in (paragraph if is_ours else block)(text)]
    lines += [f".SH {ROWS.get(name, 'OPTIONS')}", *(line for row in top.rows.get("Options:", []) for line in term(row))]
    if top.words:
        lines += [".SH COMMANDS", *(line for word, it in top.words.items() for line in word_page(word, it, top))]
    lines += [".SH EXAMPLES", ".nf", *(plain(it) for it in EXAMPLES[name]), ".fi"]
    lines += [".SH SEE ALSO", plain(SEE[name]), ".PP", "The pages in share/doc/tirnouch, of which INSTALL.md is the first\\."]
    return "\n".join(it for at, it in enumerate(lines) if not (it == ".PP" and lines[at - 1].startswith((".SH", ".SS")))) + "\n"


def manuals(helps: Dict[str, Help]) -> Dict[str, str]:
    return {f"share/man/man1/{name}.1": manual(name, it) for name, it in helps.items()}
