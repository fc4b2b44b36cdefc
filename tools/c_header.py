#!/usr/bin/env python3
"""c/include/tirnouch_core.h, made from the sources of crates/tirnouch_c.

    tools/c_header.py write    writes the header anew
    tools/c_header.py check    says whether it is current; the gate asks it

Each export stands there with its documentation. An allocator is a value without bytes, which C doesn't pass; a slice is a pointer and
a length. The structs have the fields of the crate's, in their order, with their types. The numbers of an enum are those that the crate's
functions have, whose contracts say them."""
import itertools
import pathlib
import re
import sys
import textwrap
from typing import Dict, NamedTuple, Optional

ROOT = pathlib.Path(__file__).resolve().parent.parent
CRATES = ROOT / "crates"
CRATE = CRATES / "tirnouch_c" / "src"
# The files that have the exports, in the order of the header.
EXPORTS = ("exports.rt", "questions.rt")
HEADER = ROOT / "c" / "include" / "tirnouch_core.h"
WIDTH = 112
NUMBERS = {"u8": "uint8_t", "u16": "uint16_t", "u32": "uint32_t", "u64": "uint64_t", "i32": "int32_t", "usize": "size_t", "bool": "bool"}
FIELDS = {**NUMBERS, "*mut u8": "uint8_t *"}


class Source(NamedTuple):
    """Where a crate has the numbers of a closed set: a file, the function of it (or the whole file), and what of that text has a `name`
    and its `number`, which is 1 where none stands there."""

    file: str
    function: str
    pattern: str


# The answer of a slot without a session, and the number of nobody.
NO_SESSION = Source("tirnouch_c/src/exports.rt", "", r"pub const (?P<name>NO_SESSION): i32 = (?P<number>-\d+);")
NOBODY = Source("tirnouch_c/src/replies.rt", "nothing", r"(?P<name>of_kind)\((?P<number>\d+), ")
HEAD = """/* Tirnouch's core, as the static library tirnouch_c has it: every step is proved, and so is what each function answers
 * (crates/tirnouch_c). Made by tools/c_header.py.
 *
 * A slot begins as all zeros, and is passed by its address: one call at a time, from any thread. Buffers are as long as said,
 * and have an address also where they are empty; they don't overlap. A struct that a call doesn't fill stays as
 * it was. A slot without a session answers TIRNOUCH_NO_SESSION. */
#ifndef TIRNOUCH_CORE_H
#define TIRNOUCH_CORE_H

#include <stdbool.h>
#include <stddef.h>
#include <stdint.h>

#ifdef __cplusplus
extern "C" {
#endif

#define TIRNOUCH_NO_SESSION (NUMBER)
"""


# Closed sets of numbers: the name of each, what it is, what stands before each member, where its numbers are, and C's word for those that
# the crate calls otherwise; one that is None has no member.
ENUMS = [
    ("verb", "A step of tirnouch_call.", "",
     Source("tirnouch_c/src/calls.rt", "step_by", r"(?P<number>\d+) => (?:Step::)?(?P<name>\w+)"), {}),
    ("kind", "What came of a step: `kind` of `struct tirnouch_reply`.", "",
     Source("tirnouch_c/src/replies.rt", "of_reply", r"\bReply::(?P<name>\w+).*?of_kind\(handle, (?P<number>\d+)\)"), {}),
    ("code", "Completion codes (xHCI 1.2, 6.4.5): `code` of TIRNOUCH_ENDED.", "CODE_",
     Source("usb_model/src/completion.rt", "", r"pub const (?P<name>\w+): u8 = (?P<number>\d+);"),
     {"BABBLE_DETECTED": "BABBLE", "STALL_ERROR": "STALL", "STOPPED": None}),
    ("waiting", "What waits, whoever it is of: bits of `waiting` of `struct tirnouch_next` and `struct tirnouch_view`.", "WAITS_",
     Source("tirnouch_c/src/reads.rt", "waiting", r"(?:(?P<number>\d+) \* )?u8::from\((?P<name>\w+)\)"), {"outcome": "RESULT"}),
    ("answer", "An answer of a device: `kind` of tirnouch_feed.", "ANSWER_",
     Source("tirnouch_c/src/feeds.rt", "answer_by", r"(?P<number>\d+) => Ok\(Some\(Response::(?P<name>\w+)"),
     {"Data": "PACKET", "Ack": "TAKEN", "Nak": "NOT_READY"}),
    ("need", "What a host has to hold: `kind` of `struct tirnouch_needed`.", "NEEDS_",
     Source("tirnouch_c/src/requests.rt", "of", r"Needs::(?P<name>\w+)[^{]*Needed \{\s*kind: (?P<number>\d+)"), {}),
    ("awaited", "What answers wait for: `awaited` of `struct tirnouch_gate`.", "AWAITS_",
     Source("tirnouch_c/src/facts.rt", "of", r"Awaited::(?P<name>\w+)[^{]*AnswerGate \{[^}]*?awaited: (?P<number>\d+)"),
     {"At": "ENDPOINT"}),
    ("any", "Fields of requests that may be any: bits of `any` of `struct tirnouch_gate`.", "ANY_",
     Source("tirnouch_c/src/facts.rt", "any_fields", r"(?:(?P<number>\d+) \* )?u8::from\(pattern\.(?P<name>\w+)\.is_none\(\)\)"),
     {"kind": "TYPE"}),
]
# The structs that C has answers in: each of the crate's, and its name behind `tirnouch_`.
ANSWERS = {
    "TextComplaint": "complaint", "StepReply": "reply", "SettleProgress": "progress", "NextWork": "next", "EndpointView": "view", "TakenResult": "result",
    "PacketOffer": "offer", "ControlResponse": "response", "Needed": "needed", "DeviceFacts": "device", "AnswerGate": "gate",
    "DeviceDeparture": "departure", "EndpointNumbers": "endpoint",
}
NONE = """
/* In place of a handle or a device: it is nobody's, or there is none. */
#define TIRNOUCH_NOBODY NUMBER
"""
SLOT = """
/* What holds a session. Its fields are the library's. */
struct tirnouch_slot {
FIELDS};
"""
# Who owns lent memory, behind what the crate says of it: each item is a paragraph.
OWNERS = [
    "It is the library's as soon as `tirnouch_submit_in` answers 0, and `len` is 0 here then: C doesn't read, "
    "write, free or lend it until it comes back. Else it stays C's, `len` as before.",
    "It comes back with its transfer's result, in `back` of `tirnouch_take` or `tirnouch_turn`, however the transfer ended: all `len` "
    "bytes are C's again, of which the first `filled` are those that were read. `tirnouch_destroy` ends what is lent, and tells nothing. "
    "The library never frees it.",
    "Before these two calls `back` is memory of no bytes; it stays so where nothing was lent for the result.",
]
TAIL = """
/* What the library is and how its core was built: "tirnouch, proved core", "tirnouch, unproved core", or "tirnouch, trusted core" of
 * an unproved one without checks. */
extern const char tirnouch_description[];

#ifdef __cplusplus
}
#endif

#endif
"""


def comment(paragraphs, indent=""):
    """Paragraphs, each of lines of documentation, as a comment of C."""
    texts = [" ".join(lines).replace("libusb 1.0, ", "libusb's ").replace("is never null", "is never NULL") for lines in paragraphs]
    body = [line for text in texts for line in ["", *textwrap.wrap(text, WIDTH - len(indent) - 3)]][1:]
    out = [f"{indent}/* {body[0]}"] + [f"{indent} * {line}".rstrip() for line in body[1:]]
    return "\n".join(out) + " */\n"


def documented(text, pattern):
    """What fits a pattern, each with the lines of documentation above it."""
    docs = []
    for line in text.splitlines():
        mark = line.strip()
        if mark.startswith("///"):
            docs.append(mark[3:].strip())
        elif mark.startswith("#["):
            continue
        else:
            found = re.match(pattern, mark)
            if found:
                yield docs, found
            docs = []


def function_of(text: str, name: str) -> str:
    """The text of the functions of this name, from their heads to the braces that close them; the whole text where there is no name."""
    if not name:
        return text
    heads = re.finditer(rf"^( *)(?:pub )?fn {name}\(.*?^\1\}}$", text, re.MULTILINE | re.DOTALL)
    return "\n".join(it[0] for it in heads)


def numbers_of(source: Source) -> Dict[str, int]:
    """The names and numbers that a crate's source has, in its order."""
    text = function_of((CRATES / source.file).read_text(), source.function)
    found = {it["name"]: int(it["number"] or 1) for it in re.finditer(source.pattern, text, re.DOTALL)}
    if not found:
        sys.exit(f"crates/{source.file} has none of the numbers that tools/c_header.py looks for in it")
    return found


def the_number(source: Source) -> str:
    return str(*numbers_of(source).values())


def spelled(name: str) -> str:
    """A name of the crate as C's constants are spelled."""
    return name if name.isupper() else re.sub(r"(?<=[a-z])(?=[A-Z])", "_", name).upper()


def members(beginning: str, source: Source, words: Dict[str, Optional[str]]) -> Dict[str, int]:
    """The members of a closed set, by the crate's source."""
    found = {words.get(name, spelled(name)): number for name, number in numbers_of(source).items()}
    if len(set(found.values())) < len(found):
        sys.exit(f"crates/{source.file} has a number twice: {found}")
    return {f"{beginning}{name}": number for name, number in found.items() if name}


def enumeration(name, docs, beginning, source, words):
    """A closed set of numbers as C has it."""
    words = [f"TIRNOUCH_{it}\0=\0{number}" for it, number in members(beginning, source, words).items()]
    line = f"enum tirnouch_{name} {{ " + ", ".join(words) + " };"
    if len(line) > WIDTH:
        line = f"enum tirnouch_{name} {{\n" + textwrap.fill(", ".join(words), WIDTH, initial_indent="    ", subsequent_indent="    ") + "\n};"
    return "\n" + comment([[docs]]) + line.replace("\0", " ") + "\n"


def declared(kind):
    """A struct of the crate: the module that has it, its documentation, and its fields in their order, each with its documentation. C has
    its fields too, so it is laid out as C does."""
    for file in sorted(CRATE.glob("*.rt")):
        text = file.read_text()
        for docs, _ in documented(text, rf"pub struct {kind} \{{"):
            if not re.search(rf"#\[repr\(C\)\]\n(?:#\[.*\]\n)*pub struct {kind} \{{", text):
                sys.exit(f"crates/tirnouch_c/src/{file.name}: {kind} isn't laid out as C does: it lacks #[repr(C)]")
            body = re.search(rf"pub struct {kind} \{{\n(.*?)\n\}}", text, re.S).group(1)
            fields = documented(body, r"(?!pub ghost |ghost )(?:pub )?(\w+): ([^,{]+),")
            return file.stem, docs, [(lines, field[1], field[2]) for lines, field in fields]
    sys.exit(f"tirnouch_c has no struct {kind}")


def flat(kind):
    """The fields of a struct as C has them, of which one may be a struct itself."""
    for _, field, number in declared(kind)[2]:
        if number in FIELDS:
            yield f"    {FIELDS[number].replace('uint8_t *', 'void *')}{'' if number.startswith('*') else ' '}{field};\n"
        else:
            yield from flat(number)


def structure(name, kind, more=()):
    """A struct of the crate as C has it, with more behind its documentation."""
    _, docs, fields = declared(kind)
    out = "\n" + comment([docs, *([it] for it in more)]) + f"struct {name} {{\n"
    for lines, field, number in fields:
        given = FIELDS[number]
        out += (comment([lines], "    ") if lines else "") + f"    {given}{'' if given.endswith('*') else ' '}{field};\n"
    return out + "};\n"


def parameter(name, kind):
    """A parameter as C has it; None where C doesn't pass it."""
    if kind == "Global":
        return None
    if kind in NUMBERS:
        return f"{NUMBERS[kind]} {name}"
    shapes = {
        **{f"&mut {it}": f"struct tirnouch_{word} *{{0}}" for it, word in ANSWERS.items()},
        "&mut Slot": "struct tirnouch_slot *{0}",
        "&mut LentMemory": "struct tirnouch_memory *{0}",
        "&[u8; 8]": "const uint8_t {0}[8]",
        "&[u8]": "const uint8_t *{0}, size_t {0}_length",
        "&mut [u8]": "uint8_t *{0}, size_t {0}_room",
    }
    return shapes[kind].format(name)


def exports():
    """The prototypes of the exports."""
    text = "".join((CRATE / file).read_text() for file in EXPORTS)
    out = ""
    for found in re.finditer(r"((?:^///.*\n)+)#\[unsafe\(no_mangle\)\]\npub extern \"C\" fn (\w+)\(([^)]*)\) -> (\w+)", text, re.M):
        docs = [line[3:].strip() for line in found.group(1).splitlines()]
        given = [part.strip() for part in found.group(3).split(",\n") if part.strip()] if "\n" in found.group(3) else [
            part.strip() for part in re.split(r",\s*(?![^\[]*\])", found.group(3)) if part.strip()]
        passed = [parameter(*part.rstrip(",").split(": ", 1)) for part in given]
        words = [one.replace(" ", "\0") for part in passed if part for one in part.split(", ")]
        line = f"{NUMBERS[found.group(4)]}\0{found.group(2)}(" + ", ".join(words) + ");"
        out += "\n" + comment([docs]) + "\n".join(textwrap.wrap(line, WIDTH, subsequent_indent="    ")).replace("\0", " ") + "\n"
    return out


def header():
    head = HEAD.replace("NUMBER", the_number(NO_SESSION)) + "".join(enumeration(*it) for it in ENUMS)
    slot = NONE.replace("NUMBER", the_number(NOBODY)) + SLOT.replace("FIELDS", "".join(flat("Slot")))
    answers = "".join(structure(f"tirnouch_{word}", kind) for kind, word in ANSWERS.items())
    memory = structure("tirnouch_memory", "LentMemory", OWNERS)
    return head + slot + memory + answers + exports() + TAIL


def first_difference(made):
    """Where the header that stands there differs from what the sources make, for a person."""
    if not HEADER.is_file():
        return "it isn't there"
    pairs = itertools.zip_longest(HEADER.read_text().splitlines(), made.splitlines(), fillvalue="nothing")
    different = ((at, one.strip(), other.strip()) for at, (one, other) in enumerate(pairs, 1) if one != other)
    return next((f"line {at} has {one!r}, and they {other!r}" for at, one, other in different), "its end")


def main():
    made = header()
    if sys.argv[1:] == ["write"]:
        HEADER.parent.mkdir(parents=True, exist_ok=True)
        HEADER.write_text(made)
    elif sys.argv[1:] == ["check"]:
        if not HEADER.is_file() or HEADER.read_text() != made:
            sys.exit(f"c/include/tirnouch_core.h isn't that of the crate's sources: {first_difference(made)}: run tools/c_header.py write")
        print("c/include/tirnouch_core.h has the exports, structs and numbers of tirnouch_c")
    else:
        sys.exit(__doc__)


if __name__ == "__main__":
    main()
