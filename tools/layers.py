#!/usr/bin/env python3
"""docs/LAYERS.md, made from what each crate says of itself (the head of its lib.rt or main.rt) and from crates.txt.

    tools/layers.py write    writes the page anew
    tools/layers.py check    says whether it is current; the gate asks it

Of each crate: what it is, and what of this repository it stands on; what stands below that goes without saying."""
import pathlib
import re
import sys

ROOT = pathlib.Path(__file__).resolve().parent.parent
PAGE = ROOT / "docs" / "LAYERS.md"
ROLES = [
    ("tirnouch", "What a driver's author uses"),
    ("usb_", "The library, lowest first"),
    ("trace_", "Scenarios, captures and traces: the parts of `usbtrace`"),
    ("usbtrace", "The program"),
    ("proof_", "No code: lemmas on the definitions, and their laws"),
    ("refine_", "No code: the refinement, by which the core does what the model says"),
    ("reference", "The plain program, by which `usbtrace` explains and judges"),
    ("check_", "Scenes that the gate runs"),
    ("example_", "Programs to copy"),
]


# How a transfer goes through the crates that ship.
PICTURE = """\
    a program in C or Python     a driver in Rattle          a scenario, as text
              |                          |                          |
            c/usb                    tirnouch                   usbtrace
              |                          |                          |
         tirnouch_c             usb_workers: threads     trace_main, trace_run (and
   usb_devicetext: the text     usb_library: a lock      trace_live, over usb_workers)
   usb_living: who computes     usb_journal: the book           usb_plans
              |                          |                          |
              +--------------------- usb_core ----------------------+
                                         |
                     usb_tables: who holds what, what is in flight
                                         |
                     usb_xhc: the controller ---- usb_device: what is answered
                                         |                  |
                     usb_rings: TRBs in memory      usb_descriptors
                                         |
                     usb_trb: sixteen bytes""".split("\n")


# What ships, by the crate on top of it.
PRODUCTS = [("C", "tirnouch_c"), ("Rattle", "tirnouch"), ("usbtrace", "usbtrace")]


def crates():
    """The crates of crates.txt with what each uses, lowest first."""
    found = {}
    for line in (ROOT / "crates.txt").read_text().splitlines():
        head, colon, uses = line.split("#")[0].partition(":")
        if colon:
            found[head.split()[0]] = uses.split()
    return found


def head_of(crate):
    """The paragraphs of a crate's head, up to its first heading."""
    source = ROOT / "crates" / crate / "src" / "lib.rt"
    if not source.is_file():
        source = source.with_name("main.rt")
    lines = []
    for line in source.read_text().splitlines():
        if not line.startswith("//!"):
            break
        lines.append(line[3:].strip())
    text = "\n".join(lines).split("\n# ")[0]
    return [" ".join(it.split()) for it in re.split(r"\n\n+", text) if it.strip()]


def direct(crate, uses):
    """What a crate of this repository stands on, without what these stand on themselves."""
    own = [it for it in uses[crate] if it in uses]
    below = {lower for it in own for lower in all_below(it, uses)}
    return [it for it in own if it not in below]


def all_below(crate, uses, seen=None):
    seen = set() if seen is None else seen
    for it in uses[crate]:
        if it in uses and it not in seen:
            seen.add(it)
            all_below(it, uses, seen)
    return seen


def products(crate, uses):
    """What of PRODUCTS a crate is a part of."""
    return ", ".join(word for word, top in PRODUCTS if crate == top or crate in all_below(top, uses))


def row_of(crate, uses):
    """The row of a crate: the first sentence of its head, what it stands on, and what it is a part of."""
    first = re.split(r"(?<=[.!?]) (?=[A-Z`])", " ".join(head_of(crate)))[0]
    on = ", ".join(f"`{it}`" for it in direct(crate, uses))
    return f"| `{crate}` | {first.rstrip('.')} | {on} | {products(crate, uses)} |"


def page():
    """The whole page."""
    uses, lines = crates(), [
        "# Layers",
        "",
        "Made by tools/layers.py from crates.txt and from the head of each crate's lib.rt, which has its promise, its files and its contracts.",
        "[REFINEMENT.md](REFINEMENT.md) says how the layers of the core are tied together, [DECISIONS.md](DECISIONS.md) why a crate is one.",
        "",
        "Three products ship: the library for C (with c/usb; the wheel for Python has it inside), the library for Rattle, and `usbtrace`. The last",
        "column has the products that a crate is a part of; a crate without one doesn't ship. Those of laws and of refinement have no code: a",
        "product's proofs stand on them.",
        "A transfer goes down, and its result comes up:",
        "",
        *PICTURE,
        "",
    ]
    placed = {}
    for crate in uses:
        role = next(it for it, _ in ROLES if crate.startswith(it))
        placed.setdefault(role, []).append(crate)
    for role, title in ROLES:
        lines += [f"## {title}", "", "| crate | what it is | stands on | part of |", "|---|---|---|---|"]
        lines += [*(row_of(crate, uses) for crate in placed.get(role, [])), ""]
    return "\n".join(lines).rstrip("\n") + "\n"


def main(words):
    if words == ["write"]:
        PAGE.write_text(page())
        return 0
    if words == ["check"]:
        if PAGE.read_text() == page():
            print("docs/LAYERS.md is current")
            return 0
        print("docs/LAYERS.md isn't what the crates say: tools/layers.py write")
        return 1
    print(__doc__)
    return 2


sys.exit(main(sys.argv[1:]))
