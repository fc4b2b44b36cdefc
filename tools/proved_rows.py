"""The part of tools/rows.py that makes the files of crates/proof_laws: worked rows as definitions, with their proofs.

rows/proved.txt says which rows they are, in groups. Of a group there are the rows as definitions (specs/Rows), their
proofs (proofs/WorkedRows), a law with a clause a row (src/rows.rt), and the answers to its goals (proofs/rows)."""
import pathlib
import re
import textwrap

ROOT = pathlib.Path(__file__).resolve().parent.parent
TABLE = ROOT / "rows" / "proved.txt"
CRATE = ROOT / "crates" / "proof_laws"
# A list stands in lines of at most so many columns, but for the `;` behind it, and each has this indent.
WIDTH, INDENT = 150, " " * 6
# The words of a scenario (docs/FORMATS.md), as terms of the definitions.
STEPS = {
    "open": "(Open {} {})",
    "close": "(Close {})",
    "claim": "(Claim {} {})",
    "release": "(Release {} {})",
    "reset": "(Reset {})",
    "clear": "(ClearHalt {} 0x{})",
    "submit": "(Submit {} ({}))",
    "cancel": "(Cancel {} {})",
    "expire": "(Expire {} {})",
    "serve": "(Serve {} 0x{})",
    "command": "Command",
    "deliver": "Deliver",
    "take": "Take",
    "unplug": "(Unplug {})",
}
# Those that say what the devices are and answer, wherever they stand.
OF_DEVICES = ("device", "script", "feed")
REQUESTS = {"bulk": "bulk", "int": "interrupt"}
ANSWERS = {"a": "Ack", "n": "Nak", "s": "Stall", "b": "Broken"}
FLAGS = {"SHORT_NOT_OK": 1, "FREE_BUFFER": 2, "FREE_TRANSFER": 4, "ADD_ZERO_PACKET": 8}
STATUSES = {"COMPLETED": 1, "ERROR": 2, "TIMED_OUT": 4, "CANCELLED": 8, "STALL": 16, "NO_DEVICE": 32, "OVERFLOW": 64}
# The rule of a submission that has none. Behind the last rule it is left out.
ONCE = "Again (record { 0 = 0 }) 0"
# The kinds of endpoints, by bits 1..0 of bmAttributes (USB 2.0, 9.6.6).
KINDS = ["Control", "Isochronous", "Bulk", "Interrupt"]
# Where the names stand that a definition may use; those of specs/Rows.antt come to them.
DECLARED = "Rattle.usb_model.specs.declared."
HOMES = {
    "Rattle.std.specs.Prelude": ["[]", "◌∷◌", "◌++◌", "codes"],
    DECLARED + "response.Response.TheVariants": ["Data", *ANSWERS.values()],
    DECLARED + "request.Body.TheVariants": ["In", "Out"],
    DECLARED + "step.Step.TheVariants": re.findall("[A-Z][A-Za-z]+", " ".join(STEPS.values())),
    DECLARED + "verdict.Rule.TheVariants": ["Again"],
    DECLARED + "plan.Plan.TheVariants": ["Do", "Return"],
}
ROWS = "Rattle.proof_laws.specs.Rows"
ALONE = "record { amid = refl; by_itself = refl }"
HEAD_OF_LAWS = """\
//! Worked rows: the definitions compute what the standards' and the library's users expect. Each is a law
//! over definitions, the contract of a function with an empty body.
"""


class BadRow(Exception):
    """A row that isn't as rows/README.md has it."""


class Device:
    """A device that rows may have: its name in specs/Rows.antt, the endpoints whose scripts it takes, a descriptor."""

    def __init__(self, name, *words):
        self.name, self.endpoints, self.descriptor = name, words[:-1], words[-1]

    def term(self, scripts):
        """The setup that it is with these scripts, which stand by their endpoints."""
        if not set(scripts) <= set(self.endpoints):
            raise ValueError(f"a script that {self.name} doesn't take")
        return " ".join([self.name, *(scripts.get(it, "[]") for it in self.endpoints)])

    def definition(self):
        """What specs/Rows.antt has to say of it, by its descriptor (USB 2.0, 9.6)."""
        interfaces, endpoints, left = [], "", bytes.fromhex(self.descriptor)
        while left:
            if left[1] == 4:
                interfaces.append(str(left[2]))
            if left[1] == 5:
                kind, size = KINDS[left[3] % 4], int.from_bytes(left[4:6], "little")
                whose = f"address = 0x{left[2]:02x}; interface = {interfaces[-1]}"
                endpoints += f"record {{ {whose}; kind = {kind}; packet_size = {size} }}\n        ∷ "
            left = left[left[0]:]
        scripts = {endpoint_id(int(it, 16)): f"of_{it}" for it in self.endpoints}
        return f"""
{" ".join([self.name, *scripts.values()])} = record {{
  config = record {{
    interfaces = {listed(interfaces)};
    endpoints =
        {endpoints}[];
  }};
  scripts = {listed(scripts.get(it, "[]") for it in range(max(scripts, default=-1) + 1))};
}} ∷ []
"""


class Group:
    """Rows that are one module and one law: what is said of all, and their names, each with the sentence above it."""

    def __init__(self, module, law):
        self.module, self.law, self.said, self.rows = module, law, {}, {}

    def above(self, *kinds):
        """The first of these sentences that the table has."""
        return next(self.said[it] for it in kinds if it in self.said)


def endpoint_id(address):
    """Where its script stands in a setup (xHCI 1.2, 4.5.1)."""
    return address % 16 * 2 + address // 128


def listed(terms):
    return " ∷ ".join([*terms, "[]"])


def argument(terms):
    return f"({listed(terms)})" if terms else "[]"


def filled(terms):
    """A list over lines, which end behind the ∷ of a term: a space that may not be broken is \\0 meanwhile."""
    if not terms:
        return INDENT + "[]"
    lines = textwrap.TextWrapper(WIDTH, INDENT, INDENT, break_long_words=False, break_on_hyphens=False)
    text = " ".join(f"{it} ∷".replace(" ", "\0") for it in terms) + "\0[]"
    return lines.fill(text).replace("\0", " ")


def octets(digits):
    return argument([str(it) for it in bytes.fromhex(digits)])


def bits(names, known):
    return f"record {{ 0 = {sum(known[it] for it in set(names.split('+')))} }}"


def answer(word):
    return f"Data {octets(word[2:])}" if word.startswith("d:") else ANSWERS[word]


def request(ep, kind, body, *options):
    """What is submitted. `bulk` and `interrupt` have no flags and no timeout."""
    body = f"Out {octets(body[2:])}" if body.startswith("x:") else f"In {int(body)}"
    plain, others = f"{REQUESTS[kind]} 0x{ep} ({body})", []
    for name, value in (it.split("=") for it in options):
        if name == "flags":
            others.append(f"flags = {bits(value, FLAGS)}")
        if name == "timeout":
            others.append(f"timeout = {int(value)}")
    return f"record ({plain}) {{ {'; '.join(others)} }}" if others else plain


def rule(options):
    """What the callback of a submission answers."""
    for option in options:
        if option.startswith("then=again:"):
            _, statuses, rounds = option.split(":")
            return f"Again ({bits(statuses, STATUSES)}) {int(rounds)}"
    return ONCE


def rules_of(steps):
    rules = [rule(words[4:]) for verb, *words in steps if verb == "submit"]
    while rules[-1:] == [ONCE]:
        rules.pop()
    return listed(rules)


def piece(verb, *words):
    """A piece of the plan."""
    if verb == "return":
        return "Return {} {}".format(*words)
    if verb == "submit":
        words = [words[0], request(*words[1:])]
    if STEPS[verb].count("{}") != len(words):
        raise ValueError(verb)
    return "Do " + STEPS[verb].format(*words)


def setup_of(lines, devices):
    """The devices of a scenario, with their scripts: those of `script` lines, and behind them what `feed` lines say."""
    known, found = {it.descriptor: it for it in devices}, []
    for verb, number, *words in lines:
        if verb == "device":
            found.append((known[words[0]], {}))
        else:
            found[int(number)][1].setdefault(words[0], []).extend(answer(it) for it in words[1:])
    scripted = [(device, {ep: argument(script) for ep, script in scripts.items()}) for device, scripts in found]
    return " ++ ".join(device.term(scripts) for device, scripts in scripted) or "[]"


def definition(row, sentence, devices):
    try:
        lines = [it.split(" ") for it in row.input.decode().splitlines() if it and not it.startswith("#")]
        said, steps = [], []
        for it in lines:
            (said if it[0] in OF_DEVICES else steps).append(it)
        setup, rules = setup_of(said, devices), rules_of(steps)
        plan = filled([piece(*it) for it in steps])
    except (IndexError, KeyError, ValueError) as why:
        raise BadRow(f"{row.name}.in has what no row of proof_laws says: {why}") from why
    return f"""
-- {sentence}
abbrev pub {row.name} : Row
{row.name} = record {{
  setup = {setup};
  plan =
{plan};
  rules = {rules};
  lines =
{filled([f'codes "{it}"' for it in row.output.decode().splitlines()])};
}}
"""


def uses(text, devices):
    """The names that definitions use, from where they stand. Comments and printed lines are no names."""
    bare = re.sub(r'--.*|"[^"]*"', "", text)
    for home, names in {**HOMES, ROWS: ["Row", *(it.name for it in devices), *REQUESTS.values()]}.items():
        used = [it for it in names if re.search(rf"\b{it}\b" if it.isidentifier() else re.escape(it.strip("◌")), bare)]
        if used:
            yield f"use {home}.{{{', '.join(used)}}}\n"


def definitions_file(group, rows, devices):
    text = "".join(definition(rows[name], sentence, devices) for name, sentence in group.rows.items())
    return f"-- {group.above('rows', 'law')}\n" + "".join(uses(text, devices)) + text


def claim(group, name, rows):
    """What is proved of a row: a predicate of specs/Rows.antt, the row, and the handle that is alone."""
    if "by hand" in group.said:
        return [group.said["by hand"], name]
    words = re.fullmatch(r"run|alone (\d+)", rows[name].words.strip())
    if not words or rows[name].status:
        raise BadRow(f"rows/proved.txt has {name}: a row that is proved is of `run` or `alone`, with status 0")
    return ["PrintsAlone", name, words[1]] if words[1] else ["Prints", name]


def claims(group, rows):
    return [claim(group, name, rows) for name in group.rows]


def proofs_file(group, rows):
    text = f"-- {group.above('proofs', 'rows', 'law')}\nuse Rattle.std.proofs.Common.{{refl}}\n"
    text += f"use {ROWS}.{{{', '.join(sorted({it[0] for it in claims(group, rows)}))}}}\n"
    text += f"use {ROWS}.{group.module}.{{{', '.join(group.rows)}}}\n"
    text += "use Rattle.proof_laws.proofs.Computed.{computed}\n"
    for it in claims(group, rows):
        proof = ALONE if it[0] == "PrintsAlone" else "refl"
        text += f"\npub {it[1]}_holds : {' '.join(it)}\nunfolding computed\n{it[1]}_holds = {proof}\n"
    return text


def answers_file(group):
    names = ", ".join(f"{it}_holds" for it in group.rows)
    text = f"use Rattle.proof_laws.proofs.WorkedRows.{group.module}.{{{names}}}\n"
    text += f"use Rattle.proof_laws.proofs.rows.{group.law}.Goals as goal\n"
    for name in group.rows:
        text += f"\npub returns-clause-{name} : goal.returns-clause-{name}\nreturns-clause-{name} c = {name}_holds\n"
    return text


def laws_file(groups, rows):
    predicates = sorted({it[0] for group in groups for it in claims(group, rows)})
    text = HEAD_OF_LAWS + f"\nghost use {ROWS}.{{{', '.join(predicates)}}};\n"
    text += "".join(f"ghost use {ROWS}.{it.module}.{{{', '.join(it.rows)}}};\n" for it in groups)
    for group in groups:
        clauses = "".join(f"    ensures {it[1]} {{ {' '.join(it)} }}\n" for it in claims(group, rows))
        text += f"\n/// {group.above('law')}\npub fn {group.law}()\n{clauses}{{}}\n"
    return text


def table():
    """The devices and the groups of rows/proved.txt."""
    devices, groups = [], []
    for line in TABLE.read_text().splitlines():
        word, _, rest = line.partition(" ")
        if word == "device":
            devices.append(Device(*rest.split()))
        elif word == "group":
            groups.append(Group(*rest.split()))
        elif line and word != "#":
            name, _, sentence = line.strip().partition(": ")
            (groups[-1].said if line.startswith(" ") else groups[-1].rows)[name] = sentence
    return devices, groups


def judge(devices, groups, rows):
    known = (CRATE / "specs" / "Rows.antt").read_text()
    for device in devices:
        if device.definition() not in known:
            raise BadRow(f"rows/proved.txt has another {device.name} than crates/proof_laws/specs/Rows.antt")
    for path in sorted((CRATE / "specs" / "Rows").iterdir()):
        if path.stem not in [it.module for it in groups]:
            raise BadRow(f"{path.relative_to(ROOT)} is of no group of rows/proved.txt")
    for group in groups:
        for name in group.rows:
            if (name in rows) == ("by hand" in group.said):
                raise BadRow(f"rows/proved.txt has {name}: its files have to be here, but for a row written by hand")


def proved_files(rows):
    """The files of proof_laws that are written, and what stands in them where all rows are these."""
    devices, groups = table()
    rows = {it.name: it for it in rows}
    judge(devices, groups, rows)
    found = {CRATE / "src" / "rows.rt": laws_file(groups, rows)}
    for group in groups:
        if "by hand" not in group.said:
            found[CRATE / "specs" / "Rows" / f"{group.module}.antt"] = definitions_file(group, rows, devices)
        found[CRATE / "proofs" / "WorkedRows" / f"{group.module}.antt"] = proofs_file(group, rows)
        found[CRATE / "proofs" / "rows" / group.law / "Answers.antt"] = answers_file(group)
    return {path: text.encode() for path, text in found.items()}
