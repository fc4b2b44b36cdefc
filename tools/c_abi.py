#!/usr/bin/env python3
"""c/include/libusb.h against libusb's own header, and a library against c/include/libusb.h.

    tools/c_abi.py [LIBUSB_H]        compares the headers: what pkg-config says of libusb-1.0, or this file
    tools/c_abi.py --symbols FILE    compares what a shared library exports with the functions of libusb.h and tirnouch.h

Compared are the sizes of structs and enumerations, the offset, size and type of each field, the values of constants, and the
types of functions and of typedefs. A program in C prints them, compiled once with each header; the types that it asks for are those
of our text. Its names are found by reading both headers behind the preprocessor. Where the other header is of the same API version,
a name that ours doesn't have is a difference too; else it is only told. Where no header is installed nothing is compared, with
status 0. The compiler is that of CC, or cc."""
import os
import pathlib
import re
import shutil
import subprocess
import sys
import tempfile

ROOT = pathlib.Path(__file__).resolve().parent.parent
INCLUDE = ROOT / "c" / "include"
USUAL = pathlib.Path("/usr/include/libusb-1.0/libusb.h")
COMPILER = os.environ.get("CC", "cc").split()
LANGUAGE = ["-std=gnu11", "-w"]
HEAD = "#include HEADER\n#include <stddef.h>\n#include <stdio.h>\n\nint main(void)\n{\n"
TOKEN = re.compile(r'"[^"]*"|\w+|\.\.\.|[^\w\s]')
# A macro that is a number, as far as its text tells.
NUMBER = re.compile(r"(?!.*__)[-+*<>|()\s\w]+")
VERSIONS = ("LIBUSB_API_VERSION", "LIBUSBX_API_VERSION")
# What came with version 1.0.27 or 1.0.28, and the number of their API: an older header may lack these.
LATER = re.compile(r"libusb_init_(context|option)|LIBUSB_OPTION_(LOG_CB|MAX)|libusb_get_max_alt_packet_size|LIBUSB_SPEED_SUPER_PLUS_X2"
                   r"|libusb\w*_(interface_association|platform|ssplus|superspeedplus)_\w*"
                   r"|LIBUSB_\w*(INTERFACE_ASSOCIATION|PLATFORM_DESCRIPTOR|SSPLUS|SUPERSPEED_PLUS)\w*")
LATER_VERSION = 0x0100010A
# What a linker may add to the names of a library.
LINKERS = {"_init", "_fini", "_edata", "_end", "__bss_start"}


def stop(message):
    sys.exit(f"tools/c_abi.py: {message}")


def compile_with(*words):
    """What the compiler answers."""
    try:
        ran = subprocess.run([*COMPILER, *LANGUAGE, *words], capture_output=True, text=True, check=False)
    except OSError as error:
        stop(f"{COMPILER[0]} can't be run ({error.strerror}); CC names another compiler")
    if ran.returncode:
        stop(f"{' '.join(COMPILER)} refused this:\n{ran.stderr}")
    return ran.stdout


class Header:
    """What a header declares."""

    def __init__(self, path):
        self.path = path
        self.structs = {}     # name: {field: type}
        self.enums = set()    # those with a tag
        self.values = set()   # enumerators, and macros that are numbers
        self.functions = {}   # name: type
        self.inlines = set()  # those that the header does by itself
        self.typedefs = {}    # name: type, or None where that has no name
        self.macros = dict(re.findall(r"^#define (LIBUSB\w*) (.+)$", self.preprocessed("-dM"), re.M))
        for part, has_body in parts(self.own_tokens()):
            self.read(part, has_body)
        self.values.update(name for name, text in self.macros.items() if NUMBER.fullmatch(text) and name not in VERSIONS)

    def preprocessed(self, *words):
        return compile_with("-E", *words, "-x", "c", str(self.path))

    def version(self):
        """The number of its API, as text."""
        return self.macros.get("LIBUSB_API_VERSION", self.macros.get("LIBUSBX_API_VERSION", "0"))

    def own_tokens(self):
        """The header's tokens behind the preprocessor, without those of what it includes."""
        tokens, is_own = [], False
        for line in self.preprocessed().splitlines():
            mark = re.match(r'# \d+ "(.*?)"', line)
            if mark:
                is_own = pathlib.Path(mark.group(1)) == self.path
            elif is_own and not line.startswith("#"):
                tokens += TOKEN.findall(line)
        return without_attributes(tokens)

    def read(self, part, has_body):
        """A declaration, or a function up to its body."""
        if part[0] == "typedef":
            self.read_typedef(part[1:])
        elif part[0] == "struct" and part[2:3] == ["{"]:
            self.structs[part[1]] = fields(body_of(part))
        elif part[0] == "enum" and "{" in part:
            self.read_enum(part)
        elif "(" in part:
            self.read_function(part, has_body)

    def read_enum(self, part):
        if part[1] != "{":
            self.enums.add(part[1])
        self.values.update(one[0] for one in split(body_of(part), ","))

    def read_typedef(self, part):
        if part[0] == "enum" and "{" in part:
            self.read_enum(part)
            self.typedefs[part[-1]] = None
        elif "(" in part:
            at = next(i for i in range(2, len(part)) if part[i - 2 : i] == ["(", "*"])
            self.typedefs[part[at]] = " ".join(part[:at] + part[at + 1 :])
        else:
            self.typedefs[part[-1]] = " ".join(part[:-1])

    def read_function(self, part, has_body):
        at = part.index("(") - 1
        before = [token for token in part[:at] if token not in ("extern", "static", "inline", "__inline", "__inline__")]
        self.functions[part[at]] = " ".join(before + part[at + 1 :])
        if has_body:
            self.inlines.add(part[at])

    def names(self):
        """All of them, each with its kind."""
        out = {("struct", name) for name in self.structs} | {("enum", name) for name in self.enums}
        out |= {("function", name) for name in self.functions} | {("typedef", name) for name in self.typedefs}
        out |= {("constant", name) for name in self.values}
        return out | {("field", f"{name}.{field}") for name, all_of in self.structs.items() for field in all_of}


def without_attributes(tokens):
    out, depth, skips = [], 0, False
    for token in tokens:
        if token in ("__attribute__", "__attribute"):
            skips = True
        elif skips:
            depth += {"(": 1, ")": -1}.get(token, 0)
            skips = depth > 0
        elif token != "__extension__":
            out.append(token)
    return out


def parts(tokens):
    """The declarations of a file: each up to its semicolon, or up to a function's body, and whether it has one."""
    part, depth, head = [], 0, None
    for token in tokens:
        depth += {"{": 1, "}": -1}.get(token, 0)
        if token == "{" and depth == 1 and "(" in part:
            head = part
        if depth == 0 and (token == ";" or (token == "}" and head)):
            if head or part:
                yield head or part, head is not None
            part, head = [], None
        elif head is None:
            part.append(token)


def body_of(part):
    """What stands in the outermost braces."""
    return part[part.index("{") + 1 : len(part) - 1 - part[::-1].index("}")]


def split(tokens, at):
    """Between separators, which don't stand in brackets."""
    out, depth = [[]], 0
    for token in tokens:
        depth += {"(": 1, "[": 1, "{": 1, ")": -1, "]": -1, "}": -1}.get(token, 0)
        if token == at and depth == 0:
            out.append([])
        else:
            out[-1].append(token)
    return [one for one in out if one]


def fields(body):
    """The fields of a struct, each with its type. In `uint8_t a, *b, c[2];` the stars and brackets are a field's own. A union
    without a name has its own fields behind the field's name, and no type."""
    out = {}
    for declaration in split(body, ";"):
        if "{" in declaration:
            out[declaration[-1]] = None
            out.update({f"{declaration[-1]}.{name}": kind for name, kind in fields(body_of(declaration)).items()})
            continue
        first, *others = split(declaration, ",")
        start = (first.index("[") if "[" in first else len(first)) - 1
        while first[start - 1] == "*":
            start -= 1
        for one in [first[start:], *others]:
            at = next(i for i, token in enumerate(one) if token != "*")
            out[one[at]] = " ".join(first[:start] + one[:at] + one[at + 1 :])
    return out


def program(ours, others):
    """A program that prints what of our names the other header has too."""
    lines = []

    def say(what, value):
        lines.append(f'    printf("{what}: %lld\\n", (long long)({value}));')

    def same(left, kind):
        return f"__builtin_types_compatible_p(__typeof__({left}), __typeof__({kind}))"

    for name, all_of in sorted(ours.structs.items()):
        if name not in others.structs:
            continue
        say(f"size of struct {name}", f"sizeof(struct {name})")
        say(f"alignment of struct {name}", f"_Alignof(struct {name})")
        for field, kind in all_of.items():
            if field not in others.structs[name]:
                continue
            say(f"offset of {name}.{field}", f"offsetof(struct {name}, {field})")
            if kind:
                say(f"type of {name}.{field}, {kind}", same(f"((struct {name} *)0)->{field}", kind))
            if not (kind or "").endswith("[ ]"):
                say(f"size of {name}.{field}", f"sizeof(((struct {name} *)0)->{field})")
    for name in sorted(ours.enums & others.enums):
        say(f"size of enum {name}", f"sizeof(enum {name})")
    for name in sorted(ours.values & others.values):
        say(f"{name}", name)
    for name, kind in sorted(ours.typedefs.items()):
        if name in others.typedefs:
            say(*((f"type of {name}, {kind}", same(name, kind)) if kind else (f"size of {name}", f"sizeof({name})")))
    for name, kind in sorted(ours.functions.items()):
        if name in others.functions:
            say(f"type of {name}, {kind}", same(name, kind))
    return HEAD + "\n".join(lines) + "\n    return 0;\n}\n"


def printed(folder, text, header):
    """What the program prints with a header."""
    source, binary = folder / "abi.c", folder / "abi"
    source.write_text(text)
    compile_with(f'-DHEADER="{header.path}"', str(source), "-o", str(binary))
    ran = subprocess.run([str(binary)], capture_output=True, text=True, check=True)
    return dict(line.rsplit(": ", 1) for line in ran.stdout.splitlines())


def installed():
    """libusb's own header; None where there is none."""
    if shutil.which("pkg-config"):
        asked = subprocess.run(["pkg-config", "--cflags-only-I", "libusb-1.0"], capture_output=True, text=True, check=False)
        for word in asked.stdout.split() if asked.returncode == 0 else []:
            path = pathlib.Path(word.removeprefix("-I")) / "libusb.h"
            if path.is_file():
                return path.resolve()
    return USUAL if USUAL.is_file() else None


def compare_headers(path):
    """The differences between our header and another."""
    ours, others = Header(INCLUDE / "libusb.h"), Header(path)
    is_same, is_older = ours.version() == others.version(), int(others.version(), 16) < LATER_VERSION
    with tempfile.TemporaryDirectory(prefix="c_abi-") as folder:
        text = program(ours, others)
        left, right = (printed(pathlib.Path(folder), text, header) for header in (ours, others))
    differences = [f"{kind} {name}: {path} doesn't have it" for kind, name in sorted(ours.names() - others.names())
                   if not (is_older and LATER.fullmatch(name.split(".")[0]))]
    for what in left:
        if left[what] != right[what] and not (is_older and LATER.fullmatch(what)):
            is_type = what.startswith("type ")
            differences.append(f"{what}: not there" if is_type else f"{what}: {left[what]} here, {right[what]} there")
    further = [f"{kind} {name}: c/include/libusb.h doesn't have it" for kind, name in sorted(others.names() - ours.names())]
    for line in further if not is_same else []:
        print(line)
    versions = f"API version {ours.version()} here, {others.version()} there"
    return differences + (further if is_same else []), f"{len(left)} numbers compared with {path} ({versions})"


def compare_symbols(path):
    """The differences between our headers and what a library exports."""
    ran = subprocess.run(["nm", "-D", "--defined-only", path], capture_output=True, text=True, check=False)
    if ran.returncode:
        stop(f"nm can't read {path}: {ran.stderr.strip()}")
    exported = {line.split()[-1].split("@")[0] for line in ran.stdout.splitlines() if line.split()[-2] not in "Aa"} - LINKERS
    wanted = set()
    for name in ("libusb.h", "tirnouch.h"):
        header = Header(INCLUDE / name)
        wanted |= set(header.functions) - header.inlines
    differences = [f"{name}: {path} doesn't export it" for name in sorted(wanted - exported)]
    differences += [f"{name}: {path} exports it, and no header has it" for name in sorted(exported - wanted)]
    return differences, f"{len(wanted)} functions looked for in {path}"


def main():
    words = sys.argv[1:]
    if len(words) == 2 and words[0] == "--symbols":
        differences, summary = compare_symbols(words[1])
    elif len(words) <= 1 and not words[:1] == ["--symbols"] and not "".join(words).startswith("-"):
        path = pathlib.Path(words[0]).resolve() if words else installed()
        if path is None:
            print("no libusb.h is installed (libusb-1.0-0-dev has it): nothing is compared")
            return
        if not path.is_file():
            stop(f"there is no file {path}")
        differences, summary = compare_headers(path)
    else:
        sys.exit(__doc__)
    for line in differences:
        print(line)
    print(f"{summary}, {len(differences)} {'difference' if len(differences) == 1 else 'differences'}")
    sys.exit(1 if differences else 0)


if __name__ == "__main__":
    main()
