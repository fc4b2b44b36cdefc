"""What the programs say of themselves: their help, as parts."""
import pathlib
import re
import subprocess
import tempfile
import textwrap
from typing import Dict, List, NamedTuple, Tuple

from build import Fault

ROW = re.compile(r"(\S(?:.*?\S)?)\s{2,}(\S.*)")
SECTIONS = ("Commands:", "Arguments:", "Options:")


class Row(NamedTuple):
    """A word or an option, and what is said of it."""

    name: str
    text: str

    def options(self) -> Tuple[str, ...]:
        """The options' names, as --from or -h."""
        return tuple(re.findall(r"(?<![\w-])--?\w[\w-]*", self.name))

    def value(self) -> str:
        """What stands behind the option; nothing where it is a flag."""
        return re.sub(r"(?<![\w-])--?\w[\w-]*,?", "", self.name).strip(" <>")


class Help(NamedTuple):
    """A program's help, or that of one of its words: what it does, how it is called, the rows of commands, arguments and options, and the
    other blocks of text. `words` has the helps of the commands."""

    about: str
    usage: List[str]
    rows: Dict[str, List[Row]]
    rest: List[str]
    words: Dict[str, "Help"]

    def options(self) -> List[Row]:
        return [it for it in self.rows.get("Options:", []) if it.options()]


def rows_of(lines: List[str]) -> List[Row]:
    """Rows of two columns; a line that begins in the second one goes on with the row above it. None where a line isn't so."""
    found: List[Row] = []
    for line in lines:
        row = ROW.fullmatch(line)
        if row:
            found.append(Row(row.group(1), row.group(2)))
        elif found and line.startswith("   "):
            found[-1] = found[-1]._replace(text=f"{found[-1].text} {line.strip()}")
        else:
            return []
    return found


def read_help(text: str, name: str) -> Help:
    """The help of a program of this name, in either form: usbtrace's, whose sections have heads; or ours, without heads."""
    about, usage, rest = "", [], []
    rows: Dict[str, List[Row]] = {}
    for block in text.strip("\n").split("\n\n"):
        lines = textwrap.dedent(block).split("\n")
        if lines[0].startswith("Usage: "):
            usage += [it.removeprefix("Usage: ") for it in lines]
        elif lines[0] in SECTIONS:
            rows[lines[0]] = rows_of([it.strip() for it in lines[1:]])
        elif all(it.startswith(("tirnouch-", "tools/")) for it in lines):
            usage += [it for it in lines if it.startswith(name)]
        elif rows_of(lines):
            rows["Options:"] = rows_of(lines)
        elif not about:
            about = " ".join(lines)
        else:
            rest.append("\n".join(lines))
    if not (about and usage):
        raise Fault(f"{name} --help has another form than man pages are made from:", text)
    return Help(about, usage, rows, rest, {})


def run_help(program: pathlib.Path, *words: str) -> str:
    ran = subprocess.run([program, *words, "--help"], capture_output=True, text=True, check=False)
    if ran.returncode:
        raise Fault(f"{program.name} {' '.join(words)} --help ended with status {ran.returncode}: {ran.stderr}")
    return ran.stdout


def all_helps(programs: Dict[str, bytes]) -> Dict[str, Help]:
    """The helps of programs, each run as it is installed; what they name below the prefix is named relative to it."""
    found = {}
    with tempfile.TemporaryDirectory(prefix="tirnouch-install-") as folder:
        at = pathlib.Path(folder).resolve() / "bin"
        at.mkdir()
        for name, data in programs.items():
            (at / name).write_bytes(data)
            (at / name).chmod(0o755)
        for name in programs:
            top = read_help(run_help(at / name).replace(f"{at.parent}/", ""), name)
            words = {it.name: read_help(run_help(at / name, it.name), name) for it in top.rows.get("Commands:", [])}
            found[name] = top._replace(words=words)
    return found
