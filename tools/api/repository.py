"""Where things stand in this repository, which crates have a page, and what is told when something can't be read."""
import pathlib

ROOT = pathlib.Path(__file__).resolve().parent.parent.parent
CRATES = ROOT / "crates"
DOC = ROOT / "doc"

# The crates that have a page, by what they are for; and what their names match. A crate is of the first that fits.
ROLES = [
    ("What a driver's author calls", "tirnouch"),
    ("The program usbtrace, and its parts", "usbtrace|trace_main|trace_.*"),
    ("The crates of the library", "usb_.*"),
    ("The plain program, which runs the definitions", "plain_.*"),
    ("Examples, to be copied", "example_.*"),
    ("Laws and lemmas, which have no code", "proof_.*"),
]
# The order in which the roles are shown.
ROLE_ORDER = [0, 2, 1, 3, 4, 5]


class BadSource(Exception):
    """Something in a file that can't be read, or shown."""

    def __init__(self, path, line, what):
        super().__init__(f"{path.relative_to(ROOT)}:{line}: {what}")


class Tally:
    """What was written, what was found wrong, and which public functions were read and shown, by file and line."""

    def __init__(self):
        self.pages = self.items = self.clauses = self.ghosts = self.links = self.unlinked = 0
        self.faults = []
        self.functions_read = set()
        self.functions_shown = set()

    def report(self, fault):
        """Keeps a fault, once."""
        if str(fault) not in self.faults:
            self.faults.append(str(fault))

    def print_counts(self, unreachable):
        """What was written, and what was left out."""
        print(f"{self.pages} pages in doc/: {self.items} items, {self.clauses} clauses, {self.ghosts} ghosts, {self.links} links")
        print(f"left out: {unreachable} public functions that can't be reached from outside their crates; "
              f"{self.unlinked} words of clauses and definitions lead nowhere, since they name a type that can't")

    def status(self):
        """Prints the faults, if there are any; the status of the command."""
        for fault in self.faults:
            print(fault)
        if self.faults:
            print(f"wrong: {len(self.faults)}")
        return 1 if self.faults else 0


def crate_names():
    """All crates, in the order of crates.txt, lowest first."""
    lines = (ROOT / "crates.txt").read_text(encoding="utf-8").splitlines()
    listed = [line.split(":")[0].split()[0] for line in lines if line and not line.startswith("#")]
    return listed + sorted(path.name for path in CRATES.iterdir() if path.is_dir() and path.name not in listed)
