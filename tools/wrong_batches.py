"""The wrong bodies of whole crates, some at a time: those that are in different functions stand in one copy of their crate, which the
prover checks once.

A check reads all libraries below its crate first, which takes longer than most functions do. So it is asked for all functions that the
edits of a batch change, and each edit is judged by what is said of its own one. One that isn't refused there, and one that changes more
than one function, is tried by itself (wrong_turn.py)."""
import os
import pathlib
import re
import shutil
import tempfile
import threading
from concurrent.futures import ThreadPoolExecutor
from typing import Callable, Dict, List, NamedTuple, Optional

import edits
import prover
import wrong_turn
from wrong_goals import ASIDE, AT, first_goal
from wrong_turn import REFUSED, Tried

# How many edits stand in one copy; how many processor seconds a check of them may take, and one of a single edit.
SIZE, MOST, MOST_OF_ONE = 7, 3000, 600.0
# A line of the prover: what it says of a function, but that it calls one that isn't proved; and where it refuses something.
NOT_PROVED = re.compile(r"fn (\S+): (?:not proved|no proof: (?!it calls))")
PLACE = re.compile(r"(?:note: )?(?:\./)?(\S+?):(\d+):\d+: ")

Texts = Dict[str, str]
Tell = Callable[[str, Tried], None]


class Site(NamedTuple):
    """The one function that an edit changes: its file, the how manieth it is there, its name, and its path as the prover has it."""

    file: str
    number: int
    name: str
    path: str


def lines_of(text: str, number: int) -> range:
    """The lines of a function, from 1, with those of its comments and attributes before it."""
    lines, begins = text.split("\n"), [text[: it.start()].count("\n") for it in edits.FUNCTION.finditer(text)] + [text.count("\n") + 1]
    for at in range(len(begins)):
        while begins[at] and lines[begins[at] - 1].lstrip().startswith(("///", "#[")):
            begins[at] -= 1
    return range(begins[number] + 1, begins[number + 1] + 1)


def function_at(text: str, place: int) -> int:
    """The how manieth function of a text, from 0, is the last that begins before a place; -1 where none does."""
    return sum(it.start() <= place for it in edits.FUNCTION.finditer(text)) - 1


def site_of(edit: pathlib.Path) -> Optional[Site]:
    """Where an edit changes one function of src alone, if it does."""
    crate, pairs = edits.CRATES / edit.parent.name, edits.pairs(edit)
    file = pairs[0].file
    if not file.startswith("src/") or any(it.file != file for it in pairs):
        return None
    text = (crate / file).read_text()
    if any(text.count(it.old) != 1 for it in pairs):
        return None
    begins = [text.index(it.old) for it in pairs]
    numbers = {function_at(text, place) for begin, it in zip(begins, pairs) for place in (begin, begin + len(it.old) - 1)}
    if len(numbers) != 1 or min(numbers) < 0:
        return None
    number = numbers.pop()
    return Site(file, number, list(edits.FUNCTION.finditer(text))[number][2], edits.places(edit, crate)[0])


def batches(sites: Dict[pathlib.Path, Site], size: int) -> List[List[pathlib.Path]]:
    """The edits of a crate in batches of about so many, no two of a batch in the same function."""
    by_function: Dict[tuple, List[pathlib.Path]] = {}
    for edit, site in sites.items():
        by_function.setdefault(site[:2], []).append(edit)
    count = max([-(-len(sites) // size), *map(len, by_function.values())], default=0)
    made: List[List[pathlib.Path]] = [[] for _ in range(count)]
    for found in sorted(by_function.values(), key=len, reverse=True):
        for batch, edit in zip(sorted(made, key=len), found):
            batch.append(edit)
    return [it for it in made if it]


def applied(batch: List[pathlib.Path], crate: pathlib.Path) -> Texts:
    """The texts of a crate's files with all of these edits that can be made one behind the other; the others are taken off the batch."""
    texts: Texts = {}
    for edit in list(batch):
        pairs = edits.pairs(edit)
        text = texts.get(pairs[0].file, (crate / pairs[0].file).read_text())
        for _, old, new in pairs:
            text = text.replace(old, new) if text.count(old) == 1 else ""
        if text:
            texts[pairs[0].file] = text
        else:
            batch.remove(edit)
    return texts


def is_of(line: str, site: Site, text: str) -> bool:
    """Whether a line of the prover is about this function, which stands in the text of its file, or about its proof."""
    found = PLACE.match(line)
    if not found:
        return False
    parts = found[1].split("/")
    if parts[0] == "proofs":
        owner, module = site.path.rpartition("::")[0], edits.module_of(site.file)
        is_near = found[1].startswith(f"proofs/{module.replace('::', '/')}/") if owner == module else owner in parts
        return len(parts) > 2 and parts[-2] == site.name and is_near
    return found[1] == site.file and int(found[2]) in lines_of(text, site.number)


def goal_of(lines: List[str], site: Site, texts: Texts) -> Optional[str]:
    """The goal at which a check of several edits refuses the one of a site, if it does."""
    told = [it for it in lines if AT.match(it) and ASIDE not in it and is_of(it, site, texts[site.file])]
    is_refused = any(found and found[1].endswith(f"::{site.name}") for found in map(NOT_PROVED.match, lines))
    return first_goal(told) if is_refused and told and not wrong_turn.cannot_read(told, texts) else None


class Trial:
    """The tries of some crates' edits: what checks share, and whom each outcome is told."""

    def __init__(self, folder: pathlib.Path, tell: Tell) -> None:
        self.folder, self.told, self.telling, self.purse = folder, tell, threading.Lock(), wrong_turn.Purse(float("inf"), MOST_OF_ONE)

    def tell(self, edit: pathlib.Path, it: Tried) -> None:
        """Tells what came of an edit, one behind the other."""
        with self.telling:
            self.told(wrong_turn.name_of(edit), it)

    def try_one(self, edit: pathlib.Path) -> None:
        """Tries an edit by itself."""
        self.tell(edit, wrong_turn.tried(edit, self.purse))

    def checked(self, crate: pathlib.Path, texts: Texts, paths: List[str]) -> wrong_turn.Checked:
        """What the prover says of some functions of a crate with these texts. What it admits is kept for the other checks of the crate."""
        with tempfile.TemporaryDirectory(dir=self.folder) as room:
            for part in edits.PARTS:
                if (crate / part).is_dir():
                    shutil.copytree(crate / part, pathlib.Path(room) / part)
            for file, text in texts.items():
                (pathlib.Path(room) / file).write_text(text)
            kept = self.folder / crate.name
            kept.mkdir(exist_ok=True)
            only = [word for path in paths for word in ("--only", path)]
            return wrong_turn.run([*prover.check_words(crate.name), "--incremental", str(kept), *only], pathlib.Path(room), MOST)

    def try_batch(self, batch: List[pathlib.Path], sites: Dict[pathlib.Path, Site]) -> None:
        """Tries some edits of one crate at once, and those by themselves of which that shows nothing."""
        crate, left = edits.CRATES / batch[0].parent.name, list(batch)
        texts = applied(batch, crate)
        it = self.checked(crate, texts, sorted({sites[edit].path for edit in batch}))
        is_told = it.status == 1 and it.lines[-1].startswith("only=")
        for edit in batch if is_told else []:
            goal = goal_of(it.lines, sites[edit], texts)
            if goal:
                self.tell(edit, Tried(REFUSED, goal, "", it.seconds / len(batch)))
                left.remove(edit)
        for edit in left:
            self.try_one(edit)


def try_crates(crates: List[str], tell: Tell) -> None:
    """Tries all edits of these crates, as many checks at a time as there are processors, and tells what came of each as it comes."""
    with tempfile.TemporaryDirectory(prefix="wrong-batches-") as room, ThreadPoolExecutor(os.cpu_count()) as pool:
        trial, begun = Trial(pathlib.Path(room), tell), []
        for crate in crates:
            found = sorted((edits.BESIDE / crate).glob("*.edit"))
            sites = {edit: site for edit in found if (site := site_of(edit))}
            begun += [pool.submit(trial.try_batch, batch, sites) for batch in batches(sites, SIZE)]
            begun += [pool.submit(trial.try_one, edit) for edit in found if edit not in sites]
        for it in begun:
            it.result()
