#!/usr/bin/env python3
"""Tries what tools/wrong_bodies.py says of edits: tools/wrong_bodies_test.py. The prover is a script; it takes seconds."""
import contextlib
import io
import pathlib
import sys
import tempfile
import unittest
from typing import Tuple

sys.path.insert(0, str(pathlib.Path(__file__).resolve().parent))
import edits
import wrong_batches
import wrong_bodies
import wrong_goals
import wrong_turn

SOURCE = """struct Line;

impl Line {
    /// Its end.
    pub fn end(&self) -> u8 {
        3
    }
}

/// By itself.
#[inline(never)]
fn alone() -> u8 {
    4
}
"""
EDIT = "file: src/line.rt\nold:         3\nnew:         5\n"
REFUSED = ["fn low::line::Line::end: no proof", "note: src/line.rt:5:5: it is not proved that it holds (`value`); the facts", "only=2 proved=1"]


class Crates(unittest.TestCase):
    """Edits of a crate that is made for it."""

    def setUp(self) -> None:
        folder = tempfile.TemporaryDirectory(prefix="wrong-bodies-")
        self.addCleanup(folder.cleanup)
        self.root = pathlib.Path(folder.name)
        self.crate = self.root / "crates" / "low"
        for name, path in (("CRATES", self.root / "crates"), ("BESIDE", self.root / "tools" / "wrong_bodies")):
            self.addCleanup(setattr, edits, name, getattr(edits, name))
            setattr(edits, name, path)
        for it in (self.crate / "src", self.crate / "must-fail", edits.BESIDE / "low"):
            it.mkdir(parents=True)
        (self.crate / "src" / "line.rt").write_text(SOURCE)

    def edit(self, text: str, name: str = "wrong.edit") -> pathlib.Path:
        path = self.crate / "must-fail" / name
        path.write_text(text)
        return path

    def why(self, text: str) -> str:
        return edits.misfit(self.edit(text), self.crate) or ""


class Fits(Crates):
    """Which edits can be applied."""

    def told(self) -> Tuple[int, str]:
        out = io.StringIO()
        places = wrong_bodies.ROOT, wrong_bodies.PLANTS
        wrong_bodies.ROOT, wrong_bodies.PLANTS = self.root, self.root / "tools" / "plants"
        try:
            with contextlib.redirect_stdout(out):
                status = wrong_bodies.fit()
        finally:
            wrong_bodies.ROOT, wrong_bodies.PLANTS = places
        return status, out.getvalue()

    def test_one_of_the_gate_that_fits_is_counted(self) -> None:
        self.edit(EDIT)
        status, told = self.told()
        self.assertEqual(status, 0)
        self.assertIn("1 wrong bodies of the gate fit their files, 0 don't\n", told)
        self.assertIn("0 wrong bodies beside the gate fit their files, 0 don't\n", told)

    def test_one_of_the_gate_that_fits_no_more_fails(self) -> None:
        self.edit(EDIT.replace("3", "7"))
        status, told = self.told()
        self.assertEqual(status, 1)
        self.assertIn("crates/low/must-fail/wrong.edit: its old text stands 0 times in src/line.rt of low\n", told)

    def test_one_beside_the_gate_that_fits_no_more_fails(self) -> None:
        (edits.BESIDE / "low" / "wrong.edit").write_text(EDIT.replace("line.rt", "other.rt"))
        status, told = self.told()
        self.assertEqual(status, 1)
        self.assertIn("tools/wrong_bodies/low/wrong.edit: there is no src/other.rt in low\n", told)

    def test_what_the_gate_passes_over_fails(self) -> None:
        self.edit(EDIT, "wrong.txt")
        (self.crate / "must-fail" / "README.md").write_text("why\n")
        status, told = self.told()
        self.assertEqual(status, 1)
        self.assertIn("crates/low/must-fail/wrong.txt: the gate passes over it", told)
        self.assertNotIn("README", told)

    def test_an_edit_changes_something_in_its_crate(self) -> None:
        self.assertEqual(self.why("file: src/line.rt\n"), "it changes nothing")
        self.assertEqual(self.why(EDIT.replace("5", "3")), "it changes nothing")
        self.assertEqual(self.why("old: 3\nnew: 4\n"), "a new text without a file or an old one")
        self.assertEqual(self.why(EDIT.replace("src/", "src/../src/")), "src/../src/line.rt isn't below src, specs or proofs")

    def test_a_text_stands_once_behind_the_pairs_before_it(self) -> None:
        self.assertEqual(self.why(EDIT + "old:         5\nnew:         6\n"), "")
        twice = EDIT.replace("        3", "u8").replace("        5", "u16")
        self.assertEqual(self.why(twice), "its old text stands 2 times in src/line.rt of low")


class Turns(Crates):
    """Whose turn it is, and what a check shows."""

    def test_a_commit_has_its_turn(self) -> None:
        found = [pathlib.Path(f"low/edit_{number}.edit") for number in range(1001)]
        chosen = wrong_turn.turn("one", found)
        self.assertEqual(len(chosen), 51)
        self.assertEqual(chosen, wrong_turn.turn("one", list(reversed(found))))
        self.assertNotEqual(set(chosen), set(wrong_turn.turn("another", found)))

    def test_a_refusal_is_looked_for_where_the_edit_is(self) -> None:
        self.assertEqual(edits.places(self.edit(EDIT), self.crate), ["Line::end", "line", ""])
        alone = self.edit("file: src/line.rt\nold:     4\nnew:     5\n")
        self.assertEqual(edits.places(alone, self.crate), ["line::alone", "line", ""])

    def test_no_more_is_lent_than_is_left(self) -> None:
        purse = wrong_turn.Purse(wrong_turn.MOST + wrong_turn.LEAST)
        self.assertEqual([purse.lend(), purse.lend()], [wrong_turn.MOST, wrong_turn.LEAST])
        purse.give_back(wrong_turn.MOST, wrong_turn.MOST)
        purse.give_back(wrong_turn.LEAST, 1)
        self.assertEqual(purse.lend(), 0)

    def turned(self, *came: wrong_turn.Tried) -> int:
        """The status of a turn in which this came of its edits."""
        def try_turn(chosen: list, seconds: float, tell: "wrong_turn.Callable") -> None:
            for edit, it in zip(chosen, came):
                tell(wrong_turn.name_of(edit), it)

        before, wrong_turn.try_turn = wrong_turn.try_turn, try_turn
        try:
            with contextlib.redirect_stdout(io.StringIO()):
                chosen = [pathlib.Path(f"low/edit_{at}.edit") for at in range(len(came))]
                report = wrong_bodies.Report(False)
                return wrong_bodies.over_libraries([], report, lambda: wrong_turn.try_turn(chosen, wrong_turn.BUDGET, report.tell))
        finally:
            wrong_turn.try_turn = before

    def test_a_turn_fails_where_an_edit_is_proved_or_bad(self) -> None:
        refused = wrong_turn.Tried(wrong_turn.REFUSED, "src/line.rt: it returns", "", 20.0)
        unknown = wrong_turn.Tried(wrong_turn.UNKNOWN, None, "no processor time is left", 0.0)
        proved, bad = (refused._replace(word=it, goal=None, why="why") for it in (wrong_turn.PROVED, wrong_turn.BAD))
        for came in [(refused, unknown), (unknown, unknown)]:
            self.assertEqual(self.turned(*came), 0)
        for came in [(refused, proved), (refused, bad), (unknown, proved)]:
            self.assertEqual(self.turned(*came), 1)

    def test_a_check_is_ended_where_its_time_is_spent(self) -> None:
        it = wrong_turn.run(["sh", "-c", "while :; do :; done"], self.root, 1)
        self.assertLess(it.status, 0)
        self.assertEqual(wrong_turn.judged(it, {}, 1)[0], wrong_turn.UNKNOWN)

    def test_what_a_check_shows(self) -> None:
        def judged(status: int, *lines: str) -> "tuple":
            return wrong_turn.judged(wrong_turn.Checked(list(lines), status, 1.0), {"src/line.rt": ""}, 9)

        self.assertEqual(judged(0, "only=2 proved=2")[0], wrong_turn.PROVED)
        self.assertEqual(judged(1, *REFUSED)[:2], (wrong_turn.REFUSED, "src/line.rt: it is not proved that it holds (`value`)"))
        self.assertEqual(judged(1, "src/line.rt:6:9: error: `x` is not in scope", "only=2 proved=1")[0], wrong_turn.BAD)
        self.assertEqual(judged(1, "error[unknown-name]: no `x` here")[0], wrong_turn.BAD)
        self.assertEqual(judged(2, "error: `--only Line::end` fits no function")[0], wrong_turn.UNKNOWN)


class Batches(Crates):
    """Several edits in one check."""

    ALONE = EDIT.replace("        3", "    4").replace("        5", "    6")
    SAID = ["fn low::line::Line::end: no proof: `search` did not prove `value`", "note: src/line.rt:5:5: it is not proved that it holds (`value`)",
            "note: src/line.rt:11:1: it is not proved that it returns (`returns`)", "fn low::line::alone: not proved", "only=2 proved=0"]

    def beside(self, name: str, text: str) -> pathlib.Path:
        path = edits.BESIDE / "low" / f"{name}.edit"
        path.write_text(text)
        return path

    def tried(self, status: int, *said: str) -> "tuple":
        """What is told of two edits where a check of both ends so, and which of them are tried by themselves."""
        told, alone, room = {}, [], self.root / "kept"
        room.mkdir()
        for name, text in (("end", EDIT), ("alone", self.ALONE)):
            self.beside(name, text)
        trial = wrong_batches.Trial(room, lambda name, it: told.update({name: it.goal}))
        trial.checked = lambda crate, texts, paths: wrong_turn.Checked(list(said), status, 8.0)
        trial.try_one = lambda edit: alone.append(edit.stem)
        found = sorted((edits.BESIDE / "low").glob("*.edit"))
        trial.try_batch(found, {it: wrong_batches.site_of(it) for it in found})
        return told, alone

    def test_an_edit_is_of_the_function_that_it_changes(self) -> None:
        self.assertEqual(wrong_batches.site_of(self.beside("end", EDIT)), ("src/line.rt", 0, "end", "Line::end"))
        self.assertEqual(wrong_batches.site_of(self.beside("alone", self.ALONE)), ("src/line.rt", 1, "alone", "line::alone"))
        self.assertIsNone(wrong_batches.site_of(self.beside("both", EDIT + self.ALONE.partition("\n")[2])))
        self.assertIsNone(wrong_batches.site_of(self.beside("type", EDIT.replace("        3", "struct Line;"))))

    def test_no_two_of_a_batch_are_in_one_function(self) -> None:
        sites = {pathlib.Path(f"{name}{at}"): wrong_batches.Site("src/line.rt", name, "", "") for name in range(3) for at in range(name + 2)}
        for size in (1, 2, 9):
            made = wrong_batches.batches(sites, size)
            self.assertEqual(sorted(it for batch in made for it in batch), sorted(sites))
            for batch in made:
                self.assertEqual(len({sites[it] for it in batch}), len(batch))
        self.assertEqual(wrong_batches.batches({}, 7), [])

    def test_each_edit_of_a_check_has_its_own_goal(self) -> None:
        told, alone = self.tried(1, *self.SAID)
        self.assertEqual(told, {"low/end": "src/line.rt: it is not proved that it holds (`value`)",
                                "low/alone": "src/line.rt: it is not proved that it returns (`returns`)"})
        self.assertEqual(alone, [])

    def test_an_edit_of_which_a_check_says_nothing_is_tried_by_itself(self) -> None:
        calls = self.SAID[3].replace("not proved", "no proof: it calls `low::line::Line::end`, which is not proved")
        told, alone = self.tried(1, *self.SAID[:3], calls, self.SAID[4])
        self.assertEqual((set(told), alone), ({"low/end"}, ["alone"]))

    def test_each_is_tried_by_itself_where_a_check_has_no_end(self) -> None:
        self.assertEqual(self.tried(3, *self.SAID), ({}, ["alone", "end"]))

    def test_proofs_are_of_their_function(self) -> None:
        site = wrong_batches.site_of(self.beside("end", EDIT))
        for place, is_of in (("line/Line/end", True), ("other/Line/end", True), ("line/Other/end", False), ("line/Line/begin", False)):
            self.assertEqual(wrong_batches.is_of(f"./proofs/{place}/Answers.antt:6:26: error: `value`: no", site, SOURCE), is_of)


class Goals(unittest.TestCase):
    """By which goal an edit is refused, and was before."""

    def kept(self, **known: str) -> wrong_goals.Kept:
        it = wrong_goals.Kept()
        it.known = known
        return it

    def test_a_goal_is_the_same_wherever_its_line_stands(self) -> None:
        one, other = (wrong_goals.goal_of(f"note: ./src/line.rt:{at}: it is not proved that {'so ' * 60}") for at in ("9:9", "1234:10"))
        self.assertEqual(one, other)

    def test_a_goal_is_known_by_its_name(self) -> None:
        error = "./proofs/words/fields/Answers.antt:6:26: error: `returns-clause-known`: `search`: no proof of `(a < b)`"
        self.assertEqual(wrong_goals.goal_of(error), "proofs/words/fields/Answers.antt: `returns-clause-known`")
        note = "note: src/words.rt:87:5: it is not proved that it holds (`returns-clause-value`); the facts known there allow values"
        self.assertEqual(wrong_goals.goal_of(note), "src/words.rt: it is not proved that it holds (`returns-clause-value`)")
        self.assertTrue(wrong_goals.are_same(wrong_goals.goal_of(note), wrong_goals.goal_of(note[:70])))

    def test_another_goal_is_told(self) -> None:
        kept = self.kept(a="src/line.rt: it is not proved that it returns")
        self.assertIsNone(kept.difference("a", "src/line.rt: it is not proved that it returns (`name`)"))
        self.assertIsNone(kept.difference("b", "src/line.rt: anything"))
        self.assertEqual(kept.difference("a", "proofs/Line.antt: `end` is not in scope"),
                         "refused by proofs/Line.antt: `end` is not in scope, and before by src/line.rt: it is not proved that it returns")

    def test_a_refusal_by_another_goal_is_wrong_unless_it_is_kept(self) -> None:
        line = "rt: must-fail low/wrong.edit: refused, as it must be: ./proofs/Line.antt:6:26: error: `end`: no proof\n"
        for keeps in (False, True):
            report = wrong_bodies.Report(keeps)
            report.kept = self.kept(**{"low/wrong": "src/line.rt: it returns"})
            with contextlib.redirect_stdout(io.StringIO()):
                wrong_bodies.read_try(line, report)
            self.assertEqual((report.counts["refused"], report.wrong), (1, 0 if keeps else 1))

    def test_every_goal_that_is_kept_is_of_an_edit(self) -> None:
        self.assertEqual(set(wrong_goals.read()) - {wrong_turn.name_of(it) for it in wrong_bodies.beside()}, set())


if __name__ == "__main__":
    unittest.main()
