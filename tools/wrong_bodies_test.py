"""Tries wrong_bodies.py on a crate of four functions, with edits of which some must not pass (a minute).

    wrong_bodies_test.py      uses the command that RT names, or rt
"""

import pathlib
import shutil
import subprocess
import sys
import tempfile
import unittest

import body_edits
import body_report
import rattle_source
import wrong_bodies

TOOL = pathlib.Path(__file__).resolve().parent / "wrong_bodies.py"

SOURCE = """\
//! Four functions that give their number.
#![tactic(auto)]

ghost use Rattle.std.specs.Prelude.{◌≡◌};

/// The number. fn quoted() { stands in a comment.
pub fn first(x: u8) -> u8
    ensures { result ≡ x }
{
    let first = x;
    first
}

/// The number.
pub fn second(x: u8) -> u8
    ensures { result ≡ x }
{
    // This is the number.
    let second = x;
    second
}

/// The number, by way of the first function.
pub fn third(x: u8) -> u8
    ensures { result ≡ x }
{
    // A call.
    let third = first(x);
    third
}

/// The number.
pub fn fourth(x: u8) -> u8
    ensures { result ≡ x }
{
    let fourth = x;
    fourth
}
"""

EDITS = {
    "gives_another": ("let first = x;", "let first = x ^ 1;"),
    "gives_zero": ("let first = x;", "let first = 0;"),
    "changes_a_comment": ("// This is the number.", "// The number."),
    "changes_a_callers_comment": ("// A call.", "// This calls."),
    "caller_gives_another": ("let third = first(x);", "let third = first(x) ^ 1;"),
    "does_not_read": ("let fourth = x;", "let fourth = y;"),
    "stands_nowhere": ("let fifth = x;", "let fifth = 0;"),
}


def make_repository(root):
    crate = root / "crates" / "sample"
    for folder in ("src", "specs", "proofs", "wrong-bodies"):
        (crate / folder).mkdir(parents=True)
    (root / "crates.txt").write_text("sample:\n")
    (crate / "src" / "lib.rt").write_text(SOURCE)
    for folder in ("specs", "proofs"):
        (crate / folder / "Lib.antt").write_text("")
    for name, (old, new) in EDITS.items():
        (crate / "wrong-bodies" / f"{name}.edit").write_text(f"file: src/lib.rt\nold: {old}\nnew: {new}\n")
    return crate


class WrongBodies(unittest.TestCase):
    def setUp(self):
        room = tempfile.TemporaryDirectory(prefix="wrong-bodies-test-")
        self.addCleanup(room.cleanup)
        self.root = pathlib.Path(room.name)
        self.crate = make_repository(self.root)

    def run_tool(self, *words):
        ran = subprocess.run([sys.executable, TOOL, "--root", self.root, *words], capture_output=True, text=True)
        return ran.returncode, ran.stdout + ran.stderr

    def test_no_check_has_two_edits_of_one_function(self):
        texts = body_edits.sources(self.crate)
        edits = [it for it in body_edits.read(self.crate)[0] if it.name != "stands_nowhere.edit"]
        groups = [{it.name.removesuffix(".edit") for it in group} for group in body_edits.grouped(edits, texts)]
        self.assertEqual((len(groups), sum(map(len, groups))), (2, 6), groups)
        for first, second in [("gives_another", "gives_zero"), ("caller_gives_another", "changes_a_callers_comment")]:
            self.assertFalse(any({first, second} <= it for it in groups), f"{first}, {second}: {groups}")

    def test_a_clause_is_no_body(self):
        at = SOURCE.index("{ result")
        self.assertIsNone(rattle_source.function_at(SOURCE, "src/lib.rt", at, at + 8))
        at = SOURCE.index("let third")
        self.assertEqual(rattle_source.function_at(SOURCE, "src/lib.rt", at, at + 8).name, "third")

    def test_a_report_speaks_of_a_function_by_its_own_goals_alone(self):
        first, third = (rattle_source.Function("src/lib.rt", "", "", it) for it in ("first", "third"))
        texts = body_edits.sources(self.crate)
        report = (
            "note: src/lib.rt:7:1: it is not proved that what the function ensures holds when it returns (`returns`)\n"
            "fn sample::first: no proof: expected answers in ./proofs/first/Answers.antt; "
            "`search` did not prove `returns`\n"
            "fn sample::third: no proof: it calls `sample::first`, which is not proved\n"
            "logic=not-proved\n"
        )
        self.assertTrue(body_report.why_refused({first}, report, texts))
        self.assertIsNone(body_report.why_refused({third}, report, texts))
        own = report.replace("third: no proof: it calls", "third: no proof: `search` did not prove `returns`; it calls")
        self.assertTrue(body_report.why_refused({third}, own, texts))
        lost = "./proofs/third/Answers.antt:3:4: error: `returns`: record `Lts` has no field `first`\n"
        lost += "fn sample::third: not proved\n"
        self.assertIsNone(body_report.why_refused({third}, lost, texts))

    def test_what_is_let_through_and_what_is_bad_is_named(self):
        (self.crate / "wrong-bodies" / "changes_a_callers_comment.edit").unlink()
        status, said = self.run_tool()
        self.assertEqual(status, 1, said)
        self.assertIn("sample/changes_a_comment.edit: NOT REFUSED", said)
        for name in ("does_not_read", "stands_nowhere"):
            self.assertIn(f"sample/{name}.edit: BAD EDIT", said)
        self.assertEqual(said.split("\n")[-2], "3 passed, 3 failed", said)
        self.assertEqual((self.root / "tools" / "wrong_bodies.tried").read_text(), "")

    def test_a_check_of_a_wrong_body_leaves_what_was_kept_as_it_is(self):
        crate = wrong_bodies.crates_of(self.root)["sample"]
        self.assertTrue(wrong_bodies.is_proved(crate, True, 1))
        kept = self.contents_of(self.crate / wrong_bodies.KEPT)
        wrong = SOURCE.replace("let first = x;", "let first = 0;")
        status, said = wrong_bodies.checked(crate, {"src/lib.rt": wrong})
        self.assertEqual(status, 1, said)
        self.assertTrue(kept)
        self.assertEqual(self.contents_of(self.crate / wrong_bodies.KEPT), kept)

    def contents_of(self, folder):
        return {str(it): it.read_bytes() for it in folder.rglob("*") if it.is_file()}

    def test_nothing_is_tried_above_a_crate_that_is_not_proved(self):
        (self.root / "crates.txt").write_text("sample:\nupper: sample\n")
        shutil.copytree(self.crate, self.root / "crates" / "upper")
        source = self.crate / "src" / "lib.rt"
        source.write_text(SOURCE.replace("let fourth = x;", "let fourth = 0;"))
        status, said = self.run_tool()
        self.assertEqual(status, 1, said)
        self.assertIn("sample: NOT PROVED", said)
        self.assertIn("sample: 5 wrong bodies NOT TRIED", said)
        self.assertIn("upper: 6 wrong bodies NOT TRIED", said)
        self.assertEqual(said.split("\n")[-2], "0 passed, 14 failed", said)

    def changed_by(self, file, old, new):
        """The crates whose edits are to be tried once the text stands in the file in place of the old one."""
        before = file.read_text()
        self.assertIn(old, before)
        file.write_text(before.replace(old, new, 1))
        found = wrong_bodies.chosen(wrong_bodies.words_of(["--changed", "--root", str(self.root)]))
        file.write_text(before)
        return [it.name for it in found]

    def keep_digests(self):
        """Writes what a run writes once all edits of each crate were refused, of which none is bad."""
        for file in self.root.glob("crates/*/wrong-bodies/stands_nowhere.edit"):
            file.unlink()
        (self.root / "tools").mkdir()
        digests = {name: it.digest() for name, it in wrong_bodies.crates_of(self.root).items()}
        (self.root / "tools" / "wrong_bodies.tried").write_text("".join(f"{it} {digests[it]}\n" for it in digests))

    def test_a_crate_is_tried_again_once_a_file_of_it_changes(self):
        source = self.crate / "src" / "lib.rt"
        source.write_text(f"{SOURCE}\n#[cfg(test)]\nmod tests;\n")
        (self.crate / "src" / "tests.rt").write_text("//! Tests.\n")
        self.keep_digests()
        self.assertEqual(self.changed_by(source, "x;", "x;"), [])
        for file, old, new in [
            (source, "let second = x;", "let second = { x };"),
            (self.crate / "specs" / "Lib.antt", "", "mod Numbers\n"),
            (self.crate / "proofs" / "Lib.antt", "", "mod Numbers\n"),
            (self.crate / "wrong-bodies" / "gives_zero.edit", "= 0", "= 1"),
        ]:
            self.assertEqual(self.changed_by(file, old, new), ["sample"], file)
        self.assertEqual(self.changed_by(self.crate / "src" / "tests.rt", "Tests", "Other tests"), [])

    def test_a_comment_or_a_test_makes_no_crate_be_tried_again(self):
        source = self.crate / "src" / "lib.rt"
        source.write_text(SOURCE.replace("// This is the number.", ""))
        (self.crate / "wrong-bodies" / "changes_a_comment.edit").unlink()
        self.keep_digests()
        self.assertEqual(self.changed_by(source, "/// The number.", "/// The same number."), [])
        self.assertEqual(self.changed_by(self.crate / "proofs" / "Lib.antt", "", "-- No proofs.\n"), [])
        self.assertEqual(self.changed_by(source, "pub fn first", "#[cfg(test)]\nmod tests;\n\npub fn first"), [])
        self.assertEqual(self.changed_by(source, "// A call.", "// It calls."), ["sample"], "an edit applies no more")

    def test_of_the_crates_below_contracts_and_definitions_count(self):
        upper = self.root / "crates" / "upper"
        shutil.copytree(self.crate, upper)
        (self.root / "crates.txt").write_text("sample:\nupper: sample\n")
        self.keep_digests()
        source = self.crate / "src" / "lib.rt"
        self.assertEqual(self.changed_by(source, "let second = x;", "let second = { x };"), ["sample"])
        self.assertEqual(self.changed_by(source, "second(x: u8)", "second(x: u16)"), ["sample", "upper"])
        hidden = "fn hidden(x: u8) {}\n\npub fn second(x: u8)"
        self.assertEqual(self.changed_by(source, "pub fn second(x: u8)", hidden), ["sample"])
        self.assertEqual(self.changed_by(self.crate / "specs" / "Lib.antt", "", "mod Numbers\n"), ["sample", "upper"])
        self.assertEqual(self.changed_by(self.crate / "proofs" / "Lib.antt", "", "mod Numbers\n"), ["sample"])


if __name__ == "__main__":
    unittest.main()
