# SPDX-License-Identifier: BSD-2-Clause-Patent
"""Tests which goals tests/mutants accepts. A goal about a clause that says nothing of the outcome is refused, because no
body can break this clause. A wrong body would then be rejected only because the proof of the clause lacks a fact, and
would still be rejected if the clause that matters were deleted."""

from tests.checks import ROOT
from tests.frame import RoomCase
from tests.mutants.crates import files_of
from tests.mutants.edits import Change, Edit, applied, changed, files_of_edits, read_edit
from tests.mutants.functions import can_be_broken, functions
from tests.mutants.unnamed import NO_BODY, unnamed_in
from tests.sources.definitions import Clause

MADE = """
/// Puts a number.
pub fn put_number<S: Sink>(out: &mut S, number: u64) -> u8
    // The number is in decimal.
    ensures text { S.takes out.old (decimal number) out.new }
    ensures count { result ≡ length (decimal number) }
    ensures short { length (decimal number) ≤ 20 } // and not result
{
    loop {}
}

/// States a law.
pub fn law()
    ensures { (b : List ℕ) → IsBytes b }
{
}

impl Sink for Gap {
    fn put(&mut self, bytes: &[u8]) {
        loop {}
    }
}
"""


class Goals(RoomCase):
    """Which goals a wrong body may name."""

    def test_outcome(self) -> None:
        """A body can break a clause that names the result or a new state, and no other clause."""
        for text, is_of_outcome in (
            ("result ≡ 3", True),
            ("IfOk result (λ bytes. bytes ≡ [])", True),
            ("result.now ≡ 3", True),
            ("S.takes out.old (decimal number) out.new", True),
            ("self.new.1 ≡ self.old.1", True),
            ("has_erred(writer.new) ≡ true", True),
            ("IsReadExt self.now", False),
            ("bytes.old ≡ bytes.entry", False),
            ("depex_result f ≡ hob_result f", False),
            ("c.result ≡ result-of c", False),
            ("self.newer ≡ new", False),
        ):
            self.assertEqual(Clause("", "", True, text, True).is_of_outcome, is_of_outcome, text)

    def test_goals(self) -> None:
        """The clause is the one that the goal names, or else the only one. Other goals are accepted."""
        texts = {"src/made.rt": MADE}
        owners = {it.path.rpartition("::")[2]: it for it in functions("src/made.rt", texts)}
        for names, goal, is_accepted in (
            ("put_number", "returns-clause-text", True),
            ("put_number", "returns-then-is_empty-clause-count", True),
            ("put_number", "returns-clause-short", False),
            ("put_number", "put_number-returns-in-Ok-clause-short", False),
            ("put_number", "put_text-requires-clause-short", True),
            ("put_number", "loop-byte-preserved", True),
            ("put_number", "returns-then-number-eq0", True),
            ("law", "returns", False),
            ("law", "returns-then-is_empty", False),
            ("law put_number", "returns-clause-count", True),
            ("law put_number", "returns-clause-short", False),
            ("put", "returns-clause-short", True),
        ):
            with self.subTest(f"{names}: {goal}"):
                self.assertEqual(can_be_broken(goal, [owners[it] for it in names.split()], texts), is_accepted)

    def test_lines(self) -> None:
        """The lines that `rt ci` does not read are the same with `# ` before them, as in must-fail/."""
        for mark in ("", "# "):
            path = self.room / "made.edit"
            path.write_text(f"file: src/a.rt\nold: x\nnew: y\n{mark}goal: a::f returns-clause-ok\n{mark}answer: none\n")
            found = Edit(path, (Change("src/a.rt", "x", "y"),), "returns-clause-ok", "a::f", True)
            self.assertEqual(read_edit(path), found)

    def test_places(self) -> None:
        """A text that is in two functions is replaced in the function that the line `in:` names, and nowhere else."""
        path, texts = self.room / "made.edit", {"src/made.rt": MADE}
        first, second, third = MADE.split("    loop {}")
        for name, now in (
            ("", None),
            ("made::put_number", f"{first}    length(out){second}    loop {{}}{third}"),
            ("made::GapSink::put", f"{first}    loop {{}}{second}    length(out){third}"),
            ("made::law", None),
            ("made::no_function", None),
        ):
            with self.subTest(name):
                line = f"in: {name}\n" if name else ""
                path.write_text(f"file: src/made.rt\n{line}old:     loop {{}}\nnew:     length(out)\ngoal: returns\n")
                edit = read_edit(path)
                self.assertEqual([it.path for it in changed(edit, texts) or []], [name] if now else [])
                self.assertEqual(applied(edit.changes, texts), {"src/made.rt": now} if now else None)

    def test_edits(self) -> None:
        """Each wrong body of the repository can be applied and names a goal that a body can break, also each that `rt ci`
        tries."""
        for folder in sorted(ROOT.glob("crates/*/mutants")):
            crate = folder.parent
            texts = files_of(crate)
            paths = {it.path: it for file in texts if file.startswith("src/") for it in functions(file, texts)}
            for path in files_of_edits(crate):
                with self.subTest(f"{crate.name}/{path.stem}"):
                    edit = read_edit(path)
                    owners = [paths[edit.of]] if edit.of else changed(edit, texts) or []
                    self.assertIsNotNone(applied(edit.changes, texts))
                    self.assertTrue(edit.goal)
                    self.assertTrue(can_be_broken(edit.goal, owners, texts), edit.goal)

    def test_clauses(self) -> None:
        """Each clause of a public function that a body can break is in the goal of a wrong body. NO_BODY has no clause
        that is in a goal."""
        crates = [it.parent.name for it in ROOT.glob("crates/*/mutants")]
        lacking = [f"{crate}: {it}" for crate in crates for it in unnamed_in(crate, {})[0]]
        self.assertEqual(sorted(set(lacking) - NO_BODY.keys()), [])
        self.assertEqual(sorted(NO_BODY.keys() - set(lacking)), [])
