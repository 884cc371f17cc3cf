# SPDX-License-Identifier: BSD-2-Clause-Patent
"""Finds the `ensures` clauses of public functions that no edit's goal names."""

import collections
import os
import re
from collections.abc import Container

from tests.checks import ROOT
from tests.mutants.crates import files_of
from tests.mutants.edits import changed, files_of_edits, read_edit
from tests.mutants.functions import functions, promises
from tests.sources.definitions import calls

# Why no body breaks a clause about an outcome.
ONE_VALUE = "a body has only one value of this type and lifetime"
OWN_FIELD = "the body is one line, which returns its own field, as the clause says"
BOUND = "it bounds a number that the body does not make"
TRAIT = "a method of a trait has no body here, and the edits change its impls"
# These clauses: the crate, the file, the function and the clause, as `--unnamed` writes them.
NO_BODY = {
    "fv_base: port.rt: Port::new: inner": ONE_VALUE,
    "fv_base: port.rt: Port::with_room: inner": ONE_VALUE,
    "fv_base: port.rt: Port::into_inner: (a clause without a name)": ONE_VALUE,
    "fv_base: sink.rt: WriteSink::new: same_port": ONE_VALUE,
    "fv_base: sink.rt: WriteSink::outcome: small": BOUND,
    "fv_canon: laid_volume.rt: LaidVolume::layout: (a clause without a name)": OWN_FIELD,
    "fv_command: opener.rt: Opener::file_at: (a clause without a name)": TRAIT,
    "fv_command: opener.rt: Opener::standard_input: (a clause without a name)": TRAIT,
    "fv_compare: compare.rt: put_comparison: short": BOUND,
    "fv_head: head.rt: VolumeHead::blocks: (a clause without a name)": ONE_VALUE,
    "fv_hob: hob.rt: Hob::kind: kind": ONE_VALUE,
    "fv_names: named.rt: Named::name: (a clause without a name)": TRAIT,
    "fv_names: named.rt: Named::is_marked: (a clause without a name)": TRAIT,
    "fv_names: named.rt: WithName::name: (a clause without a name)": TRAIT,
    "fv_rows: digests.rt: Digests::next_digest: digest": TRAIT,
    "fv_rows: digests.rt: Digests::next_digest: left": TRAIT,
    "fv_rows: tree_walk.rt: parts_in: few": BOUND,
    "fv_text: lent_sink.rt: LentSink::new: name": ONE_VALUE,
}


def named_in(crate: str, texts: dict[str, str]) -> dict[str, set[str]]:
    """Returns the clauses that the goals of a crate's edits name, by the paths of their functions. Each edit of a
    function counts as naming its only clause, which has no name here. The clauses of a trait's function are by its name:
    the edits change the methods of the trait's `impl`s."""
    named = collections.defaultdict[str, set[str]](set)
    for edit in map(read_edit, files_of_edits(ROOT / "crates" / crate)):
        clause = re.search(r"clause-([\w-]+)$", edit.goal)
        owners = changed(edit, texts) or []
        of_traits = [it.path.rpartition("::")[2] for it in owners if not promises(it, texts)]
        for path in [*(it.path for it in owners), *of_traits, edit.of]:
            named[path].add(clause[1] if clause else "")
    return named


def unnamed_in(crate: str, known: Container[str] = NO_BODY) -> tuple[list[str], int]:
    """Returns the clauses of a crate that no edit's goal names, and the number of clauses. Both leave out the clauses that
    say nothing of the outcome, and those that are known to have no wrong body."""
    os.chdir(ROOT)
    texts, count, lacking = files_of(ROOT / "crates" / crate), 0, list[str]()
    named = named_in(crate, texts)
    paths = {(it.file, it.first): it.path for file in texts if file.startswith("src/") for it in functions(file, texts)}
    for call in calls(crate):
        file = call.path.removeprefix(f"crates/{crate}/")
        edits = named[paths.get((file, texts[file].count("\n", 0, call.start)), call.name)]
        ensured = [it for it in call.clauses if it.is_ensured]
        clauses = [it.name for it in ensured if it.is_of_outcome]
        place = f"{file.removeprefix('src/')}: {call.owner + '::' if call.owner else ''}{call.name}"
        count += len(clauses)
        lacking += [
            f"{place}: {it or '(a clause without a name)'}"
            for it in clauses
            if it not in edits and (len(ensured) > 1 or not edits)
        ]
    left = [it for it in lacking if f"{crate}: {it}" not in known]
    return left, count - len(lacking) + len(left)


def list_unnamed(crates: list[str]) -> int:
    """Lists the clauses that no edit's goal names. Returns the exit status."""
    every, left = 0, 0
    for crate in crates:
        lacking, count = unnamed_in(crate)
        lines = [f"mutants: {crate}: {len(lacking)} of {count} clauses are in no edit's goal"]
        print("\n".join([*lines, *(f"    {it}" for it in lacking)]))
        every, left = every + count, left + len(lacking)
    print(f"mutants: {left} of {every} clauses of public functions that a body can break are in no edit's goal")
    return 0
