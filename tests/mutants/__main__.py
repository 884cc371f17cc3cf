# SPDX-License-Identifier: BSD-2-Clause-Patent
"""mutants [CRATE|CRATE/EDIT..]: tries the wrong bodies in mutants/ and must-fail/ of crates/NAME, many in each check.
The prover must reject every one, at the goal that the edit names.

An edit has the form of a must-fail edit, with one or two further lines:

    file: src/FILE.rt
    old: A TEXT THAT IS ONCE IN THE FILE
    new: WHAT REPLACES IT
    goal: NAME
    answer: none

NAME is the goal as the checker prints it in backquotes, for example `returns-clause-found`. It must belong to a
function that the edit changes. A line `goal: MODULE::FUNCTION NAME` names the function too: an edit of a constant needs
this, and is tried on its own. Several pairs of old and new are one edit. In must-fail/ the two further lines begin with
`# `: `rt ci` does not read them, and accepts any goal at which it rejects the edit.

A line `in: MODULE::FUNCTION` after the line `file:` names the function that the old texts after it are in. Each of them
must then be in this function exactly once, and may be in other functions of the file too. must-fail/ has no such line,
because `rt ci` does not read it.

The goal must not belong to a clause that says nothing of the outcome: a clause that names neither `result` nor a new
state, for example `out.new`. No body can break such a clause. The prover rejects the edit only if its proof of the
clause needs the right body, and would still reject it without the clause that matters.

Many edits share a check (docs/DECISIONS.md, The gate's time). All that the edits do not change is given and not proved
again: the theorems of the other functions, the lemmas of the crate, and all goals of a changed function except the goal
that its edit names. This can only let the checker prove more, so an edit that is rejected would be rejected without it.

The goals that have answers are read from the proof files. Each edit has a line with the goals without an answer in
crates/NAME/mutants/goals.txt. An edit without a line takes one further check, which comes first, does not search
(`#![tactic(none)]`) and lists these goals. If a line is out of date, a goal that it lacks is searched for, and a goal
that no longer exists is not given.

A new edit gets the whole search that Rattle makes for any function, which takes up to a minute if no proof exists. It
gets its line in goals.txt only if no proof is found. An edit with a line is tried by a search that is cut short
(SEARCH), unless the line lacks the edit's own goal, and the goal has no answer: the output names these edits
(`long search`).

The goals of the changed functions determine the grade of an edit:

- false: the checker finds values at which the goal that the edit names is false.
- no proof: the goal that the edit names has no proof, although all other goals are given.
- text: the answer of the goal no longer fits. This says nothing about the contract, so the edit is tried again without
  that answer. If the goal is then false at some values, the grade is false. If the goal is open, the edit is rejected,
  and listed as weak. If the goal is proved, the contract permits the edit. The line `answer: none` marks an edit whose
  goal has an answer that no longer fits, so that the edit is tried only once, without the answer.

An edit fails if it is proved, if only goals that it does not name are open, if no body can break the clause of its
goal, if it cannot be applied or compiled, or if the checker cannot judge its function.

Nothing is written into the repository. The copies lie in a folder of their own in TMPDIR, which is removed at the end,
also after Ctrl-C. The libraries below a crate have to be built: `rt ci`, `tools/prove.py fv_tool` or `rt check` leave
them in out/. The checks begin with the proofs of the crate itself that `rt check` has kept there. `rt ci` keeps none.

Without an argument, an edit is tried if STANDARD.md names it, or if it names a goal of a public function's clause or
result. The others break a private function, or a step within a function, and are only applied to the sources.

The result of an edit is kept in ${XDG_CACHE_HOME:-~/.cache}/capstanolive-mutants, under the checksum of everything that
it depends on: the sources of the crate and of the crates below it, the edit, the kit, and the version of the grading
(GRADING). So a second run tries only new and changed edits.

For `--write-goals`, an edit of a constant needs the line `goal: MODULE::FUNCTION ` (with a space at the end), which
names the function to look at. No line is written if the edit removes goals that have answers, because an open goal may
then belong to a branch that the edit does not change. Use `--write-lists` after you have added edits, changed functions
that have edits, or removed answers of theirs: it writes the lines of the rejected edits.

The last line shows how many edits failed. The exit status is 0 if every edit was rejected at its goal, 1 if an edit
failed, and 2 if no edit was tried because an argument is wrong or a library is not built."""

import argparse
import collections
import concurrent.futures
import json
import os
import pathlib
import re
import resource
import shutil
import signal
import sys
import tempfile
import time

import kit
import prove
from tests.checks import ROOT
from tests.mutants.crates import Checks, Crate, link_libraries
from tests.mutants.edits import BAD, CACHE, REJECTED, TEXT, WEAK, Edit, Open, Try, applied, changed, files_of_edits
from tests.mutants.edits import keep, key_of, read_edit, read_lists, write_goal, write_lists
from tests.mutants.functions import can_be_broken
from tests.mutants.judge import Judge
from tests.mutants.unnamed import list_unnamed

ROOM = 3_500_000  # the kB of memory that a check is expected to take


def is_of_contract(crate: Crate, edit: Edit, named: str) -> bool:
    """Returns whether an edit is tried without --every: whether this text of STANDARD.md names it, or its goal belongs
    to a clause or the result of a public function."""
    is_public = any(it.is_public for it in crate.owners(edit))
    is_result = edit.goal.startswith("returns") or "clause-" in edit.goal
    return f"`{edit.name}`" in named or is_public and is_result or not edit.goal


def tries_of(crate: Crate, given: argparse.Namespace) -> list[Try]:
    """Returns the edits of a crate to try, with their results if the results are known."""
    found, base, writes = [], crate.checksum(), given.write_goals
    anew = given.whole or given.write_lists
    every = not given.crates or crate.name in given.crates
    is_chosen = not given.crates and not given.every and not writes and not given.write_lists
    named = (ROOT / "docs/STANDARD.md").read_text(encoding="utf-8")
    paths = files_of_edits(crate.folder)
    lists = {} if given.write_lists else read_lists(crate.folder)
    for number, path in enumerate(paths):
        if not every and f"{crate.name}/{path.stem}" not in given.crates:
            continue
        edit = read_edit(path)
        applies = applied(edit.changes, crate.texts) is not None
        owners = crate.owners(edit) if applies else []
        can_be_false = can_be_broken(edit.goal, owners, crate.texts)
        if is_chosen and applies and can_be_false and not is_of_contract(crate, edit, named):
            crate.applied += 1
            continue
        key = key_of(base, path)
        listed = lists.get(path.stem) if edit.goal else set[str]()
        each = Try(edit, [], False, base, listed=listed, is_brief=path.stem in lists and not given.whole)
        found.append(each)
        if not edit.goal and not writes:
            each.ends(BAD, "it has no line goal: (--write-goals writes it)")
        elif not applies:
            each.ends(BAD, "an old text is not in its file exactly once, or nothing is changed")
        elif not can_be_false:
            each.ends(BAD, "no body can break this clause, which names neither the result nor a new state")
        elif not anew and (CACHE / key).is_file() and edit.goal:
            each.ends(**json.loads((CACHE / key).read_text()))
        else:
            each.owners = owners
            each.alone = edit.of in crate.paths and changed(edit, crate.texts) != owners
            each.copies(number)
            if edit.is_bare and len(each.owners) == 1:
                each.left = Open(each.owners[0].unit, edit.goal, TEXT)
            if not each.owners:
                each.ends(BAD, "it changes what is outside of a function, and its goal names none")
    return found


def try_crate(crate: Crate, tries: list[Try], given: argparse.Namespace) -> None:
    """Tries the edits of a crate whose results are not known yet, and prints a line on all chosen edits."""
    new, begun = [each for each in tries if not each.grade], time.monotonic()
    if new:
        crate.make()
        Judge(crate, new).run()
        shutil.rmtree(crate.copy, ignore_errors=True)
    base = crate.checksum()
    for each in new:
        if given.write_goals and not crate.checks.stopped:
            write_goal(each)
        keep(each, base)
    if given.write_lists and not crate.checks.stopped:
        write_lists(crate.folder, tries)
    if tries and not crate.checks.stopped:
        grades = collections.Counter(each.grade for each in tries)
        counts = ", ".join(f"{count} {grade}" for grade, count in sorted(grades.items()))
        took = f"{len(tries) - len(new)} known; {time.monotonic() - begun:.0f} s"
        print(f"mutants: {crate.name}: {counts} ({took})", flush=True)


def sweep() -> None:
    """Removes the temporary folders that killed runs have left."""
    for path in pathlib.Path(tempfile.gettempdir()).glob("capstanolive-mutants-*-*"):
        if not os.path.exists(f"/proc/{path.name.split('-')[2]}"):
            shutil.rmtree(path, ignore_errors=True)


def tell(tries: dict[str, list[Try]], count: int, further: int) -> int:
    """Prints the results, the number of checks, and how many edits were only applied. Returns the exit status."""
    all_of = [(f"{name}/{each.edit.name}", each) for name, found in tries.items() for each in found]
    lines = [f"long search: {it}: its line in goals.txt lacks {each.edit.goal}" for it, each in all_of if each.is_long]
    lines += [f"weak: {it}: {each.goal}" for it, each in all_of if each.grade == WEAK]
    for it, each in [it for it in all_of if it[1].grade not in REJECTED]:
        lines.append(f"{each.grade}: {it}: {each.goal or 'no goal'}{f': {each.said}' if each.said else ''}")
    if further:
        lines.append(f"{further} further edits were applied, and are tried with --every")
    counts = collections.Counter(each.grade for _, each in all_of)
    failed = len(all_of) - sum(counts[it] for it in REJECTED)
    grades = ", ".join(f"{counts[it]} {it} ({100 * counts[it] / (len(all_of) or 1):.0f} %)" for it in REJECTED)
    used = resource.getrusage(resource.RUSAGE_CHILDREN)
    cost = f"{count} checks, {(used.ru_utime + used.ru_stime) / 60:.1f} processor minutes"
    print("\n".join(f"mutants: {it}" for it in [*lines, f"{len(all_of)} edits, {cost}: {grades}, {failed} failed"]))
    return 1 if failed else 0


def jobs() -> int:
    """Returns how many checks run side by side: one for each processor, if there is memory for all."""
    given = os.environ.get("RT_JOBS", "")
    most = min(len(os.sched_getaffinity(0)), prove.free_memory() // ROOM)
    return int(given) if given.isdigit() and int(given) else max(1, most)


def run(names: list[str], given: argparse.Namespace, checks: Checks, room: pathlib.Path) -> int:
    """Tries the edits of some crates. Returns the exit status."""
    try:
        rtlib = kit.rtlib()
    except ImportError as error:
        print(f"mutants: {error}")
        return 2
    crates = [Crate(name, rtlib, room, checks) for name in names]
    tries = {crate.name: tries_of(crate, given) for crate in crates}
    left = [crate for crate in crates if any(not each.grade for each in tries[crate.name])]
    lacking = link_libraries(left, room)
    if lacking:
        print(f"mutants: not built from these sources: {' '.join(lacking)}")
        print("mutants: tools/prove.py fv_tool builds them, and rt check in a crate's folder builds those below it.")
        print("mutants: If rt ci has built them, and no source has changed since, set AFTER_RT_CI=yes.")
        return 2
    with concurrent.futures.ThreadPoolExecutor(given.jobs) as pool:
        by_size = sorted(crates, key=lambda it: -sum(not each.grade for each in tries[it.name]) * len(it.paths))
        runs = [pool.submit(try_crate, crate, tries[crate.name], given) for crate in by_size]
        try:
            for each in concurrent.futures.as_completed(runs):
                each.result()
        finally:
            pool.shutdown(wait=False, cancel_futures=True)
            if not all(it.done() for it in runs):
                checks.stop()
    return tell(tries, checks.count, sum(it.applied for it in crates))


def arguments() -> argparse.Namespace:
    """Reads the arguments of the command."""
    shape = argparse.RawDescriptionHelpFormatter
    reader = argparse.ArgumentParser("python3 -m tests.mutants", description=__doc__, formatter_class=shape)
    reader.add_argument("crates", nargs="*", metavar="CRATE", help="a crate or one edit, CRATE/EDIT (else: all crates)")
    reader.add_argument("--jobs", type=int, default=jobs(), help="how many checks run side by side (now: %(default)s)")
    reader.add_argument("--every", action="store_true", help="tries also edits of private functions and of steps")
    reader.add_argument("--write-goals", action="store_true", help="writes the goal of each edit that has none")
    reader.add_argument("--write-lists", action="store_true", help="writes goals.txt anew, by the whole search")
    reader.add_argument("--whole", action="store_true", help="tries each edit by the whole search")
    reader.add_argument("--unnamed", action="store_true", help="lists the public clauses that no edit names")
    return reader.parse_args()


def main() -> int:
    """Reads the arguments, and tries the edits in a temporary folder. Returns the exit status."""
    given = arguments()
    every = sorted(path.parent.name for path in ROOT.glob("crates/*/mutants"))
    files = {f"{name}/{path.stem}" for name in every for path in files_of_edits(ROOT / "crates" / name)}
    unknown = [it for it in given.crates if it not in every and it not in files]
    if unknown or given.jobs < 1:
        print(f"mutants: {' '.join(unknown) or '--jobs'}: no crate with a folder mutants/, no edit, or no number")
        return 2
    names = {it.partition("/")[0] for it in given.crates}
    chosen = [it for it in every if not names or it in names]
    if given.unnamed:
        return list_unnamed(chosen)
    for number in (signal.SIGTERM, signal.SIGHUP, signal.SIGINT):
        signal.signal(number, lambda number, _: sys.exit(128 + number))
    sweep()
    checks = Checks()
    room = pathlib.Path(tempfile.mkdtemp(prefix=f"capstanolive-mutants-{os.getpid()}-"))
    try:
        return run(chosen, given, checks, room)
    finally:
        checks.stop()
        shutil.rmtree(room, ignore_errors=True)


if __name__ == "__main__":
    sys.exit(main())
