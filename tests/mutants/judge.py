# SPDX-License-Identifier: BSD-2-Clause-Patent
"""Tries the edits of a crate in groups, and grades them by the reports of the checks."""

import collections

from tests.mutants.crates import Crate, Report
from tests.mutants.edits import BAD, FALSE, NO_PROOF, OTHER, PROVED, TEXT, WEAK, Open, Try
from tests.mutants.functions import Function, around, can_be_broken, proofs_of
from tests.mutants.proofs import answers
from tests.sources.definitions import reached

MOST = 96  # the edits of a check


def is_of(unit: str, owner: Function) -> bool:
    """Returns whether a name in a report belongs to a function, or to the cycle that the function is in."""
    last = unit.rpartition("::")[2]
    if last.startswith("+"):
        return last == owner.unit.rpartition("::")[2]
    return any(unit == it or unit.startswith(f"{it}::") for it in (owner.unit, owner.path))


class Judge:
    """Tries the edits of one crate, in groups that share a check (rattle check --only). A method of a trait and a
    function that calls itself cannot be copied, so they are changed in place, one edit of each in a check. Imports are
    changed in place too: an edit may add names to them. The checker may not try the goals of a function that calls a
    function changed in place: its edit then waits for a later check. If a check ends without a verdict, it is repeated
    with half of its edits."""

    def __init__(self, crate: Crate, tries: list[Try]) -> None:
        """Prepares the groups."""
        self.crate, self.left = crate, collections.deque(tries)

    def group(self) -> list[Try]:
        """Takes edits that can share a check."""
        found: list[Try] = []
        rest: collections.deque[Try] = collections.deque()
        for each in self.left:
            taken = {owner.path for it in found for owner in it.owners}
            apart = any(it.edit.name in each.apart or each.edit.name in it.apart or it.alone for it in found)
            apart = apart or each.alone or bool(taken & {owner.path for owner in each.owners})
            apart = apart or any((it.listed is None) != (each.listed is None) for it in found)
            is_free = not found or not apart and len(found) < MOST
            if is_free and self.crate.together([*found, each]):
                found.append(each)
            else:
                rest.append(each)
        self.left = rest
        return found

    def run(self) -> None:
        """Tries all edits."""
        while self.left and not self.crate.checks.stopped:
            group = self.group()
            if not group:
                for each in self.left:
                    each.ends(BAD, "its changes cannot be made")
                return
            self.try_group(group)

    def try_group(self, group: list[Try]) -> None:
        """Tries a group of edits. Edits without a verdict are tried again in smaller groups."""
        report = self.crate.check(group)
        if self.crate.checks.stopped:
            return
        if report.judged:
            for each in group:
                self.judge(each, group, report)
            return
        for file, line, said in report.broken:
            here = around(file, self.crate.there, line)
            for each in [it for it in group if here and here.path in {owner.path for owner in it.owners}][:1]:
                each.ends(BAD, said)
        for each in group:
            if any(owner.path in report.unknown for owner in each.owners):
                each.ends(BAD, f"the checker does not know {' '.join(sorted(report.unknown))}")
        rest = [it for it in group if not it.grade]
        if len(rest) < len(group):
            self.left.extendleft(reversed(rest))
        elif len(rest) == 1:
            lines = report.said.split("\n")
            lines = [it for it in lines if "error" in it or "verdict" in it] or lines[-3:]
            rest[0].ends(BAD, "its check has no verdict: " + " ".join(lines)[:300])
        else:
            self.try_group(rest[: len(rest) // 2])
            self.try_group(rest[len(rest) // 2 :])

    def judge(self, each: Try, group: list[Try], report: Report) -> None:
        """Grades an edit by the goals of its own functions, or leaves it for a later check."""
        opens = [it for it in report.opens if any(self.is_own(it, owner) for owner in each.owners)]
        if each.listed is None:
            self.take_list(each, opens, report)
            return
        found = self.found(each, opens)
        each.moved = each.moved or bool(report.moved & {goal.unit for goal in opens})
        waits = not found and self.waits(each, group, report)
        if not found and not waits:
            found = self.next(each, opens)
        if found and (found.grade != TEXT or each.left):
            goal = each.left.goal if each.left else found.goal
            each.ends(found.grade if not each.left or found.grade == FALSE else WEAK, goal=goal)
        elif found:
            self.again(each, found)
        elif waits:
            self.left.append(each)
        elif opens:
            each.ends(OTHER, "open is " + ", ".join(sorted({f"{it.goal} ({it.grade})" for it in opens})))
        elif any(path in report.waits for path in self.begins(each)):
            each.ends(OTHER, "its goals were not tried, since something that it calls is not proved")
        else:
            self.ends_proved(each, report)

    def take_list(self, each: Try, opens: list[Open], report: Report) -> None:
        """Reads the goals without an answer from a check that does not search. This check also grades the edit if the
        answer of the edit's own goal no longer holds."""
        each.listed = {it for owner in each.owners for it in report.listed.get(owner.unit, set())}
        found = self.found(each, [it for it in opens if it.goal not in each.listed])
        if not found or each.left:
            self.left.append(each)
        elif found.grade == TEXT:
            self.again(each, found)
        else:
            each.ends(found.grade, goal=found.goal)

    def ends_proved(self, each: Try, report: Report) -> None:
        """Notes that an edit is proved, if the check reports this for each function that the edit changes. (The borrow
        checker, for example, may not cover a function.)"""
        for owner in each.owners:
            said = report.named.get(owner.path, "the check says nothing of it")
            if said.split(";")[0] not in ("proved", "no holes"):
                each.ends(BAD, f"the checker does not judge {owner.path}: {said[:200]}")
                return
        each.ends(PROVED, f"{each.left.goal} is proved without its answer" if each.left else "")

    def found(self, each: Try, opens: list[Open]) -> Open | None:
        """Returns the open goal that an edit names, or any open goal if the edit names no goal."""
        if each.wanted:
            return self.chosen([it for it in opens if each.is_wanted(it.goal)])
        return self.chosen(self.nameable(each, opens))

    def nameable(self, each: Try, opens: list[Open]) -> list[Open]:
        """Returns the open goals that an edit without a goal may name."""
        opens = [it for it in opens if it.goal not in each.passed]
        return [it for it in opens if can_be_broken(it.goal, each.owners, self.crate.texts)]

    def next(self, each: Try, opens: list[Open]) -> Open | None:
        """Returns the next goal that an edit without a goal may name, if the tried goal needs no answer."""
        if not each.left or each.edit.goal:
            return None
        each.passed.add(each.left.goal)
        found = self.chosen(self.nameable(each, opens))
        each.left = None if found else each.left
        return found

    def begins(self, each: Try) -> set[str]:
        """Returns the functions that an edit changes, and the functions that are proved with them."""
        units = {owner.unit for owner in each.owners}
        return {it.path for it in [*self.crate.paths.values(), *each.owners] if it.unit in units}

    def is_own(self, goal: Open, owner: Function) -> bool:
        """Returns whether a goal belongs to a function. In a cycle of several, its name begins with the function."""
        several = sum(it.unit == owner.unit for it in self.crate.paths.values()) > 1
        own = owner.path.rpartition("::")[2]
        return is_of(goal.unit, owner) and (not several or goal.goal.startswith(f"{own}-"))

    def chosen(self, opens: list[Open]) -> Open | None:
        """Returns the goal with the best grade. Among the goals of this grade, goals of clauses come first."""

        def rank(goal: Open) -> tuple[int, bool, bool]:
            grade = (FALSE, NO_PROOF, TEXT).index(goal.grade)
            return grade, not goal.goal.startswith("returns"), "-clause-" not in goal.goal

        return min(opens, key=rank) if opens else None

    def again(self, each: Try, found: Open) -> None:
        """Arranges that an edit is tried without the answer that no longer fits."""
        if found.goal not in answers(self.crate.texts.get(proofs_of(found.unit.removesuffix(each.suffix)), "")):
            each.ends(OTHER, f"{found.goal} has no answer of its own to leave out")
            return
        each.left = found
        self.left.append(each)

    def waits(self, each: Try, group: list[Try], report: Report) -> bool:
        """Returns whether a goal of the edit may be untried, because its function calls another changed function."""
        begins = self.begins(each)
        called = reached(begins, lambda path: report.waits.get(path, set()))
        rest = [it for it in group if it is not each]
        others = {it.edit.name for it in rest if any(owner.path in called for owner in it.owners)}
        silent = not any(is_of(path, owner) for path in report.named for owner in each.owners)
        is_free = not silent and not any(path in report.waits for path in begins)
        if is_free or each.alone or len(group) == 1:
            return False
        each.apart |= others
        each.alone = each.alone or not others
        return True
