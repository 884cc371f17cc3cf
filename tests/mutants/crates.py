# SPDX-License-Identifier: BSD-2-Clause-Patent
"""A crate whose edits are tried in a copy, the checks of this copy, and the report of a check: the goals that it leaves
open, and its verdicts on functions."""

import dataclasses
import hashlib
import os
import pathlib
import re
import shutil
import signal
import subprocess
import threading
import typing

from tests.checks import ROOT
from tests.mutants.edits import FALSE, GRADING, NO_PROOF, TEXT, Edit, Open, Try, applied, changed, with_copy
from tests.mutants.functions import Function, functions, proofs_of, stubbed
from tests.mutants.proofs import answered, answers, assumed, given_lemmas, resting, searched, without

PARTS = ("src", "specs", "proofs")
LIMIT = 1800  # the seconds of a check

# Lines of a check's output: a line with a place, and lines about a function, about a file, and about goals that were
# not tried.
PLACED = re.compile(r"(?:note: )?(?:\./)?((?:src|specs|proofs)/\S+?):(\d+):\d+: (.*)")
OF_FUNCTION = re.compile(r"fn \w+?::(\S+): (.*)")
OF_FILE = re.compile(r"note: `([^`]+)` of (?:\./)?proofs/(\S+)/\w+\.antt may be false")
NOT_TRIED = re.compile(r"note: `search` has not tried the goals of `\w+?::([^`]+)`")
# The checker's words about a goal that its tactics do not prove, and about values at which a goal is false.
TACTIC = r"`?\b(?:search|grind|omega|simp|cc)\b`?"
UNFOUND = re.compile(rf"{TACTIC}(?::| broke| stopped| met| found| gave)|give the call less to do|no proof of ")
VALUES = re.compile(r"the goal fails,? at|this goal is false")
# The checker's words about an answer whose goal the edit has removed, and about an answer that was not checked.
GONE = re.compile(r"module `[^`]*\.Goals` has no|(?:was|were) rejected, (?:was|were) not checked")
BY_TACTIC = re.compile(r"=\s*(?:λ[^.]*\.\s*)?(?:search|grind|omega|simp|cc)\b")


@dataclasses.dataclass
class Report:
    """The report of a check: the open goals; the goals without an answer, by the function or cycle that they belong to;
    the verdict on each named function; and, for each function that waits, the functions that it waits for. `moved` has
    the functions whose edit removes a goal that has an answer, so that an open goal may be an old goal under another
    name. `broken` has the places in sources that do not compile, and `unknown` the functions that the checker knows by
    another name. `judged` shows whether the check ended regularly, and `said` is its output."""

    judged: bool
    said: str
    unknown: set[str]
    opens: list[Open] = dataclasses.field(default_factory=list)
    listed: dict[str, set[str]] = dataclasses.field(default_factory=dict)
    named: dict[str, str] = dataclasses.field(default_factory=dict)
    waits: dict[str, set[str]] = dataclasses.field(default_factory=dict)
    moved: set[str] = dataclasses.field(default_factory=set)
    broken: list[tuple[str, int, str]] = dataclasses.field(default_factory=list)


def unit_of(folder: str) -> str:
    """Returns the function or the cycle that a folder of proofs belongs to."""
    return folder.removeprefix("proofs/").replace("/", "::")


def of_answer(unit: str, text: str, proof: str) -> list[Open]:
    """Returns the goals that an error in a proof file leaves open. Values at which a tactic fails count as values of
    the goal only if the tactic is the whole answer."""
    names = re.match(r"error: `([^`]+)`: ?(.*)", text, re.S)
    if not names or GONE.search(text):
        return []
    begin, end = answers(proof).get(names[1], (0, 0))
    whole = bool(BY_TACTIC.search(" ".join(proof.split("\n")[begin:end])))
    unfound = bool(UNFOUND.search(names[2]))
    own = FALSE if unfound and whole and VALUES.search(names[2]) else NO_PROOF if unfound else TEXT
    goals = {it for it in resting(proof, names[1]) if f"{it} : goal." in proof}
    return [Open(unit, it, own if it == names[1] else TEXT) for it in sorted(goals)]


def of_place(match: re.Match[str], text: str, texts: dict[str, str], report: Report) -> None:
    """Adds an item with a place to a report."""
    file, line, said = match[1], int(match[2]) - 1, text[match.start(3) :]
    if file.startswith("proofs/"):
        unit = unit_of(os.path.dirname(file))
        if said.startswith("error: "):
            report.opens += of_answer(unit, said, texts.get(file, ""))
            report.moved |= {unit} if GONE.search(said) else set()
        return
    if said.startswith("error"):
        report.broken.append((file, line, said.split("\n")[0]))
        return
    goal = re.search(r"it is not proved that .*?\(`([^`]+)`\)", said, re.S)
    after = (it for it in functions(file, texts) if it.last >= line)
    function = next(after, None)
    if goal and function:
        report.opens.append(Open(function.unit, goal[1], FALSE if VALUES.search(said) else NO_PROOF))
        report.listed.setdefault(function.unit, set()).add(goal[1])


def report_of(said: str, texts: dict[str, str]) -> Report:
    """Reads the output of a check of sources and proof files with these texts."""
    unknown = {*re.findall(r"has no function `([^`]+)`", said)}
    judged = bool(re.search(r"(?m)^(?:only=\d+ (?:proved|holes)=|logic=)", said))
    report = Report(judged, said, unknown)
    for text in re.split(r"\n(?!  )", said):  # lines, each with the lines that continue it
        placed, function = PLACED.match(text), OF_FUNCTION.match(text)
        if placed:
            of_place(placed, text, texts, report)
        if function:
            report.named[function[1]] = function[2]
            calls = re.search(r"it calls (.*?),? which (?:is|are) not", function[2])
            if calls:
                waits = {it.split("::", 1)[-1] for it in re.findall(r"`([^`]+)`", calls[1])}
                report.waits.setdefault(function[1], set()).update(waits)
            goals = re.search(r"did not prove ((?:(?:, | and )?`[^`]+`)+)", function[2])
            unit = re.search(r"answers in (?:\./)?proofs/(\S+)/\w+\.antt", function[2])
            owner = unit_of(unit[1]) if unit else function[1]
            report.opens += [Open(owner, it, NO_PROOF) for it in re.findall(r"`([^`]+)`", goals[1] if goals else "")]
        false, untried = OF_FILE.match(text), NOT_TRIED.match(text)
        if false:
            report.opens.append(Open(unit_of(false[2]), false[1], FALSE))
        if untried:
            report.waits.setdefault(untried[1], set())
    return report


def link(source: pathlib.Path, target: pathlib.Path, every: bool) -> bool:
    """Copies a folder of the kit, by links if links can be made, because the kit replaces the files and never writes
    into them. Returns whether it was copied."""

    def one(old: str, new: str) -> str:
        try:
            if every or old.endswith(".oantt"):
                os.link(old, new)
                return new
        except OSError:
            pass
        return str(shutil.copy2(old, new))

    try:
        shutil.copytree(source, target, symlinks=True, copy_function=one)
    except (OSError, shutil.Error):
        # Another command may have replaced a file while it was copied.
        shutil.rmtree(target, ignore_errors=True)
        return False
    return True


def files_of(folder: pathlib.Path) -> dict[str, str]:
    """Returns the sources, definitions and proofs of a crate, by their paths in it."""
    paths = [path for part in PARTS for path in sorted((folder / part).rglob("*")) if path.is_file()]
    return {str(path.relative_to(folder)): path.read_text(encoding="utf-8") for path in paths}


class Checks:
    """The checks that are running, and the number of all checks."""

    def __init__(self) -> None:
        self.running: set[subprocess.Popen[str]] = set()
        self.lock, self.stopped, self.count = threading.Lock(), False, 0

    def run(self, words: list[str], folder: pathlib.Path) -> tuple[int, str]:
        """Runs one check for at most LIMIT seconds. Returns its status and its output."""
        how: dict[str, typing.Any] = {"stdin": subprocess.DEVNULL, "stdout": subprocess.PIPE}
        how.update(stderr=subprocess.STDOUT, cwd=folder, text=True, errors="replace")
        with self.lock:
            if self.stopped:
                return -signal.SIGTERM, ""
            run = subprocess.Popen(["timeout", "--signal=KILL", str(LIMIT), *words], **how)
            self.running.add(run)
            self.count += 1
        said, _ = run.communicate()
        with self.lock:
            self.running.discard(run)
        return run.returncode, said

    def stop(self) -> None:
        """Ends all checks, and lets none begin."""
        with self.lock:
            self.stopped = True
            for run in self.running:
                run.terminate()


class Crate:
    """A crate whose edits are tried, in a copy of its own."""

    def __init__(self, name: str, rtlib: typing.Any, room: pathlib.Path, checks: Checks) -> None:
        """Reads the crate. Its copy will be in `room`, the temporary folder of this run."""
        self.name, self.checks, self.folder, self.copy = name, checks, ROOT / "crates" / name, room / name
        self.of_kit = rtlib.Crate(str(self.folder), str(ROOT), {})
        self.rattle, self.room = str(rtlib.RATTLE), room
        self.texts, self.there = files_of(self.folder), dict[str, str]()
        self.seed = self.copy / "kept"
        sources = [it for it in self.texts if it.startswith("src/")]
        self.paths = {it.path: it for file in sources for it in functions(file, self.texts)}
        self.lemmas = given_lemmas(self.texts)
        # The number of edits that are only applied.
        self.applied = 0

    def owners(self, edit: Edit) -> list[Function]:
        """Returns the function that the line `goal:` of an edit names, or else the functions that the edit changes."""
        of = self.paths.get(edit.of)
        return [of] if of else changed(edit, self.texts) or []

    def checksum(self) -> str:
        """Returns the checksum of all that a check of the crate reads."""
        found = hashlib.sha256(self.of_kit.stamp().encode())
        found.update((pathlib.Path(self.rattle).parents[1] / "KIT-ID").read_bytes())
        state = os.stat(self.rattle)
        found.update(f"{GRADING} {state.st_size} {state.st_mtime_ns}".encode())
        return found.hexdigest()

    def lacking(self) -> list[str]:
        """Returns the libraries below the crate that are not built from their sources. The libraries of `rt ci` have no
        stamp, and only .ci/run knows whether they are built from these sources."""
        left = [it for it in self.of_kit.below() if not it.is_built()]
        after = bool(os.environ.get("AFTER_RT_CI"))
        return [it.name for it in left if not (after and os.path.isfile(f"{it.rlib}/format"))]

    def make(self) -> None:
        """Makes the copy of the crate, and lets the checks read the libraries that were linked into `room`."""
        self.copy.mkdir()
        self.write(self.texts)
        kept = self.folder / "out/incremental"
        if not kept.is_dir() or not link(kept, self.seed, False):
            self.seed.mkdir()
        for below in self.of_kit.below():
            below.rlib = str(self.room / "libraries" / f"{below.name}.rlib")

    def write(self, texts: dict[str, str]) -> None:
        """Writes these files into the copy, and removes all others. A file that does not change is not written."""
        for file in [it for it in self.there if it not in texts]:
            (self.copy / file).unlink()
        for file, text in texts.items():
            if self.there.get(file) != text:
                path = self.copy / file
                path.parent.mkdir(parents=True, exist_ok=True)
                path.write_text(text, encoding="utf-8")
        self.there = texts

    def together(self, group: list[Try]) -> dict[str, str] | None:
        """Returns the texts that the changes of a group of edits make, or nothing if they do not fit together."""
        texts: dict[str, str] | None = self.texts
        for each in [it for it in group if not it.of]:
            texts = applied(each.edit.changes, texts) if texts else None
        for each in group:
            if texts and each.of:
                texts = with_copy(texts, self.texts, each.of, each.suffix, each.edit)
            if texts and each.left:
                file = proofs_of(each.left.unit)
                bare = without(texts.get(file, ""), each.left.goal)
                texts = {**texts, file: bare} if bare is not None else None
        return texts

    def given(self, group: list[Try]) -> set[str]:
        """Returns the functions, and the cycles, that no edit of a group changes. Their theorems are given."""
        return {it.unit for it in self.paths.values()} - {owner.unit for each in group for owner in each.owners}

    def module(self, unit: str) -> str:
        """Returns the module of a function, or of a cycle."""
        return f"Rattle.{self.name}.proofs.{unit.replace('::', '.')}"

    def with_given(self, texts: dict[str, str], given: set[str], group: list[Try]) -> dict[str, str]:
        """Returns the texts with an axiom for each given theorem, in place of its answers, and for each goal of a
        changed function except the goal that has to stay open. If that goal has no answer, it may get a search that is
        cut short. If the goals are not listed yet, the texts switch the search off."""
        texts = {**stubbed(texts, given), **self.lemmas}
        for it in [it for it in self.paths.values() if it.unit in given]:
            for file in ("Answers.antt", "Invariants.antt"):
                texts.pop(proofs_of(it.unit, file), None)
            states, name = f"use {self.module(it.path)}.Statement.{{statement}}", it.path.rpartition("::")[2]
            proof = f"{states}\n\naxiom pub {name}_spec : {{M : Type 1}} → statement M\n"
            texts[proofs_of(it.path, "Proof.antt")] = proof
        for each in group:
            units = {owner.unit for owner in each.owners}
            if len(units) == 1 and each.listed is not None:
                self.add_answers(texts, each, units.pop(), each.listed)
        if group[0].listed is None:
            for file in [it for it in ("src/lib.rt", "src/main.rt") if it in texts]:
                texts[file] = texts[file].replace("#![tactic(auto)]", "#![tactic(none)]")
        return texts

    def add_answers(self, texts: dict[str, str], each: Try, unit: str, listed: set[str]) -> None:
        """Gives the goals of a changed function, with an answer or without, except the goal that has to stay open. If
        the edit names no goal, the answers are tried."""
        file = proofs_of(unit)
        goals = listed | (answered(texts.get(file, "")) if each.edit.goal else set())
        others = tuple(sorted(it for it in goals if not each.is_wanted(it)))
        if others:
            texts[file] = assumed(texts.get(file, ""), others, self.module(unit))
        if each.is_brief and (each.left or each.wanted in listed):
            texts[file] = searched(texts.get(file, ""), each.wanted, self.module(unit))
        elif each.is_brief:
            each.is_long = each.wanted not in answers(texts.get(file, ""))

    def check(self, group: list[Try]) -> Report:
        """Checks the copy with the changes of a group of edits."""
        given = self.given(group)
        texts = self.with_given(self.together(group) or self.texts, given, group)
        self.write(texts)
        only = sorted({owner.path for each in group for owner in each.owners})
        words = [self.rattle, "check", *self.of_kit.words(["--jobs", "1"], keeps=False), "--allow-holes"]
        words += ["--incremental", str(self.seed), *(it for path in only for it in ("--only", path))]
        status, said = self.checks.run(words, self.copy)
        if status in (-signal.SIGKILL, 128 + signal.SIGKILL) and not self.checks.stopped:
            status, said = self.checks.run(words, self.copy)
        report = report_of(said, texts)
        # The checker does not wait for a function whose theorem is given.
        for path, waits in [*report.waits.items()]:
            left = {it for it in waits if it not in self.paths or self.paths[it].unit not in given}
            report.waits[path] = left
            if waits and not left:
                del report.waits[path]
        return report


def link_libraries(crates: list[Crate], room: pathlib.Path) -> list[str]:
    """Links the libraries below the crates into `room`. Returns the missing libraries."""
    lacking = sorted({name for crate in crates for name in crate.lacking()})
    if not lacking:
        for below in {it.name: it for crate in crates for it in crate.of_kit.below()}.values():
            if not link(pathlib.Path(below.rlib), room / "libraries" / f"{below.name}.rlib", True):
                lacking.append(below.name)
    return lacking
