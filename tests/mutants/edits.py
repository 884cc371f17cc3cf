# SPDX-License-Identifier: BSD-2-Clause-Patent
"""Wrong bodies: edits of sources, the functions and the copies of functions that they change, their grades, and what is
kept of them for the next run."""

import dataclasses
import hashlib
import json
import os
import pathlib
import re
import tempfile

from tests.mutants.functions import IMPORT, Function, around, functions, proofs_of

# The version of the grading. Raise it if a change of these modules may give an edit another grade: results of other
# versions in CACHE are not used.
GRADING = 6
CACHE = pathlib.Path(os.environ.get("XDG_CACHE_HOME") or pathlib.Path.home() / ".cache") / "capstanolive-mutants"
# The folders of a crate that have edits: those that only tests/mutants tries, and those that `rt ci` tries too.
PARTS_OF_EDITS = ("mutants", "must-fail")
# The three grades of an edit, and its other results.
FALSE, NO_PROOF, TEXT = "false", "no proof", "text"
WEAK, PROVED, OTHER, BAD = "weak", "PROVED", "OTHER GOAL", "BAD EDIT"
REJECTED = (FALSE, NO_PROOF, WEAK)


@dataclasses.dataclass(frozen=True)
class Change:
    """A text of a file, which is there exactly once, and the text that replaces it. If the change names a function, the
    text is in this function exactly once, and may be elsewhere in the file too."""

    file: str
    old: str
    new: str
    inside: str = ""


@dataclasses.dataclass(frozen=True)
class Edit:
    """A wrong body: its changes, and the goal that has to stay open. `of` is the function of that goal, if the line
    names it. `is_bare` means that the goal is tried without its answer."""

    path: pathlib.Path
    changes: tuple[Change, ...]
    goal: str
    of: str
    is_bare: bool = False

    @property
    def name(self) -> str:
        """Returns the name of the edit: the name of its file without the ending."""
        return self.path.stem


def files_of_edits(folder: pathlib.Path) -> list[pathlib.Path]:
    """Returns the files of the edits of a crate."""
    return [path for part in PARTS_OF_EDITS for path in sorted((folder / part).glob("*.edit"))]


def read_edit(path: pathlib.Path) -> Edit:
    """Reads an edit. A line that belongs to no change is ignored, as in `rt must-fail`. In must-fail/, the lines that
    `rt must-fail` ignores begin with `# `, since `rt check` prints a note on any other line that it does not know."""
    file, inside, old, goal, of, is_bare, changes = "", "", "", "", "", False, list[Change]()
    for line in (it.removeprefix("# ") for it in path.read_text(encoding="utf-8").split("\n")):
        if line.startswith("file: "):
            file, inside = line[6:].strip(), ""
        elif line.startswith("in: "):
            inside = line[4:].strip()
        elif line.startswith("old: "):
            old = line[5:]
        elif line.startswith("new:"):
            changes.append(Change(file, old, line[4:].removeprefix(" "), inside))
        elif line.startswith("goal: "):
            of, _, goal = line[6:].rpartition(" ")
        is_bare = is_bare or line == "answer: none"
    return Edit(path, tuple(changes), goal, of, is_bare)


def place_of(change: Change, texts: dict[str, str]) -> int | None:
    """Returns where the old text of a change begins in its file, or nothing if it does not occur exactly once."""
    text = texts.get(change.file, "")
    begin, end = 0, len(text)
    if change.inside:
        function = next((it for it in functions(change.file, texts) if it.path == change.inside), None)
        if not function:
            return None
        lines = text.split("\n")
        begin, end = (len("\n".join(lines[:at])) for at in (function.head, function.last + 1))
    is_there = bool(change.old) and text.count(change.old, begin, end) == 1
    return text.index(change.old, begin, end) if is_there else None


def replaced(change: Change, texts: dict[str, str]) -> dict[str, str] | None:
    """Returns the texts after a change, or nothing if its old text does not occur exactly once."""
    at = place_of(change, texts)
    if at is None:
        return None
    text = texts[change.file]
    return {**texts, change.file: text[:at] + change.new + text[at + len(change.old) :]}


def applied(changes: tuple[Change, ...], texts: dict[str, str]) -> dict[str, str] | None:
    """Returns the texts after some changes, or nothing if an old text does not occur exactly once."""
    found: dict[str, str] | None = texts
    for change in changes:
        found = replaced(change, found) if found else None
    return found if found != texts else None


def changed(edit: Edit, texts: dict[str, str]) -> list[Function] | None:
    """Returns the functions that an edit changes, or nothing if it changes more than functions and imports, or cannot be
    applied."""
    found: dict[str, Function] = {}
    now: dict[str, str] | None = texts
    for change in edit.changes:
        place = place_of(change, now) if now else None
        if not now or place is None:
            return None
        text = now[change.file]
        at = text.count("\n", 0, place + len(change.old) - len(change.old.lstrip()))
        function = around(change.file, now, at)
        if function:
            found[function.path] = function
        elif not IMPORT.match(text.split("\n")[at]):
            return None
        now = replaced(change, now)
    return list(found.values()) or None


def with_copy(
    texts: dict[str, str], was: dict[str, str], function: Function, suffix: str, edit: Edit
) -> dict[str, str]:
    """Returns texts in which a changed copy follows a function, also with a copy of its proof. The copy's name ends
    with a suffix. The original function stays as it was, and imports are changed in place."""
    lines, name = was[function.file].split("\n"), function.path.rpartition("::")[2]
    body, found = "\n".join(lines[function.head : function.last + 1]), dict(texts)
    for change in edit.changes:
        if change.file == function.file and change.old in body:
            body = body.replace(change.old, change.new)
        else:
            found[change.file] = found[change.file].replace(change.old, change.new)
    body = re.sub(rf"\bfn {name}\b", f"fn {name}{suffix}", body, count=1)
    here = next(it for it in functions(function.file, found) if it.path == function.path)
    lines = found[function.file].split("\n")
    found[function.file] = "\n".join([*lines[: here.last + 1], "", body, *lines[here.last + 1 :]])
    folder = proofs_of(function.unit, "").rstrip("/")
    module = re.compile(rf"(?<=\.proofs\.){re.escape(function.unit.replace('::', '.'))}(?![\w-])")
    for file in [it for it in was if it.startswith(f"{folder}/")]:
        found[folder + suffix + file.removeprefix(folder)] = module.sub(lambda it: it[0] + suffix, was[file])
    return found


@dataclasses.dataclass(frozen=True)
class Open:
    """A goal that a check leaves open: the function or cycle that it belongs to, its name, and whether it is false, has
    no proof, or has an answer that does not fit."""

    unit: str
    goal: str
    grade: str


@dataclasses.dataclass(eq=False)
class Try:
    """An edit that is to be tried: the functions that it changes, and its result. If it changes a copy of a function,
    `of` is the original, and the copy has its name with `suffix` at the end. `left` is the goal whose answer is left
    out, and `passed` are the goals that were proved without their answers. `apart` are the edits that it cannot share a
    check with. `base` is the checksum of all that a check of its crate reads. `moved` means that the edit removes
    goals, so that an open goal may belong to an unchanged branch and have a new name. `listed` are the goals without an
    answer, or None before a check has listed them. `is_brief` means that the search for a proof is cut short. `is_long`
    means that it was not, because the list lacks the edit's own goal."""

    edit: Edit
    owners: list[Function]
    alone: bool
    base: str
    of: Function | None = None
    suffix: str = ""
    left: Open | None = None
    apart: set[str] = dataclasses.field(default_factory=set)
    passed: set[str] = dataclasses.field(default_factory=set)
    listed: set[str] | None = None
    is_brief: bool = False
    is_long: bool = False
    grade: str = ""
    said: str = ""
    goal: str = ""
    moved: bool = False

    def copies(self, number: int) -> None:
        """Lets the edit change a copy of its function, if the function may be copied."""
        if len(self.owners) == 1 and self.owners[0].is_single and not self.alone:
            self.of, self.suffix = self.owners[0], f"_edit{number}"
            copy = {"path": self.of.path + self.suffix, "unit": self.of.unit + self.suffix}
            self.owners = [dataclasses.replace(self.of, **copy)]

    @property
    def wanted(self) -> str:
        """Returns the goal that has to stay open."""
        return self.left.goal if self.left else self.edit.goal

    def is_wanted(self, goal: str) -> bool:
        """Returns whether a goal has to stay open. It may be open in parts if its answer is left out."""
        return goal == self.wanted or bool(self.left) and goal.startswith(f"{self.wanted}-")

    def ends(self, grade: str, said: str = "", goal: str = "") -> None:
        """Notes the result of the edit."""
        self.grade, self.said, self.goal = grade, said, goal or self.edit.goal


def read_lists(folder: pathlib.Path) -> dict[str, set[str]]:
    """Reads the goals without an answer of each edit, as --write-lists wrote them."""
    path = folder / "mutants/goals.txt"
    lines = path.read_text(encoding="utf-8").splitlines() if path.is_file() else []
    return {name: set(goals.split()) for name, _, goals in (line.partition(":") for line in lines)}


def write_lists(folder: pathlib.Path, tries: list[Try]) -> None:
    """Writes the goals without an answer of each edit that was rejected, and keeps the lists of the others."""
    new = {it.edit.name: it.listed for it in tries if it.grade in REJECTED and it.listed is not None}
    found = read_lists(folder) | new
    names = {it.stem for it in files_of_edits(folder)}
    lines = [" ".join([f"{name}:", *sorted(goals)]) for name, goals in sorted(found.items()) if name in names]
    (folder / "mutants/goals.txt").write_text("".join(f"{line}\n" for line in lines), encoding="utf-8")


def key_of(base: str, path: pathlib.Path) -> str:
    """Returns the name of the file in CACHE for the result of an edit of a crate with this checksum."""
    return hashlib.sha256(f"{base} {path.name} ".encode() + path.read_bytes()).hexdigest()


def keep(each: Try, base: str) -> None:
    """Keeps the result of a rejected edit, unless --write-goals has written a line of the edit since."""
    if each.grade in REJECTED and base == each.base:
        CACHE.mkdir(parents=True, exist_ok=True)
        with tempfile.NamedTemporaryFile("w", dir=CACHE, prefix="new-", delete=False) as file:
            json.dump({"grade": each.grade, "said": each.said, "goal": each.goal}, file)
        os.replace(file.name, CACHE / key_of(base, each.edit.path))


def write_goal(each: Try) -> None:
    """Writes the line `goal:` of an edit, unless the open goal may belong to a branch that does not change."""
    if each.grade not in REJECTED or each.edit.goal:
        return
    if each.moved and each.grade != FALSE:
        said = f"{each.goal} is open, but the edit takes goals away: see whether it is of the branch that changes"
        each.ends(BAD, f"no goal is written: {said}", each.goal)
    else:
        lines = each.edit.path.read_text(encoding="utf-8").rstrip("\n").split("\n")
        lines = [it for it in lines if not it.removeprefix("# ").startswith("goal:")]
        begins = "# goal:" if each.edit.path.parent.name == "must-fail" else "goal:"
        lines.append(" ".join([begins, *[each.edit.of] * bool(each.edit.of), each.goal]))
        each.edit.path.write_text("\n".join(lines) + "\n", encoding="utf-8")
