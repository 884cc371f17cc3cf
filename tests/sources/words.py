# SPDX-License-Identifier: BSD-2-Clause-Patent
"""Checks where definitions are, and that the names, files and texts in documents exist.

- A definition that the clauses of public functions reach, and that a reviewer must read, is in `specs/`. All other
  definitions are in `specs/inner/`.
- A crate uses the proofs of another crate only through its module Laws. Laws of fv_base also passes on names of std and
  definitions of fv_base to the proofs of all crates.
- Other crates use the definitions of a crate only through its module Words, and so do the crate's own proofs. Only
  definitions in `specs/inner/` and types of the code are imported directly.
- The functions, definitions, edits and tests that docs/STANDARD.md names exist, each of its rules has an edit, and each
  edit changes a function or constant that its row names. Its table of wrong bodies has all its rows (WRONG_BODIES), and
  each row has an edit or a test.
- The files that documents name exist, and the texts that docs/LIBRARY.md quotes from a file are in that file.
- The meanings of faults in docs/FAULTS.md are the texts that the code writes."""

import glob
import os
import re
import sys
from dataclasses import dataclass
from pathlib import Path

from tests.checks import ROOT, found_by, read, report, section
from tests.install.pages import dead_links
from tests.sources.definitions import DOOR, IMPORT, INNER, Words, door, roots

PROOF_IMPORT = re.compile(
    r"(?m)^[ \t]*(?:ghost |pub |unfoldable )*use\s+Rattle\.(fv_\w+)\.proofs\.([\w.+]+?)(?=\.\{|[\s;])"
)
# The modules in specs/ that are imported directly: definitions in specs/inner/, and types of the code.
DIRECT = (INNER, "declared.", "contracts.")
# The names of rows in a table of tests.
ROW_NAME = re.compile(r"(?m)^([\w-]+)[: ]")
# The number of rows in STANDARD's table of wrong bodies. No row is ever dropped.
WRONG_BODIES = 32
# A file that a document names with its folder.
NAMED = re.compile(r"`((?:crates|specs|src|proofs|docs|libfv|man|python|recipes|rust|tests|tools)/[\w./+-]+)`")
# The line that begins a function or a constant.
ITEM = re.compile(r"(?m)^[ \t]*(?:pub(?:\([a-z]+\))? )?(?:const )?(?:extern \"C\" )?(?:fn|const) (\w+)")


@dataclass(frozen=True)
class Item:
    """A function, a constant or a definition: its file, and its name."""

    file: str
    name: str


def borders() -> list[str]:
    """Returns the imports that ought to use Laws or Words, and do not: imports from other crates, and imports of a
    crate's own definitions by its proofs."""
    wrong: list[str] = []
    for path in sorted(glob.glob("crates/*/*/**/*", recursive=True)):
        if "/out/" in path or not path.endswith((".antt", ".rt")):
            continue
        own = path.split("/")[1]
        text = read(path)
        for crate, module in PROOF_IMPORT.findall(text):
            if crate != own and module != "Laws":
                wrong.append(f"{path} has proofs of {crate} by {module}, not by Laws")
        for crate, module, _, _ in IMPORT.findall(text):
            is_outside = crate != own or "/proofs/" in path and door(crate)
            if is_outside and module != DOOR and not module.startswith(DIRECT):
                wrong.append(f"{path} has definitions of {crate} by {module}, not by {DOOR}")
    return wrong


def texts(pattern: str) -> dict[str, str]:
    """Returns the texts of the crates' files that match the pattern, by their names without the ending. Files with the
    same name are joined. Crates of tests are left out."""
    found: dict[str, str] = {}
    for path in glob.glob(f"crates/*/{pattern}", recursive=True):
        if path.split("/")[1].endswith("_tests"):
            continue
        name = os.path.splitext(os.path.basename(path))[0]
        found[name] = found.get(name, "") + read(path)
    return found


def rows(text: str) -> list[list[str]]:
    """Returns the cells of each row of a text's tables, without the heads of the tables."""
    lines = re.findall(r"(?m)^\| .*\|$(?!\n\|--)", text)
    return [[cell.strip() for cell in line.strip("|").split(" | ")] for line in lines]


def named(cell: str) -> list[Item]:
    """Returns the items that a cell names: in "`a.rt: b`, `c`" these are b and c of the file a."""
    found: list[Item] = []
    file = ""
    for quoted in re.findall(r"`([^`]+)`", cell):
        before, _, name = quoted.rpartition(": ")
        file = before.replace(".rt", "") or file
        found.append(Item(file, name))
    return found


def edits_named(name: str, crate: str = "*") -> list[str]:
    """Returns the edits with a name, of a crate or of all crates, among the edits that rt ci tries and the edits that
    tests/mutants tries."""
    return [path for folder in ("must-fail", "mutants") for path in glob.glob(f"crates/{crate}/{folder}/{name}.edit")]


def edited(edit: str) -> list[Item]:
    """Returns the functions and constants that an edit changes."""
    found: list[Item] = []
    file, code = "", ""
    for key, text in re.findall(r"(?m)^(file|old): (.*)$", read(edit)):
        if key == "file":
            file = os.path.basename(text).replace(".rt", "")
            code = read(os.path.join(os.path.dirname(edit), "..", text))
        else:
            items = ITEM.findall(code, 0, code.find(text) + len(text))
            found.append(Item(file, items[-1] if items else "the head"))
    return found


def row_names() -> set[str]:
    """Returns the names of the files of rows, and of their rows."""
    files = glob.glob("crates/fv_run_tests/rows/*.rows")
    names = {name for path in files for name in ROW_NAME.findall(read(path))}
    return names | {os.path.basename(path) for path in files}


def untried() -> list[str]:
    """Returns the missing tests among those that docs/STANDARD.md names above its tables: files of rows, modules of the
    crates of tests, and names of rows."""
    sources = glob.glob("crates/*_tests/src/**/*.rt", recursive=True)
    names = row_names() | {path.split("/", 3)[3] for path in sources}
    tests = re.findall(r"(?ms)^Tests: (.*?)\n\n", read("docs/STANDARD.md"))
    named_tests = [name for text in tests for name in re.findall(r"`([^`]+)`", text)]
    return [f"the test {name} is not there" for name in named_tests if name not in names]


def standard() -> list[str]:
    """Returns the errors in the tables of docs/STANDARD.md: names that do not exist, rows without an edit, and edits of
    items that their row does not name."""
    code, definitions = texts("src/**/*.rt"), texts("specs/**/*.antt")
    wrong: list[str] = []
    parts = read("docs/STANDARD.md").split("\n## ")
    for heading, row in ((part.partition("\n")[0], row) for part in parts for row in rows(part) if len(row) == 4):
        rule, where, stated, guard = row
        items = named(where)
        pairs = [(code, item) for item in items] + [(definitions, item) for item in named(stated)]
        for place, item in pairs:
            if not re.search(rf"\b{item.name}\b", place.get(item.file, "")):
                wrong.append(f"{item.file}: {item.name} is not there")
        crates = re.findall(r"fv_\w+", " ".join((heading, where, stated, guard)))
        guards = re.findall(r"`(\w+)`", guard)
        wrong += [f"{rule} has no edit"] * (not guards)
        for name in guards:
            paths = [path for path in edits_named(name) if path.split("/")[1] in crates]
            wrong += [f"{name} is not there"] * (not paths)
            for item in [item for path in paths for item in edited(path) if item not in items]:
                wrong.append(f"{name} edits {item.name} of {item.file}.rt, which its row does not name")
    return [f"STANDARD.md: {it}" for it in wrong + untried()]


def wrong_bodies() -> list[str]:
    """Returns the errors in STANDARD's table of wrong bodies that must never pass: too few rows, rows without a guard,
    and guards that do not exist."""
    table = rows(section("docs/STANDARD.md", "Wrong bodies"))
    names = row_names()
    wrong = [f"STANDARD.md has {len(table)} wrong bodies, not {WRONG_BODIES}"] * (len(table) != WRONG_BODIES)
    for body, _, guard in table:
        edits = [(crate, name) for crate, name in re.findall(r"(fv_\w+) `(\w+)`", guard)]
        tests = re.findall(r"`([\w./-]+)`", re.sub(r"fv_\w+ `\w+`", "", guard))
        wrong += [f"{body}: no guard"] * (not edits and not tests)
        wrong += [f"{body}: no edit {name}" for crate, name in edits if not edits_named(name, crate)]
        wrong += [f"{body}: no test {name}" for name in tests if name not in names and not os.path.exists(name)]
    return [f"wrong body: {it}" for it in wrong]


def quotes() -> list[str]:
    """Returns the blocks of docs/LIBRARY.md that are not in the file that they quote. The line before a block names
    this file."""
    wrong: list[str] = []
    for path, block in re.findall(r"From `([^`]+)`:\n\n((?:    .*\n|\n)+)", read("docs/LIBRARY.md")):
        quoted = re.sub(r"(?m)^    ", "", block).strip("\n")
        if quoted not in read(path):
            wrong.append(f"LIBRARY.md quotes of {path} what is not there: {quoted.splitlines()[0]}")
    return wrong


def meanings() -> list[str]:
    """Returns the faults whose meaning in docs/FAULTS.md is not the text that the code writes."""
    wrong: list[str] = []
    for heading, cell, path in (
        ("What each fault means for you, and what to do", 1, "crates/fv_base/src/fault.rt"),
        ("Faults of hand-off lists", 3, "crates/fv_hob/src/fault.rt"),
    ):
        code = re.sub(r"\\\n\s*", "", read(path))
        numbers = dict(re.findall(r"Kind::(\w+) => (\d+),", code))
        said = re.findall(r'Kind::(\w+) =>\s*\{?\s*"([^"]*)"', code)
        said += [(kind, text) for text, kind in re.findall(r'#\[error\("([^"]*)"\)\]\s*(\w+),', code)]
        written = {numbers.get(kind): text for kind, text in said}
        shown = {row[0]: row[cell] for row in rows(section("docs/FAULTS.md", heading)) if row[0][0].isdigit()}
        differing = {number: text for number, text in shown.items() if written.get(number) != text}
        wrong += [f"FAULTS.md, {heading}: {number}: {text}" for number, text in differing.items()]
        wrong += [f"FAULTS.md, {heading}: no row of {number}" for number in written if number not in shown]
    return wrong


def paths() -> list[str]:
    """Returns the missing files among those that documents name by a link or with their folder. A part of a path in
    capitals, as NAME, matches any name."""
    wrong: list[str] = []
    for document in found_by("*.md", "*/*.md", "rust/*/*.md", "tests/**/*.md"):
        text, beside = read(document), os.path.dirname(document)
        wrong += dead_links(Path(document), text)
        for path in NAMED.findall(text):
            any_part = re.sub(r"\b[A-Z]{2,}\b", "*", path)
            places = [any_part, os.path.join(beside, any_part), f"crates/*/{any_part}"]
            if not re.search(r"/out\b", path) and not any(glob.glob(place) for place in places):
                wrong.append(f"{document} names {path}, which is not there")
    return wrong


def main() -> int:
    """Runs all of these checks. Returns the exit status."""
    os.chdir(ROOT)
    words = Words()
    cited = roots(words)
    public = words.closure(cited)
    wrong = borders() + standard() + wrong_bodies() + quotes() + meanings() + paths()
    for key in sorted(words.groups):
        crate, module, word = key
        is_inner = (crate, module) in words.private
        if is_inner and key in public:
            wrong.append(f"{crate}: {module}.{word} is reached by a public clause")
        if not is_inner and key not in public:
            wrong.append(f"{crate}: {module}.{word} serves private clauses alone")
    summary = f"{len(words.groups)} in specs/, {len(public)} reached by public clauses, {len(cited)} cited"
    return report("words", wrong, summary)


if __name__ == "__main__":
    sys.exit(main())
