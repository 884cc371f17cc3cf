# SPDX-License-Identifier: BSD-2-Clause-Patent
"""Computes which definitions the headline rests on, and compares them with the lists in docs/PROVED.md of the files
that a reviewer must read.

The laws of the headline's first two sentences are the contracts of fv_canon's module headline. Its third sentence says
which inputs are rejected, and how: its laws rest on fv_canon's InputRejections. So that page has two lists. The first
names the files of the laws of the first two sentences, and these files contain no other definitions. The second names
the further files that define which inputs are rejected, by which fault, and where. The page also lists the types of the
code that the files of both lists cite."""

import os
import re
import sys
from collections.abc import Set

from tests.checks import ROOT, read, report, section
from tests.sources.definitions import Imports, Key, Place, Words

HEADLINE = ("fv_canon", "Headline")
REFUSALS = ("fv_canon", "InputRejections")
# The path of a module for a type of the code begins with `declared`. The file of src/ and the type follow.
TYPES = "declared."


def listed(text: str) -> set[Place]:
    """Returns the files that a passage names. The passage has the name of a crate, and after it the names of the
    crate's files."""
    found: set[Place] = set()
    for crate, names in re.findall(r"(fv_\w+)((?:\s+`\w+`,?)+)", text):
        found |= {(crate, name) for name in re.findall(r"`(\w+)`", names)}
    return found


def named_types(text: str) -> set[Key]:
    """Returns the types that a passage names, each after its crate and its file of src/, in the form fv_a `b.rt: C`,
    `D`."""
    found: set[Key] = set()
    crate, module = "", ""
    for name, place, word in re.findall(r"(fv_\w+)\s|`(?:(\w+)\.rt: )?(\w+)`", text):
        crate, module = name or crate, place or module
        if word:
            found.add((crate, module, word))
    return found


def types_of_code(known: Imports) -> set[Key]:
    """Returns the types of the code among the imports of a file. A type has its crate, its file of src/ and its
    name."""
    places = [*((crate, path) for crate, path, _ in known.names.values()), *known.modules.values()]
    found: set[Key] = set()
    for crate, path in places:
        if path.startswith(TYPES):
            module, _, word = path.removeprefix(TYPES).partition(".")
            found.add((crate, module, word.partition(".")[0]))
    return found


def main() -> int:
    """Compares the page with the definitions. Returns the exit status."""
    os.chdir(ROOT)
    words = Words()
    laws = re.findall(r"ensures \{ (\w+) \}", read("crates/fv_canon/src/headline.rt"))
    first = words.closure([(*HEADLINE, law) for law in laws])
    refusals = words.closure([key for key in words.groups if key[:2] == REFUSALS])
    files = {key[:2] for key in first}
    # A mutual block contains several definitions, and is counted once.
    blocks = {(*key[:2], words.groups[key].text) for key in first}
    lines = sum(bool(line.strip()) for _, _, text in blocks for line in text.split("\n"))
    passage = section("docs/PROVED.md", "Definitions to review")
    headline, besides, types = re.split(r"Further\s+files|The\s+types", passage)
    said = [int(number) for number in re.findall(r"\d+", headline)[:3]]
    computed = [round(len(first), -1), round(lines, -2), len(files)]
    wrong = []
    others = {key[:2] for key in refusals} - files
    strays = {key for key in words.groups if key[:2] in files} - first
    cited = {key for place in files | others for key in types_of_code(words.imports[place])}
    if len(laws) < 2 or not refusals:
        wrong.append("the module headline or the file InputRejections lacks the laws that this script looks for")
    differing: dict[str, Set[object]] = {
        "PROVED's list differs from the files that the headline rests on": listed(headline) ^ files,
        "the headline's files contain definitions that the headline does not rest on": strays,
        "PROVED's list of types differs from the types that these files cite": named_types(types) ^ cited,
        "PROVED's list of rejections differs": listed(besides) ^ others,
    }
    wrong += [f"{what}: {sorted(map(str, those))}" for what, those in differing.items() if those]
    if said != computed:
        wrong.append(f"PROVED says {said} definitions, lines and files; it is {computed}")
    summary = f"the headline rests on {len(first)} definitions, {lines} lines, in {len(files)} files"
    return report("believed", wrong, summary)


if __name__ == "__main__":
    sys.exit(main())
