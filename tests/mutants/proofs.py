# SPDX-License-Identifier: BSD-2-Clause-Patent
"""The declarations of proof files: answers of goals, and lemmas."""

import dataclasses
import itertools
import re

from tests.mutants.functions import indent_of
from tests.sources.definitions import reached

# The line that begins a declaration in a proof file, and the other lines that begin a part of a proof file.
DECLARES = re.compile(r"(?:pub )?(\S+) : ")
APART = re.compile(r"use |--|mutual\b|mod |pub mod ")
# The line that begins a declaration in a file of lemmas, possibly in a module; a line of imports; and the words that
# begin a declaration which is not a lemma.
STATES = re.compile(r"( *)(?:pub )?([^\s:(){}]+) : ")
IMPORTS = re.compile(r" *(?:unfoldable )?(?:pub )?use ")
NO_LEMMA = re.compile(r" *(?:(?:unfoldable |pub )*use|abbrev|(?:pub )?record|data|axiom) ")
# The answer that searches briefly for a proof of the goal that an edit names, and the import of `rules`.
SEARCH = "search rules fits 100 steps 300000"
RULES = re.compile(r"(?m)^use Rattle\.std\.proofs\.Common\.\{(?:[^}]*, )?rules[,}]")


def answers(text: str) -> dict[str, tuple[int, int]]:
    """Returns the declarations of a proof file: the lines of each, from its first up to the next declaration."""
    lines = text.split("\n")
    matches = ((at, APART.match(it), DECLARES.match(it)) for at, it in enumerate(lines))
    begins = [(at, it[1] if it and not apart else "") for at, apart, it in matches if it or apart]
    return {name: (at, end) for (at, name), (end, _) in itertools.pairwise([*begins, (len(lines), "")]) if name}


def without(text: str, name: str) -> str | None:
    """Returns a proof file without the declaration of this name, or nothing if it has no declaration of this name."""
    place = answers(text).get(name)
    if not place:
        return None
    lines = text.split("\n")
    return "\n".join(lines[: place[0]] + lines[place[1] :])


def answered(text: str) -> set[str]:
    """Returns the goals that a proof file answers."""
    lines = text.split("\n")
    return {it for it, (at, _) in answers(text).items() if lines[at].removeprefix("pub ") == f"{it} : goal.{it}"}


def without_lemmas(text: str, crate: str) -> str:
    """Returns a proof file without the imports of lemmas of its own crate whose names do not occur in it."""
    lines = text.split("\n")
    rest = "\n".join(it for it in lines if not it.startswith("use "))

    def is_used(line: str) -> bool:
        """Returns whether a line is another line than an import of lemmas, or one of the imported names occurs."""
        imports = re.fullmatch(rf"use Rattle\.{crate}\.proofs\.[^{{]*\{{(.*)\}}", line)
        names = [it.rpartition(" as ")[2].strip() for it in imports[1].split(",")] if imports else []
        return not imports or any(all(part in rest for part in it.split("◌")) for it in names)

    return "\n".join(it for it in lines if is_used(it))


def assumed(text: str, names: tuple[str, ...], module: str) -> str:
    """Returns the proof file of a function of this module, in which some goals are given and not proved."""
    for name in names:
        text = without(text, name) or text
    text = without_lemmas(text, module.split(".")[1])
    text = text.rstrip("\n") or f"use {module}.Goals as goal"
    return "\n\n".join([text, *(f"axiom pub {name} : goal.{name}" for name in names)]) + "\n"


def searched(text: str, name: str, module: str) -> str:
    """Returns the proof file of a function of this module, in which the answer of a goal is SEARCH."""
    text = text.rstrip("\n") or f"use {module}.Goals as goal"
    if not RULES.search(text):
        text = f"use Rattle.std.proofs.Common.{{rules}}\n{text}"
    return f"{text}\n\npub {name} : goal.{name}\n{name} c = {SEARCH}\n"


def resting(text: str, name: str) -> set[str]:
    """Returns one declaration of a proof file, and the declarations that depend on it."""
    lines = text.split("\n")
    bodies = {it: "\n".join(lines[at:end]) for it, (at, end) in answers(text).items()}

    def after(other: str) -> list[str]:
        return [it for it, body in bodies.items() if re.search(rf"(?<![\w.-]){re.escape(other)}(?![\w-])", body)]

    return reached([name], after)


@dataclasses.dataclass(frozen=True)
class Lemma:
    """A declaration of a file of lemmas that a proof follows: its name, its indentation, its first line, the line
    behind its type, and the line behind its proof."""

    name: str
    indent: str
    first: int
    proof: int
    end: int


def behind(lines: list[str], at: int, indent: str) -> int:
    """Returns the line behind the lines from `at` on that continue a declaration or a clause with this indentation."""
    end = at
    while end < len(lines):
        line = lines[end]
        is_deeper = len(indent_of(line)) > len(indent) or line.startswith(tuple(indent + it for it in ")]}"))
        if line.strip() and is_deeper:
            at = end + 1
        elif line.strip():
            break
        end += 1
    return at


def lemma_at(lines: list[str], at: int) -> Lemma | None:
    """Returns the lemma that begins at a line, or nothing if none begins there."""
    states = None if NO_LEMMA.match(lines[at]) else STATES.match(lines[at])
    if not states:
        return None
    indent, name = states[1], states[2]
    proof = behind(lines, at + 1, indent)
    begins = proof + (proof < len(lines) and lines[proof].startswith(f"{indent}unfolding "))
    end, clause = begins, re.compile(rf"{indent}{re.escape(name)}(?![^\s=])")
    while end < len(lines) and clause.match(lines[end]):
        end = behind(lines, end + 1, indent)
    return Lemma(name, indent, at, proof, end) if end > begins else None


def lemmas(text: str) -> list[Lemma]:
    """Returns the lemmas of a proof file. Those of a `mutual` block are left out, because they need one another."""
    lines, found, levels, at = text.split("\n"), list[Lemma](), [""], 0
    while at < len(lines):
        line, indent = lines[at], indent_of(lines[at])
        is_text = bool(line.strip()) and not line.lstrip().startswith("--")
        while is_text and len(indent) < len(levels[-1]):
            levels.pop()
        lemma = lemma_at(lines, at) if is_text and indent == levels[-1] else None
        if lemma:
            found.append(lemma)
            at = lemma.end
        elif is_text and indent == levels[-1] and line.strip() == "mutual":
            at = behind(lines, at + 1, indent)
        elif is_text and indent == levels[-1] and line.lstrip().startswith("module "):
            while not lines[at].endswith(" where"):
                at += 1
            levels.append(indent + "  ")
            at += 1
        else:
            at += 1
    return found


def words_of_types(texts: dict[str, str]) -> set[str]:
    """Returns the words of proof files outside of proofs and imports, with each definition that a type names."""
    found: set[str] = set()
    for text in texts.values():
        lines = text.split("\n")
        for lemma in lemmas(text):
            lines[lemma.proof : lemma.end] = [""] * (lemma.end - lemma.proof)
        for line in lines:
            if not IMPORTS.match(line) and not line.lstrip().startswith("--"):
                found.update(re.split(r"[\s(){}\[\],;.:]+", STATES.sub("", line, count=1)))
    return found


def given_lemmas(texts: dict[str, str]) -> dict[str, str]:
    """Returns the proof files that belong to no function, with an axiom in place of each lemma whose name occurs in no
    type. A declaration whose name occurs in a type is a definition, and stays as it is."""
    proofs = {file: text for file, text in texts.items() if file.startswith("proofs/")}
    types, found = words_of_types(proofs), dict[str, str]()
    own = ("/Answers.antt", "/Invariants.antt", "/Proof.antt")
    for file, text in [it for it in proofs.items() if not it[0].endswith(own)]:
        lines = text.split("\n")
        for lemma in reversed([it for it in lemmas(text) if it.name not in types]):
            head = f"{lemma.indent}axiom {lines[lemma.first].lstrip()}"
            lines[lemma.first : lemma.end] = [head, *lines[lemma.first + 1 : lemma.proof]]
        found[file] = "\n".join(lines)
    return found
