# SPDX-License-Identifier: BSD-2-Clause-Patent
"""Reads the definitions of specs/ and the contracts of src/, with their comments, and finds the definitions that the
contracts reach."""

import functools
import glob
import os
import re
from collections.abc import Callable, Iterable, Iterator
from dataclasses import dataclass
from typing import TypeVar

from tests.checks import read

# A Place is a file of definitions: its crate, and its module in specs/. A Key is a definition: its file, and its name
# in this file.
Place = tuple[str, str]
Key = tuple[str, str, str]
T = TypeVar("T")

NAME = r"[^\W\d][\w\-']*"
INNER = "inner."
# The module through which a crate exports its definitions.
DOOR = "Words"
IMPORT = re.compile(
    r"(?m)^[ \t]*(?:ghost |pub |unfoldable )*use\s+Rattle\.(fv_\w+)\.specs\.([\w.+\-]+?)"
    r"(?:\.\{([^}]*)\}|\s+as\s+([^\s;]+))(?=;|\s*$)"
)
# The lines that begin a definition. These lines are at the left margin, or indented by two spaces in a mutual block, or
# indented further for a constructor of a data type.
DEFINES = re.compile(rf"(?:(?:abbrev|unfoldable|opaque) )*(?:pub )?(?:record |data )?({NAME})(?=[ ({{:])")
IN_MUTUAL = re.compile(rf"  pub (?:record |data )?({NAME})(?=[ ({{:])")
CONSTRUCTOR = re.compile(r"(?:  ){1,2}([A-Z]\w*) :")
# The ghost members of a type or a trait that others can use. Its other ghost members are measures and proofs.
SHOWN = {"Value", "view", "invariant", "takes", "remaining"}
NO_WORDS = {"abbrev", "pub", "record", "data", "unfoldable", "opaque", "mutual", "where", "use"}

# Three patterns: the text of a function up to its first clause or its body, a clause with the text before it, and the
# beginning of a function.
SIGNATURE = re.compile(r"(?:[^{;\[]|\[[^\]]*\])*")
CLAUSE = re.compile(r"(?:[^{;\[]|\[[^\]]*\])*?\b(requires|ensures)\b([^\n{;]*)\{")
FUNCTION = re.compile(r'(?m)^([ \t]*)(pub(?:\([a-z]+\))? )?(?:const )?(extern "C" )?fn (\w+)')
# What a clause is about if a body can break it: the result, or the state of a parameter after the call.
OUTCOME = re.compile(r"(?<![\w.'-])(?:result|\w+\.new)(?![\w'-])")


@dataclass(frozen=True)
class Clause:
    """An `ensures` or a `requires`. The comment of a clause that begins a block is also for the block's others."""

    name: str
    comment: str
    begins: bool
    text: str
    is_ensured: bool

    @property
    def is_of_outcome(self) -> bool:
        """Returns whether a body can break the clause, which then names the result or a new state. Any other clause
        says something of the arguments only, as the clauses of a law do."""
        return bool(OUTCOME.search(self.text))


@dataclass(frozen=True)
class Call:
    """A function, with the offset of its line. `owner` is its type or trait, and `is_inner` marks a private method."""

    path: str
    start: int
    owner: str
    name: str
    is_inner: bool
    is_of_c: bool
    clauses: list[Clause]


@dataclass(frozen=True)
class Imports:
    """The names of definitions and of modules that a file imports, with their meaning."""

    names: dict[str, Key]
    modules: dict[str, Place]


@dataclass(frozen=True)
class Entry:
    """The definitions under one comment, and this comment, or those in one paragraph, and its text without comments."""

    words: list[str]
    comment: str = ""
    text: str = ""


@dataclass(frozen=True)
class Source:
    """A file of a crate's code, the names that the crate exports, and whether the module is public."""

    path: str
    module: str
    text: str
    exported: set[str]
    is_public: bool


@functools.cache
def door(crate: str) -> dict[str, Key]:
    """Returns the definitions that a crate exports through its module Words, by their names in it."""
    path = f"crates/{crate}/specs/{DOOR}.antt"
    return imports(read(path)).names if os.path.exists(path) else {}


def definition(crate: str, module: str, word: str) -> Key:
    """Returns the definition that a name of a module means. The module Words has names of other modules."""
    key = (crate, module, word)
    return door(crate).get(word, key) if module == DOOR else key


def imports(text: str) -> Imports:
    """Returns the meaning of the names that a file with this text imports."""
    found = Imports({}, {})
    for crate, module, listed, alias in IMPORT.findall(text):
        if alias:
            found.modules[alias] = (crate, module)
        for part in filter(None, map(str.strip, listed.split(","))):
            word, _, other = map(str.strip, part.partition(" as "))
            found.names[other or word] = definition(crate, module, word)
    return found


def paragraphs(text: str) -> list[str]:
    """Returns the definitions of a specs file, each with its comment. A mutual block is one paragraph."""
    return re.split(r"\n\n(?!  )", text.rstrip("\n"))


def entries(paragraph: str) -> list[Entry]:
    """Returns the definitions of a paragraph, grouped by their comments."""
    is_mutual = re.search(r"(?m)^(?:\w+ )?mutual", paragraph)
    is_data = re.search(r"(?m)^ *(?:pub )?data ", paragraph)
    found: list[Entry] = []
    comment: list[str] = []
    for line in paragraph.split("\n"):
        note = re.match(r"\s*-- (?!----)(.*)", line)
        if note:
            comment.append(note[1])
        if re.match(r"\s*(?:--|(?:pub )?use |(?:\w+ )?mutual)", line):
            continue
        match = DEFINES.match(line)
        match = match or (IN_MUTUAL.match(line) if is_mutual else None)
        match = match or (CONSTRUCTOR.match(line) if is_data else None)
        if match and match[1] not in NO_WORDS and not any(match[1] in entry.words for entry in found):
            if comment or not found:
                found.append(Entry([], " ".join(comment)))
            found[-1].words.append(match[1])
        comment = []
    return found


def reached(first: Iterable[T], after: Callable[[T], Iterable[T]]) -> set[T]:
    """Returns some things, and all things that come after them."""
    found, left = set[T](), [*first]
    while left:
        it = left.pop()
        if it not in found:
            found.add(it)
            left += after(it)
    return found


class Words:
    """The definitions of all crates, and the definitions that each of them cites."""

    def __init__(self) -> None:
        self.groups: dict[Key, Entry] = {}
        self.imports: dict[Place, Imports] = {}
        self.private: set[Place] = set()
        for path in sorted(glob.glob("crates/*/specs/**/*.antt", recursive=True)):
            crate, module = path.split("/")[1], path.split("/specs/")[1][:-5].replace("/", ".")
            if module in ("Lib", "inner", DOOR):
                continue
            text = read(path)
            self.imports[crate, module] = imports(text)
            if module.startswith(INNER):
                self.private.add((crate, module))
            for paragraph in paragraphs(text):
                words = [word for entry in entries(paragraph) for word in entry.words]
                for word in words:
                    self.groups[crate, module, word] = Entry(words, text=re.sub(r"(?m)--.*$", "", paragraph))

    def cited(self, text: str, known: Imports, own: Place | None = None) -> set[Key]:
        """Returns the definitions that a text cites, by the imports of its file, and by the definitions of that file if
        it is a file of definitions. A field's name in a record is not taken for a definition."""
        found: set[Key] = set()
        text = re.sub(rf"(?m)^(\s+)pub {NAME} :", r"\1:", text)
        for word in re.findall(rf"(?<![\w\-'◌.]){NAME}", text):
            if own and (*own, word) in self.groups:
                found.add((*own, word))
            if word in known.names and known.names[word] in self.groups:
                found.add(known.names[word])
        for alias, word in re.findall(rf"(?<![\w\-'◌.])(\w+)\.({NAME})", text):
            if alias in known.modules and definition(*known.modules[alias], word) in self.groups:
                found.add(definition(*known.modules[alias], word))
        return found

    def closure(self, first: Iterable[Key]) -> set[Key]:
        """Returns some definitions, and all definitions that they reach."""

        def after(key: Key) -> set[Key]:
            place, group = key[:2], self.groups[key]
            return self.cited(group.text, self.imports[place], place) | {(*place, word) for word in group.words}

        return reached(first, after)


def block(text: str, start: int) -> int:
    """Returns the offset after the block whose opening brace is just before `start`."""
    depth = 1
    while depth and start < len(text):
        depth += {"{": 1, "}": -1}.get(text[start], 0)
        start += 1
    return start


def contract(text: str, code: str, start: int) -> list[Clause]:
    """Returns the clauses of the function whose name ends at `start`. `code` is the text without comments."""
    found: list[Clause] = []
    while True:
        signature, match = SIGNATURE.match(code, start), CLAUSE.match(code, start)
        if not match or not signature or match.end() > signature.end() + 1:
            return found
        end = block(code, match.end())
        before = text[start : match.start(1)]
        comment = " ".join(re.findall(r"(?m)^\s*// (.*)$", before))
        begins = not found or "\n\n" in before or bool(comment)
        clause = code[match.end() : end - 1]
        found.append(Clause(match[2].strip(), comment, begins, clause, match[1] == "ensures"))
        start = end


def owner(code: str, start: int) -> tuple[str, bool]:
    """Returns the type or the trait whose block contains a place of some code, and whether it is a trait's."""
    heads = re.findall(r"(?m)^(?:impl\b(?:<[^\n]*?>)?(?:( [^\n]*?) for)? (\w+)|pub trait (\w+))", code[:start])
    trait, name, own_trait = heads[-1] if heads else ("", "", "")
    return name or own_trait, bool(trait or own_trait)


def blank(text: str) -> str:
    """Returns the code of a file: its text with blanks in place of its comments."""
    return re.sub(r"//[^\n]*", lambda match: " " * len(match[0]), text)


def sources(crate: str) -> Iterator[Source]:
    """Returns the files of a crate's code, without its tests."""
    root = read(f"crates/{crate}/src/lib.rt") if crate != "fv_tool" else ""
    exported = set(re.findall(r"\w+", " ".join(re.findall(r"(?ms)^pub use ([^;]*);", root))))
    for path in sorted(glob.glob(f"crates/{crate}/src/**/*.rt", recursive=True)):
        module = path.split("/src/")[1][:-3]
        if "/tests" not in path:
            yield Source(path, module, read(path), exported, bool(re.search(rf"(?m)^pub mod {module};", root)))


def calls(crate: str) -> Iterator[Call]:
    """Returns the public functions of a crate, or all functions of the program, in the order of its files."""
    for source in sources(crate):
        uses = r"(?m)^[ \t]*(?:ghost )?use [^;]*;"
        code = blank(re.sub(uses, lambda match: re.sub(r"[^\n]", " ", match[0]), source.text))
        for match in FUNCTION.finditer(code):
            indent, visibility, is_of_c, name = match.groups()
            own, is_of_trait = owner(code, match.start()) if indent else ("", False)
            if indent:
                is_shown = visibility in (None, "pub ") and own in source.exported
            else:
                is_shown = visibility == "pub " and bool(source.is_public or is_of_c or name in source.exported)
            if is_shown or crate == "fv_tool" and (visibility or source.module == "main"):
                is_inner = bool(indent) and not visibility and not is_of_trait
                clauses = contract(source.text, code, match.end())
                yield Call(source.path, match.start(), own, name, is_inner, bool(is_of_c), clauses)


def roots(words: Words) -> set[Key]:
    """Returns the definitions that the clauses of public functions, and the models of public types, cite."""
    found: set[Key] = set()
    for crate in sorted(os.listdir("crates")):
        for call in calls(crate):
            for clause in call.clauses:
                found |= words.cited(clause.text, imports(read(call.path)))
        for source in sources(crate):
            code = blank(source.text)
            for match in re.finditer(r"(?m)^[ \t]*ghost (\w+)\s*([=:])\s*\{", code):
                is_shown = match[1] in SHOWN or match[2] == ":"
                if is_shown and owner(code, match.start())[0] in source.exported:
                    found |= words.cited(code[match.end() : block(code, match.end())], imports(source.text))
    return found
