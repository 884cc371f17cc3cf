# SPDX-License-Identifier: BSD-2-Clause-Patent
"""The functions of a source in Rattle: where they are, and by which names the checker knows them."""

import dataclasses
import re

from tests.sources.definitions import FUNCTION, Clause, blank, contract

# Patterns for lines of a source: the attribute of a function that is proved with others, the first line of an `impl` or
# a trait, the first line of a type, and an import.
CYCLE = re.compile(r"\s*#\[cycle\((\w+)\)\]")
HOLDER = re.compile(r"(?:pub(?:\([^)]*\))? )?(impl|trait)\b")
TYPE = re.compile(r"(?m)^(?:pub(?:\([^)]*\))? )?(?:struct|enum) (\w+)")
IMPORT = re.compile(r"\s*(?:pub(?:\([^)]*\))? )?use ")


@dataclasses.dataclass(frozen=True)
class Function:
    """A function of a source: the first line of its attributes, its first line, the line that opens its body, and its
    last line; its path below the crate; and the unit that is proved as one, which is the function or the cycle that
    contains it. `is_single` says whether a copy of it may be put beside it under another name: the function must not be
    in a cycle, in a trait or in an `impl` of a trait. `is_public` says whether other crates or C can call it."""

    file: str
    head: int
    first: int
    body: int
    last: int
    path: str
    unit: str
    is_single: bool
    is_public: bool


def indent_of(line: str) -> str:
    """Returns the spaces at the start of a line."""
    return line[: len(line) - len(line.lstrip(" "))]


def proofs_of(unit: str, file: str = "Answers.antt") -> str:
    """Returns the path of a proof file of a function, or of a cycle."""
    return f"proofs/{unit.replace('::', '/')}/{file}"


def holder_of(header: str) -> str:
    """Returns the name that the checker gives to an `impl` or a `trait`: `VecU8Collector` for `impl Collector for
    Vec<u8>`, and `WordFaultFromIoError` of `impl From<io::Error> for WordFault`. The name contains no lifetimes and no
    parameters of the `impl`."""
    bare = re.split(r"\bwhere\b|\{", header.replace("->", ""))[0]
    _, begin, rest = re.split(r"^((?:pub )?impl<(?:[^<>]|<(?:[^<>]|<[^<>]*>)*>)*>|)", bare, maxsplit=1)
    parameters = {*re.findall(r"(?:<|, )(?:const )?(\w+)\b", begin)}
    rest = re.sub(r"'\w+|\b(?:pub|impl|trait)\b", "", rest)
    trait, _, kind = re.split(r": ", rest)[0].rpartition(" for ")
    # The path of the type or of the trait is left out. A path among its parameters stays.
    parts = [re.sub(r"^\s*(?:\w+::)+", "", it) for it in (kind, trait)]
    words = [it for part in parts for it in re.findall(r"\w+", part) if it not in parameters]
    return "".join(it[0].upper() + it[1:] for it in words)


def module_of(file: str) -> list[str]:
    """Returns the module of a source, as a path of at most one part."""
    module = re.sub(r"^src/|\.rt$", "", file).removesuffix("/mod").replace("/", "::")
    return [] if module in ("lib", "main") else [module]


def homes(texts: dict[str, str]) -> dict[str, list[str]]:
    """Returns the modules of the types of a crate. The checker names a method by the module of its type."""
    sources = {file: text for file, text in texts.items() if file.startswith("src/")}
    return {name: module_of(file) for file, text in sources.items() for name in TYPE.findall(text)}


def extent(lines: list[str], first: int, indent: str, in_trait: bool) -> tuple[int, int] | None:
    """Returns the line that opens the body of the function that begins at a line, and the last line of the function. If
    the function is a trait's function without a body, returns nothing."""
    for number in range(first, len(lines)):
        line = lines[number]
        opens = number == first or line.startswith((f"{indent}{{", f"{indent})"))
        if opens and line.endswith("{}"):
            return number, number
        if opens and line.endswith("{"):
            last = next((at for at in range(number, len(lines)) if lines[at].startswith(f"{indent}}}")), None)
            return (number, last) if last is not None else None
        if in_trait and line.endswith(";"):
            return None
    return None


def calls_itself(name: str, body: list[str], in_type: bool) -> bool:
    """Returns whether a body calls its own function, which is then proved as a cycle."""
    before = r"(?:(?<![\w.:])Self::|(?<![\w.])self\.)" if in_type else r"(?<![\w.:])"
    return bool(re.search(rf"{before}{name}\(", "\n".join(line.partition("//")[0] for line in body)))


def functions(file: str, texts: dict[str, str]) -> list[Function]:
    """Returns the functions of a crate's source that have bodies, in their order."""
    lines, found, holder, cycle, in_trait, of_trait = texts.get(file, "").split("\n"), [], "", "", False, False
    parts, types = module_of(file), homes(texts)
    for number, line in enumerate(lines):
        begins, is_cycle, holds = FUNCTION.match(line), CYCLE.match(line), HOLDER.match(line)
        if holds:
            header = " ".join(lines[number : number + 6])
            holder, in_trait = holder_of(header), holds[1] == "trait"
            of_trait = in_trait or " for " in re.split(r"\bwhere\b|\{", header)[0]
        elif line.startswith("}"):
            holder, in_trait, of_trait = "", False, False
        cycle = is_cycle[1] if is_cycle else cycle
        lies = extent(lines, number, begins[1], in_trait) if begins else None
        if begins and lies:
            in_type = bool(begins[1] and holder)
            inside = [*types.get(holder, parts), holder] if in_type else parts
            path = "::".join([*inside, begins[4]])
            alone = f"+{begins[4]}" if calls_itself(begins[4], lines[number + 1 : lies[1] + 1], in_type) else begins[4]
            unit = "::".join([*parts, f"+{cycle}"] if cycle else [*inside, alone])
            is_single = unit == path and not (begins[1] and of_trait)
            is_public = begins[2] == "pub " or bool(begins[3])
            head = number
            while head and lines[head - 1].strip().startswith("#["):
                head -= 1
            found.append(Function(file, head, number, *lies, path, unit, is_single, is_public))
            cycle = ""
    return found


def around(file: str, texts: dict[str, str], line: int) -> Function | None:
    """Returns the function that contains a line of a source, without the attributes and comments above a function."""
    return next((it for it in functions(file, texts) if it.first <= line <= it.last), None)


def promises(function: Function, texts: dict[str, str]) -> list[Clause]:
    """Returns the `ensures` clauses of a function. A method of a trait's `impl` has none: they are in the trait."""
    text = texts[function.file]
    begins = FUNCTION.match(text, sum(len(it) + 1 for it in text.split("\n")[: function.first]))
    return [it for it in contract(text, blank(text), begins.end()) if it.is_ensured] if begins else []


def clause_of(goal: str, function: Function, texts: dict[str, str]) -> Clause | None:
    """Returns the clause of a function that a goal is about: the clause that the goal names, or else the only clause.
    Returns nothing for a goal that is not about the function's end, and for a goal about a clause of a trait."""
    own = goal.removeprefix(f"{function.path.rpartition('::')[2]}-")
    named, found = re.search(r"-clause-([\w-]+)$", own), promises(function, texts)
    if not own.startswith("returns") or not named and len(found) > 1:
        return None
    return next((it for it in found if not named or it.name == named[1]), None)


def can_be_broken(goal: str, owners: list[Function], texts: dict[str, str]) -> bool:
    """Returns whether a wrong body of one of these functions can make a goal false. It cannot if the goal is about a
    clause that says nothing of the outcome."""
    found = [it for it in (clause_of(goal, owner, texts) for owner in owners) if it]
    return not found or any(it.is_of_outcome for it in found)


def stubbed(texts: dict[str, str], units: set[str]) -> dict[str, str]:
    """Returns texts in which the bodies of some functions do nothing. These functions keep their contracts, and their
    theorems are given. They are in no cycle, because they call nothing. `const` functions stay as they are, because a
    constant may need their results."""
    found = dict(texts)
    for file in [it for it in texts if it.startswith("src/")]:
        lines, text, at = texts[file].split("\n"), list[str](), 0
        for it in functions(file, texts):
            if it.unit in units and " const fn " not in f" {lines[it.first]}" and it.body < it.last:
                text += [*lines[at : it.head], *(line for line in lines[it.head : it.first] if not CYCLE.match(line))]
                text += [*lines[it.first : it.body + 1], f"{indent_of(lines[it.first])}    loop {{}}"]
                at = it.last
        found[file] = "\n".join([*text, *lines[at:]])
    return found
