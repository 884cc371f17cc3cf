# SPDX-License-Identifier: BSD-2-Clause-Patent
"""Makes the parts of docs/MEANING.md and docs/CONTRACTS.md that repeat the comments of the sources.

These parts are between the lines `<!-- made -->` and `<!-- end -->`, crate after crate. In MEANING.md each crate has a
table of its definitions, with a row for each comment of `specs/`. The row has as many sentences of the comment as a
cell has room for. In CONTRACTS.md each crate has a list of its public calls: the comment of each call, the comments of
its clauses, its errors, and the definitions that its contract cites. With `--write` this script writes the parts.
Otherwise it fails if a part differs."""

import argparse
import os
import re
import sys
import textwrap
from collections.abc import Iterator

from tests.checks import ROOT, read, report
from tests.sources.definitions import DOOR, Call, Entry, Key, Place, Words
from tests.sources.definitions import calls, entries, imports, paragraphs, roots, sources

MADE = re.compile(r"(?s)(?<=<!-- made -->\n).*?(?=\n<!-- end -->)")
WIDTH, CELL = 120, 200
# A call with less text than this is put into one paragraph with its type, or with the other calls of its file that have
# little text.
SHORT = 200
SPECIFICATION = re.compile(r"\s*\((?:PI|UEFI) specification[^)]*\)")
TYPE = re.compile(r"(?m)^(?:pub (?:struct|enum|trait) (\w+)|impl\b(?:<[^\n]*?>)? (?:([^\n]*?) for) (\w+))")


class Reach:
    """The definitions that public clauses cite, and the files that cite each definition that is reached from there."""

    def __init__(self) -> None:
        """Reads all definitions and contracts."""
        self.words = Words()
        self.citing: dict[Key, set[Place]] = {}
        self.cited = roots(self.words)
        for key in self.words.closure(self.cited):
            place = key[:2]
            for other in self.words.cited(self.words.groups[key].text, self.words.imports[place], place):
                self.citing.setdefault(other, set()).add(place)

    def has(self, key: Key) -> bool:
        """Returns whether a definition is cited by a public clause, or by a reached definition of another file."""
        return key in self.cited or bool(self.citing.get(key, set()) - {key[:2]})

    def is_statement(self, key: Key) -> bool:
        """Returns whether a definition states something in a contract, which neither a function nor a kind of values
        does."""
        word = key[2]
        kind = rf"(?m)^ *(?:pub )?(?:data {word}|record {word} :)"
        return word[0].isupper() and not re.search(kind, self.words.groups[key].text)


def sentences(text: str) -> str:
    """Returns as many of the first sentences of a comment as a cell has room for, but at least one sentence."""
    found = ""
    for sentence in re.findall(r".+?(?:\. (?=[A-Z`])|$)", text):
        if found and len(found) + len(sentence) > CELL:
            break
        found += sentence
    return found.strip().removesuffix(".").replace("|", "\\|")


def place_of(module: str, text: str) -> str:
    """Returns the cell for a file: its name, and the sections of the PI specification that its first comment names. The
    sections belong to volume 3 unless the comment names another volume."""
    lines = re.match(r"(?:--.*\n)*", text)
    head = " ".join(re.findall(r"(?m)^-- (.*)$", lines[0] if lines else ""))
    match = re.search(r"\(PI specification, ((?:(?:and )?volume \d, |sections? |[\d., ]|and |to )+)", head)
    return module + (", " + re.sub(r"volume 3, |sections? ", "", match[1]).strip(", ") if match else "")


def with_arguments(word: str, text: str) -> str:
    """Returns a definition's name, with its arguments if the definition names them in one line."""
    record = re.search(rf"(?m)^(?:pub )?record {re.escape(word)}(?=[ ({{:])((?:\s*[({{][^)}}]*[)}}])*)", text)
    lines = re.findall(rf"(?m)^ *{re.escape(word)}((?: +[^ =]+)*) =", text)
    if record:
        return " ".join([word, *re.findall(r"\(([^:)]*) :", record[1])])
    is_plain = len(lines) == 1 and re.fullmatch(r"(?: (?!zero\b)[a-z]\w*)+", lines[0])
    return f"{word}{lines[0]}" if is_plain else word


def rows(crate: str, module: str, text: str, reach: Reach) -> Iterator[str]:
    """Returns the rows of a file of definitions. A definition without a comment is in the row of the previous
    comment."""
    found: list[Entry] = []
    for entry in (entry for paragraph in paragraphs(text) for entry in entries(paragraph)):
        if entry.comment or not found:
            found.append(Entry([], entry.comment or "no comment"))
        found[-1].words.extend(entry.words)
    for entry in found:
        if any(reach.has((crate, module, word)) for word in entry.words):
            first, *others = entry.words
            names = ", ".join(f"`{name}`" for name in [with_arguments(first, text), *others])
            yield f"| {names} | {sentences(SPECIFICATION.sub('', entry.comment))} | {place_of(module, text)} |"


def meaning(crate: str, reach: Reach) -> str:
    """Returns the table of a crate's definitions, in an order for reading."""
    path = f"crates/{crate}/specs/Lib.antt"
    lines = ["| Name | Meaning | File, sections of PI |", "|---|---|---|"]
    for module in re.findall(r"(?m)^pub mod (\w+)", read(path)):
        if module not in ("inner", DOOR):
            lines += rows(crate, module, read(f"crates/{crate}/specs/{module}.antt"), reach)
    return "\n".join([f"\n## {crate}\n", *lines])


def wrapped(text: str, first: str = "") -> str:
    """Returns a text as a paragraph, or as an item of a list. Names in backticks are not divided."""
    joined = re.sub(r"`[^`]*`", lambda match: match[0].replace(" ", "\0"), re.sub(r"\s+", " ", text))
    filler = textwrap.TextWrapper(WIDTH, first, " " * len(first), break_long_words=False, break_on_hyphens=False)
    return filler.fill(joined).replace("\0", " ")


def comment_above(text: str, start: int) -> tuple[str, str]:
    """Returns the comment above the line that begins at `start`, as two texts: the comment without its part on errors,
    and this part."""
    lines: list[str] = []
    for line in reversed(text[:start].split("\n")[:-1]):
        if not re.match(r"\s*(//|#\[)", line):
            break
        lines += re.findall(r"//[/!]? ?(.*)", line)
    said, _, errors = SPECIFICATION.sub("", " ".join(reversed(lines))).partition("# Errors")
    return re.sub(r"\s+", " ", said).strip(), re.sub(r"\s+", " ", errors).strip()


def promises(call: Call, reach: Reach) -> str:
    """Returns the promises of a call: its comment, the comments of its clauses, its errors, and the definitions that it
    cites. (fv.h contains the comments of calls for C.)"""
    text = read(call.path)
    said, errors = ("", "") if call.is_of_c else comment_above(text, call.start)
    blocks: list[Entry] = []
    cited: set[Key] = set()
    for clause in call.clauses:
        if clause.begins:
            blocks.append(Entry([], clause.comment))
        blocks[-1].words.append(f"*{clause.name}*" if clause.name else "")
        cited |= reach.words.cited(clause.text, imports(text))
    parts = [said]
    for block in blocks:
        if block.comment:
            parts.append(": ".join(filter(None, (", ".join(filter(None, block.words)), block.comment))))
    parts += [f"Errors: {errors}"] * bool(errors)
    names = sorted(key[2] for key in cited if reach.is_statement(key))
    return " ".join(filter(None, parts)) + (f" ({', '.join(f'`{name}`' for name in names)})" if names else "")


def types(crate: str) -> dict[str, list[str]]:
    """Returns the comments of a crate's public types and traits, and the comments of their implementations of other
    traits."""
    found: dict[str, list[str]] = {}
    for source in sources(crate):
        for match in TYPE.finditer(source.text):
            said, name = comment_above(source.text, match.start())[0], match[1] or match[3]
            if said and (crate == "fv_tool" or name in source.exported):
                said = f"As `{match[2]}`: {said}" if match[2] else said
                found[name] = [*found.get(name, []), said] if match[2] else [said, *found.get(name, [])]
    return found


def contracts(crate: str, reach: Reach) -> str:
    """Returns the list of a crate's calls. Calls with little text share an item: the calls of a type, or of a file."""
    known = types(crate)
    items: dict[object, list[str]] = {}
    for call in calls(crate):
        text = "" if call.is_inner else promises(call, reach)
        key = call.owner or call.path
        name = f"{call.owner}::{call.name}" if call.owner else call.name
        if text and len(text) > SHORT:
            items[call.path, call.start] = [f"`{name}`: {text}"]
        elif text:
            items.setdefault(key, [f"`{key}`: " + " ".join(known[key])] if key in known else [])
            items[key].append(f"`{call.name if key in known else name}`: {text}")
    for name, said in known.items():
        items.setdefault(name, [f"`{name}`: " + " ".join(said)] * (len(said) > 1))
    root = next(source.text for source in sources(crate) if source.module in ("lib", "main"))
    head = SPECIFICATION.sub("", " ".join(re.findall(r"(?m)^//! ?(.*)$", root)))
    return "\n".join([f"\n## {crate}\n", wrapped(head), "", *(wrapped(" ".join(parts), "- ") for parts in items.values() if parts)])


def main() -> int:
    """Compares the made parts with the sources, or writes them. Returns the exit status."""
    reader = argparse.ArgumentParser(description="Compares docs/MEANING.md and docs/CONTRACTS.md with the sources.")
    reader.add_argument("--write", action="store_true", help="writes the parts of these pages that are made")
    given = reader.parse_args()
    os.chdir(ROOT)
    reach = Reach()
    wrong: list[str] = []
    crates = [crate for crate in re.findall(r"(?m)^fv_\w+", read("crates.txt")) if not crate.endswith("_tests")]
    for path, make in (("docs/MEANING.md", meaning), ("docs/CONTRACTS.md", contracts)):
        text = read(path)
        part = "\n".join([*(make(crate, reach) for crate in crates), ""])
        made, places = MADE.subn(lambda _: part, text)
        wrong += [f"{path} has no place for what is made"] * (places != 1)
        if made != text and given.write:
            with open(path, "w", encoding="utf-8") as file:
                file.write(made)
        elif made != text:
            wrong.append(f"{path} differs from the comments of the sources: tests/run.py tables -- --write")
    return report("tables", wrong)


if __name__ == "__main__":
    sys.exit(main())
