# SPDX-License-Identifier: BSD-2-Clause-Patent
"""Checks the words, sentences and widths of documents, comments of code, definitions and proofs, and the help of
scripts (their docstrings and the texts of argparse).

- Documents and comments do not use the words below that have a plainer word. (The words of WORDS_OF_DOCUMENTS may be
  used in comments, and in CONTRIBUTING.md, which lists them.)
- No sentence leaves out the noun that it is about ("What is installed has a page", "Those of a pad are not read"), and
  none turns a negative around ("is no volume").
- No line is too wide. Documents, comments and help have at most 120 characters in a line, and cells of tables at most
  200.

Words and sentences are not checked in code, in examples, in quoted texts, and in names that are in backticks or between
asterisks (names of functions, definitions and clauses). CONTRIBUTING.md explains the style."""

import ast
import os
import re
import sys
from collections.abc import Callable, Iterator
from dataclasses import dataclass, field

from tests.checks import ROOT, found_by, read, report, scripts

# Words to avoid, and what to write instead.
WORDS = {
    r"\b(?:want of memory|memory is wanted)\b": "write 'out of memory', 'memory runs out'",
    r"\bbehind\b(?! a pointer)": "write 'after'",
    r"\bstands?\b": "write 'is'",
    r"\b(?:is|are) told\b": "write 'is reported'",
    r"\baside\b": "write 'except'",
    r"\banswers (?:the|a|an|its|which|what|where)\b": "write 'returns'",
    r"\banswered\b": "write 'returned'",
    r"\bnought\b": "write 'zero'",
    r"\bhanded\b": "write 'passed'",
    r"\b(?:is|are) let go\b": "write 'is dropped'",
}
# Words to avoid in documents only.
WORDS_OF_DOCUMENTS = {
    r"\balone\b": "write 'only', 'on its own'",
    r"\bbut for\b": "write 'except for'",
    r"\btells?\b(?! \w+ apart)": "write 'says', 'reports'",
    r"\bso many\b": "write 'this many'",
    r"\ba front\b": "write 'a first part'",
}
# Sentences that have to be read twice, and what to do about them. A sentence begins at the head of a paragraph, or
# after one of these signs.
HEAD = r"(?:^|[.:;!?] )"
COMPARED = "longer|more|less|fewer|later|earlier|larger|smaller|greater|newer|older"
SENTENCES = {
    rf"{HEAD}(?:[Ww]hat (?:is|are|was|were|has|have|had)|[Ww]hatever is) (?![^.;:]*\?)": (
        "name the thing, as 'the installed files'"
    ),
    rf"{HEAD}(?:[Tt]hat|[Tt]hose) of ": "name the thing again, as 'a volume's digest'",
    rf"{HEAD}Of (?:a|an|the|all|each|every|these|those|this|what|its|two) ": (
        "begin with the subject, as 'A pad's checksum'"
    ),
    rf"(?<![Tt]here )\b(?:is|are|was|were|be) no (?!{COMPARED})": "write 'is not a'",
}
# Places where a sentence of this form is right: the file, and the words of the text.
ALLOWED = {
    ("recipes/README.md", "what is where, and what changed"),
    ("recipes/map/README.md", "what is where, how large it is"),
}
LINE, CELL = 120, 200
COMMENT = re.compile(r"\s*(?:--|//[/!]?)(?: |$)(.*)")
# The arguments of argparse that are shown to a user.
HELP = {"help", "description", "epilog", "usage"}
# The lines of a file that are read, each with its number.
Lines = Iterator[tuple[int, str | None]]
QUOTED = re.compile(r"`[^`]*`|\"[^\"]*\"|\*[a-z_]+\*")


@dataclass
class Paragraph:
    """Lines with their numbers, which are read as one text."""

    lines: list[tuple[int, str]] = field(default_factory=list)

    def text(self) -> str:
        """Returns the lines joined, with a mark in place of each quoted character."""
        return QUOTED.sub(lambda it: "`" * len(it[0]), " ".join(line for _, line in self.lines))

    def line_at(self, place: int) -> int:
        """Returns the number of the line that contains this place of the text."""
        for number, line in self.lines:
            place -= len(line) + 1
            if place < 0:
                return number
        return self.lines[-1][0]


def paragraphs(lines: list[tuple[int, str | None]]) -> Iterator[Paragraph]:
    """Divides lines into paragraphs: at lines that are empty or None, before an item of a list, and at each row of a
    table."""
    found = Paragraph()
    for number, line in lines:
        bare = "" if line is None else line.strip()
        begins = re.match(r"[-*] |\d+\. |[|#>]", bare)
        if (begins or not bare) and found.lines:
            yield found
            found = Paragraph()
        if bare:
            found.lines.append((number, bare))
    if found.lines:
        yield found


def of_document(path: str) -> Lines:
    """Returns the lines of a document, with None in place of code and examples."""
    is_code = False
    for number, line in enumerate(read(path).split("\n"), 1):
        is_fence = line.startswith("```")
        is_code ^= is_fence
        is_example = line.startswith("    ") and not re.match(r" +(?:[-*]|\d+\.) ", line)
        yield number, None if is_code or is_fence or is_example else line


def of_comments(path: str) -> Lines:
    """Returns the comments of a file of code, definitions or proofs, with None in place of all other lines."""
    for number, line in enumerate(read(path).split("\n"), 1):
        yield number, match[1] if (match := COMMENT.match(line)) else None


def texts_of(tree: ast.AST) -> Iterator[tuple[int, str]]:
    """Returns the texts of a script that a user reads, each with the number of its first line: comments of modules,
    classes and functions, and help."""
    for node in ast.walk(tree):
        if isinstance(node, ast.Module | ast.ClassDef | ast.FunctionDef) and ast.get_docstring(node):
            text = node.body[0].value if isinstance(node.body[0], ast.Expr) else None
        elif isinstance(node, ast.keyword) and node.arg in HELP:
            text = node.value
        else:
            continue
        if isinstance(text, ast.Constant) and isinstance(text.value, str):
            yield text.lineno, text.value


def of_script(path: str) -> Lines:
    """Returns the lines of a script's comments and help, with an empty line after each text."""
    for first, text in texts_of(ast.parse(read(path))):
        lines = text.split("\n")
        yield from ((first + number, line) for number, line in enumerate(lines))
        yield first + len(lines), None


def stumbles(path: str, lines: list[tuple[int, str | None]], table: dict[str, str]) -> Iterator[str]:
    """Returns the places to mend in the words and sentences of a file, with the way to mend them."""
    for paragraph in paragraphs(lines):
        text = paragraph.text()
        for hard, advice in table.items():
            for match in re.finditer(hard, text):
                around = text[match.start() : match.end() + 40].strip(".:;!? ")
                if not any(path == place and around.startswith(words) for place, words in ALLOWED):
                    yield f"{path}:{paragraph.line_at(match.end() - 1)}: '{around}': {advice}"


def wide(path: str, lines: list[tuple[int, str | None]]) -> Iterator[str]:
    """Returns the lines and cells of a file that are too wide."""
    for number, line in lines:
        if line and line.startswith("|") and path.endswith(".md"):
            cells = [cell for cell in line.strip("|").split(" | ") if len(cell) > CELL]
            yield from (f"{path}:{number}: a cell of {len(cell)} characters" for cell in cells)
        elif line and len(line) > LINE:
            yield f"{path}:{number}: a line of {len(line)} characters"


def main() -> int:
    """Checks all documents, sources and scripts. Returns the exit status."""
    os.chdir(ROOT)
    documents = found_by("*.md", "*/*.md", "rust/*/*.md", "tests/**/*.md", "recipes/**/*.md")
    sources = found_by("crates/*/src/**/*.rt", "crates/*/specs/**/*.antt", "crates/*/proofs/**/*.antt")
    # The scripts that a user runs or imports.
    helped = scripts("recipes/**/*", "python/**/*", "examples/*")
    wrong: list[str] = []
    ways: tuple[tuple[list[str], Callable[[str], Lines], dict[str, str]], ...] = (
        ([it for it in documents if it != "CONTRIBUTING.md"], of_document, WORDS | WORDS_OF_DOCUMENTS | SENTENCES),
        (["CONTRIBUTING.md"], of_document, WORDS | SENTENCES),
        (sources, of_comments, WORDS | SENTENCES),
        (helped, of_script, SENTENCES),
    )
    for paths, lines_of, table in ways:
        for path in paths:
            lines = list(lines_of(path))
            wrong += [*stumbles(path, lines, table), *wide(path, lines)]
    counts = f"{len(documents)} documents, comments of {len(sources)} files, help of {len(helped)} scripts"
    return report("plain", wrong, f"{counts}, {len(wrong)} places to mend")


if __name__ == "__main__":
    sys.exit(main())
