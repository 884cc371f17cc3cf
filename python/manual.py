#!/usr/bin/env python3
# SPDX-License-Identifier: BSD-2-Clause-Patent
"""Writes the manual pages of the program and of the package's commands to a folder. The page of the program is
man/fvtool.md with the parts of docs/PROGRAM.md that it links to. The pages of the commands are made from their parsers
and from the text that `--help` shows.

All pages are made in Markdown first: headings, paragraphs, examples (indented), tables, and items (`- term: text`, and
more paragraphs and examples, further in). Code and **names** are bold. Words in capitals in code, and *others*, are
italic."""

from __future__ import annotations

import argparse
import importlib
import os
import re
import textwrap
from collections.abc import Iterator
from pathlib import Path

import backend

ROOT = Path(__file__).resolve().parent.parent
DOCUMENTS = "/usr/share/doc/fvtool"  # the folder that the pages name
SIGNS = str.maketrans({"\\": r"\e", "-": r"\-", "'": r"\(aq", "^": r"\(ha", "~": r"\(ti"})
# The term of an item: code and emphasis.
TERM = re.compile(r"((?:(?:`[^`]+`|\*+[^*]+\*+)(?:,? and |, | to )?)+): ")
ENDING = """## Environment

- **LIBFV**: Names a shared object of the library, which is used in place of the installed shared object.

## Caveats

The command is not proved. The library, which reads volumes and opens sections, is proved. The sections in opened
contents are read by the command itself, and Brotli is opened by Python's `brotli`, if it is installed.

## See also

`fvtool`(1)"""


def escaped(text: str) -> str:
    """Returns a text in the form of roff. No line of it is a request."""
    return re.sub(r"(?m)^\.", r"\\&.", text.translate(SIGNS))


def bold(code: str) -> str:
    """Returns code in bold. Words in capitals are italic."""
    return r"\fB" + re.sub(r"(?<![-\w])[A-Z]+\b", r"\\fI\g<0>\\fB", code) + r"\fR"


def inline(text: str) -> str:
    """Returns the text of a paragraph in the form of roff."""

    def font(span: re.Match[str]) -> str:
        """Returns code, a name or an emphasis in its font."""
        code, name, emphasis = span.groups()
        return bold(code.strip()) if code else rf"\fB{name}\fR" if name else rf"\fI{emphasis}\fR"

    plain = re.sub(r"\[([^]]+)\]\([^)]*\)", r"\1", " ".join(text.split()))  # without links
    return re.sub(r"`([^`]+)`|\*\*([^*]+)\*\*|\*([^*]+)\*", font, escaped(plain))


def item(text: str) -> str:
    """Returns an item of a list: a term with its meaning, or a text after a bullet or a number."""
    mark, _, rest = text.partition(" ")
    if term := TERM.match(rest):
        return f".TP\n{inline(term[1])}\n{inline(rest[term.end() :])}"
    bullet = r"\(bu" if mark == "-" else mark
    return f".IP {bullet} 3\n{inline(rest)}"


def table(text: str) -> Iterator[str]:
    """Yields the rows of a table: the first two cells, and each further cell after its heading."""
    head, _, *rows = ([it.strip() for it in line.strip("|").split(" | ")] for line in text.split("\n"))
    for first, second, *others in rows:
        more = (f"\n.br\n{inline(f'{name}: {it}')}" for name, it in zip(head[2:], others))
        yield f".TP\n\\fB{inline(first)}\\fR\n{inline(second)}{''.join(more)}"


def roff(text: str) -> Iterator[str]:
    """Yields the parts of a page. Its synopsis is shown like code."""
    heading, is_first = "", True
    for block in re.split(r"\n\n|\n(?=- |\d\. )", text.strip("\n")):
        depth = len(block) - len(block.lstrip(" "))
        begin = "" if is_first else ".IP\n" if depth in (2, 6) else ".PP\n"
        is_first = block.startswith("##")
        if block.startswith("## "):
            heading = block[3:].upper()
            yield f".SH {heading}"
        elif is_first:
            yield f".SS {block[4:]}"
        elif re.match(r"- |\d\. ", block):
            yield item(block)
        elif block.startswith("|"):
            yield from table(block)
        elif depth < 4:
            yield begin + inline(block)
        elif heading == "SYNOPSIS":
            yield "\n".join([".nf", *map(bold, escaped(textwrap.dedent(block)).split("\n")), ".fi"])
        else:
            lines = f".nf\n{escaped(textwrap.dedent(block))}\n.fi"
            yield begin + (lines if depth >= 6 else f".RS 4\n{lines}\n.RE")


def statuses(text: str) -> Iterator[str]:
    """Yields the exit statuses of a command, each with its meaning."""
    _, *parts = re.split(r"(?:^|(?<=\. ))(\d): ", " ".join(text.split()))
    for number, meaning in zip(parts[::2], map(str.strip, parts[1::2])):
        yield f"- `{number}`: {meaning[0].upper()}{meaning[1:]}"


def options(parser: argparse.ArgumentParser) -> Iterator[str]:
    """Yields the arguments of a command, each with its help."""
    for action in parser._actions:
        names = ", ".join(action.option_strings) or str(action.metavar)
        value = f" {action.metavar}" if action.option_strings and action.metavar else ""
        yield f"- `{names}{value}`: {action.help}"


def of_command(parser: argparse.ArgumentParser) -> str:
    """Returns the page of a command in Markdown."""
    about, _, status = str(parser.description).partition("\n\nExit status ")
    subject, rest = re.split(r"\.\s", about, maxsplit=1)
    usage = re.sub("(?m)^ *", "    ", parser.format_usage().replace("usage: ", "", 1).rstrip())
    name = f"{parser.prog} - {subject[0].lower()}{subject[1:]}"
    described = ["## Name", name, "## Synopsis", usage, "## Description", rest.strip("\n")]
    return "\n\n".join([*described, "## Options", *options(parser), "## Exit status", *statuses(status), ENDING])


def of_program() -> str:
    """Returns the page of the program in Markdown, with the sections of docs/PROGRAM.md that it links to."""
    guide = (ROOT / "docs/PROGRAM.md").read_text(encoding="utf-8").replace("### Exit status", "## Exit status")

    def section(link: re.Match[str]) -> str:
        """Returns a section, without its heading."""
        return re.split(r"(?m)^## (?!Exit status)", guide.split(f"\n## {link[1]}\n")[1])[0].strip("\n")

    page = (ROOT / "man/fvtool.md").read_text(encoding="utf-8")
    return re.sub(r"(?m)^\[(.*)\]\(\.\./docs/PROGRAM\.md#\S+\)$", section, page)


def main() -> None:
    """Writes the pages."""
    reader = argparse.ArgumentParser(description="Writes the manual pages of the program and of the commands.")
    reader.add_argument("folder", type=Path, help="the folder that gets the pages")
    reader.add_argument("documents", nargs="?", default=DOCUMENTS, help="the folder with the documents of the program")
    given = reader.parse_args()
    os.environ["COLUMNS"] = "80"  # the width of a usage
    title, _, program = of_program().partition("\n\n")
    pages = {"fvtool": program.replace(DOCUMENTS, given.documents)}
    for name, module in [*backend.commands().items(), ("fvmap", "fv.map")]:  # the name of fv-map in 1.0
        pages[name] = of_command(importlib.import_module(module).parser())
    version = (ROOT / "VERSION").read_text(encoding="utf-8").strip()
    about = f'{title.split()[-1]} "Capstanolive {version}" "User Commands"'
    for name, page in pages.items():
        lines = [f".TH {escaped(name.upper())} 1 {about}", *roff(page), ""]
        made: Path = given.folder / f"{name}.1"
        made.unlink(missing_ok=True)  # a link is replaced, and not written through
        made.write_text("\n".join(lines), encoding="utf-8")
        made.chmod(0o644)  # whatever the umask is


if __name__ == "__main__":
    main()
