# SPDX-License-Identifier: BSD-2-Clause-Patent
"""Finds the dead ends of installed pages.

- A link in a page leads to a page in its folder, and to a heading that this page has.
- A page that names a file of this repository, which is not installed, says where such files are.
- A folder or file below the folders of the installation that a page or a manual page names is there.
- A manual page names no file of this repository."""

import re
from collections.abc import Iterable, Iterator
from pathlib import Path

from tests.checks import ROOT, read

LINK = re.compile(r"\[[^]]+\]\(([^)#]*)(?:#([^)]*))?\)")
SAID = "are paths in the source archive"
# A name below the folders of the installation, and a name that a file of this repository could have.
BELOW = re.compile(r"(?<![\w.])/[\w./ -]*/share/(?:doc/)?(?:fvtool|libfv)\b[\w./-]*")
NAMED = re.compile(r"(?<![\w/.-])(?:\.ci|crates|docs|examples|libfv|man|python|recipes|rust|tests|tools)/[\w./-]*\w")


def anchors(text: str) -> set[str]:
    """Returns the names by which a link leads to the headings of a page."""
    return {re.sub(r"[^\w -]", "", it.lower()).replace(" ", "-") for it in re.findall(r"(?m)^#+ (.*)$", text)}


def dead_links(page: Path, text: str) -> Iterator[str]:
    """Yields the links of a page that lead to nothing."""
    for name, anchor in LINK.findall(text):
        target = page.parent / name if name else page
        if "://" not in name and (not target.exists() or (anchor and anchor not in anchors(read(target)))):
            yield f"{page}: a link leads to {name}{f'#{anchor}' if anchor else ''}, which is not there"


def dead_ends(page: Path, root: Path) -> Iterator[str]:
    """Yields the errors in a page or in a manual page."""
    is_manual = page.suffix != ".md"
    text = read(page)
    if is_manual:
        text = re.sub(r"\\f[A-Z]", "", text.replace(r"\-", "-"))
    else:
        yield from dead_links(page, text)
    for name in sorted({it.rstrip(".") for it in BELOW.findall(text)}):
        if not Path(f"{root}{name}").exists():
            yield f"{page}: {name} is not installed"
    plain = re.sub(r"(?m)^(?: {4}|\\&).*$", "", text)  # without examples
    named = sorted(it for it in {*NAMED.findall(plain)} if (ROOT / it).exists())
    if named and (is_manual or SAID not in text):
        yield f"{page}: {named[0]} is a file of the sources, and the page does not say so"


def dead_ends_of(folders: Iterable[Path], root: Path) -> list[str]:
    """Returns the errors in the pages of some folders, with this folder in place of the root."""
    pages = [it for folder in folders for it in sorted(folder.iterdir()) if it.suffix in (".md", ".1")]
    return [line for page in pages for line in dead_ends(page, root)]


def lacking(page: Path, root: Path, below: Path) -> list[str]:
    """Returns the files, folders and commands that a page names in backticks and that are not installed."""
    named = re.findall(r"`(/usr/[a-z/.-]+|fv[a-z-]+|[A-Za-z]+\.md|copyright)[ `]", read(page))
    places = (f"{root}%s", f"{below}/bin/%s", f"{below}/share/doc/fvtool/%s")
    return sorted(it for it in {*named} if not any(Path(place % it).exists() for place in places))
