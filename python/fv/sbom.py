# SPDX-License-Identifier: BSD-2-Clause-Patent
"""Lists the files of a flash image or of a firmware volume as a CycloneDX 1.5 bill of materials.

    fv-sbom IMAGE > bill.json

Each file at every level is a component, also a file in a compressed section. A component has the name of the file, the
text of its version section, the SHA-256 of its data, its GUID and its type, and the SHA-256 of each PE32 or TE section,
which is the driver as it was built. Its reference is the path that fv-unpack gives it. Two runs write the same bytes:
there is no date, and the serial number follows from the digest of the image.

The bill names what is there, by digests. It does not name the supplier, the licence or the source of a file, because an
image does not contain them. If the image was not read whole, the bill says that it is incomplete. After the files it
then has a component of the type `file` for each part that is not read, with its digest and the reason: a section that
is not opened or whose contents may be wrong, a pad with contents, a deleted file, a variable store, lost bytes, and
other bytes in no volume that are not erased. A volume that breaks rules has such a component too, with its first fault,
and its files are components as all others. A file, or a part that is not read, has the rules that it breaks in the
property `uefi:findings`.

Exit status 0: the bill is complete. 1: the image has no volume, a section is not opened or its contents may be wrong,
or bytes are not read. 2: a volume is rejected, or the image cannot be read or exceeds a limit; without a bill in the
last two cases. 3: the arguments are wrong. 4: the library libfv cannot be used, the output cannot be written, or memory
ran out."""

from __future__ import annotations

import argparse
import hashlib
import json
import os
import uuid
from collections.abc import Iterable, Sequence
from typing import Any

from . import __version__, cli, images
from ._model import File, every_leaf
from ._parts import Entry, entries
from .names import PE32, TE, Names
from .shown import printable

NAME = "fv-sbom"
MOST_INDENTED = 10_000  # components of a bill that is written with indentation
SPACE = uuid.UUID("5ba5b0f3-5f5a-4a53-9d1c-6f5f2b1c7d10")  # the name space of the serial numbers
Property = tuple[str, str]  # a name and a value


def bill(name: str, data: bytes, parts: Iterable[Entry]) -> dict[str, Any]:
    """Returns the bill of materials of an image with these parts."""
    found = list(parts)
    image = component("image", name, hashlib.sha256(data).hexdigest())
    tool = {"type": "application", "name": NAME, "version": __version__}
    files = [of_file(it, it.part) for it in found if it.what == "file" and isinstance(it.part, File)]
    return {
        "bomFormat": "CycloneDX",
        "specVersion": "1.5",
        "serialNumber": f"urn:uuid:{uuid.uuid5(SPACE, image['hashes'][0]['content'])}",
        "version": 1,
        "metadata": {"component": image, "tools": {"components": [tool]}},
        "components": [*files, *(of_unread(it) for it in found if it.status != cli.DONE)],
        "compositions": [{"aggregate": "incomplete" if status_of(found) else "complete", "assemblies": ["image"]}],
    }


def status_of(parts: Iterable[Entry]) -> int:
    """Returns the exit status for an image with these parts."""
    found = list(parts)
    least = cli.DONE if any(it.what == "volume" for it in found) else cli.OTHER
    return max([least, *(it.status for it in found)])


def component(
    reference: str, name: str, sha256: str, kind: str = "firmware", found: Sequence[Property] = (), version: str = ""
) -> dict[str, Any]:
    """Returns a component with the properties that were found."""
    numbered = {"version": printable(version)} if version else {}
    hashes = [{"alg": "SHA-256", "content": sha256}]
    properties = [{"name": f"uefi:{name}", "value": value} for name, value in found]
    made = {"type": kind, "bom-ref": reference, "name": printable(name), **numbered, "hashes": hashes}
    return {**made, "properties": properties} if properties else made


def of_file(entry: Entry, file: File) -> dict[str, Any]:
    """Returns the component of a file."""
    found = [("guid", str(file.guid)), *_place_of(entry)]
    for section in every_leaf(file.sections):
        if section.kind in (PE32, TE):
            found.append((f"{section.type_name}:sha256", entry.digests.of(section)))
    return component(entry.path, entry.name or str(file.guid), entry.digest, "firmware", found, file.version)


def of_unread(entry: Entry) -> dict[str, Any]:
    """Returns the component of a part that is not read, or of a section whose contents may be wrong."""
    guid = [("guid", str(entry.guid))] if entry.guid else []
    name = entry.name or entry.path.rstrip("/").rpartition("/")[2]
    return component(entry.path, name, entry.digest, "file", [*guid, *_place_of(entry), ("note", entry.note)])


def _place_of(entry: Entry) -> list[Property]:
    """Returns the type of a part and its place, and its findings if it has any."""
    findings = [("findings", entry.findings)] * bool(entry.findings)
    return [("type", entry.kind or entry.what), ("offset", f"0x{entry.part.offset:x}"), ("in", entry.within), *findings]


parser = cli.of(NAME, __doc__, cli.IMAGE)


@cli.command(parser)
def main(given: argparse.Namespace) -> int:
    """Runs the command."""
    data = cli.read_for(NAME, given.image)
    parts = list(entries(images.read(data), Names()))
    made = bill(os.path.basename(given.image), data, parts)
    # A very long bill has no indentation, because json is much quicker without it.
    print(json.dumps(made, indent=2 if len(made["components"]) <= MOST_INDENTED else None))
    return status_of(parts)
