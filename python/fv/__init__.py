# SPDX-License-Identifier: BSD-2-Clause-Patent
"""The calls of libfv, for Python programs that read, check, compare or rebuild UEFI firmware volumes.

    import fv
    fv.header_read(data)            the header of the volume with which the data begin
    fv.image_scan(image)            the headers of the volumes in a flash image
    fv.image_check(image)           whether each volume of a flash image is its own canonical image, or its fault
    fv.image_normalise(image)       a flash image with each volume in it replaced by its canonical image
    fv.image_survey(image)          an account of every byte of an image, also of damaged volumes, with what is wrong
    fv.image_open(image)            an image at every level: the same for the contents of its packed sections
    fv.image_same(a, b)             whether two images mean the same at every level, and where they first differ
    fv.volume_is_canonical(volume)  whether a volume is its own canonical image
    fv.volume_normalise(volume)     the canonical image of a volume
    fv.volume_unfix(volume)         a copy of a volume in which no file is marked as fixed
    fv.volume_digest(volume)        the SHA-256 digest of the canonical image of a volume
    fv.volume_compare(a, b)         None if two volumes mean the same, otherwise where they first differ
    fv.volume_cells(data)           the files, pads, deleted files and free bytes of a volume, and where they are
    fv.volume_tree(volume)          a volume, its files, their sections, and the same for each volume in a section
    fv.volume_tree_digests(volume)  the SHA-256 digest for each row of the tree
    fv.volume_extract(volume, row)  the bytes of the part in that row of the tree
    fv.section_way(data)            how a packed section is opened, and how long its contents are said to be
    fv.section_open(data, limit)    the contents of a packed section: compressed, or defined by a GUID
    fv.sections_survey(sections)    an account of every byte of a stream of sections
    fv.sections_tree(sections)      the tree of a stream of sections, which is what a compressed section holds
    fv.sections_tree_digests(sections), fv.sections_extract(sections, row)     the same for the rows of this tree
    fv.variables_read(data)         an account of every byte of EDK II's variable stores: variables, and what is wrong
    fv.signatures_read(data)        an account of every byte of signature lists, as in the variables PK, KEK, db and dbx
    fv.depex_evaluate(data, phase)  the truth value of a dependency expression
    fv.hobs_read(data)              the blocks of a hand-off list
    fv.result_text(code)            a sentence that explains a fault
    fv.version()                    the version of the library

The functions have the names of the calls in fv.h, without `fv_`. (fv_guid_text and fv_guid_parse have no function here:
a GUID is a uuid.UUID.) In place of the calls fv_volume_.._with, the functions that return trees, digests and parts have
an argument `without_marks`: if it is true, the input is read as if no file at any depth were marked as fixed. An
`image` may be any bytes, a `volume` must be exactly one volume, and `sections` must be exactly one stream of sections.
`data` begin with the volume, the section or the list that is read, and the bytes after it are ignored.

An input may be any object with the buffer protocol: bytes, bytearray, memoryview, mmap. A bytes object is read in
place, and so is a memoryview of a bytes object. Any other buffer is copied first, since something else may write to it
during the call: another Python thread, or a process that has mapped the same file. With copy=False every buffer is read
in place, also if it is read-only. Pass copy=False only if nothing writes to the buffer until the call returns, since
the process can crash otherwise.

Any number of threads may call at once. A process that has threads must not call the library in a child that it has
forked: let multiprocessing use spawn or forkserver.

The returned values are immutable. Headers, checks, cells, nodes, rows, digests and blocks come in a sequence that makes
each of them when you access it. A field that a part does not have is None. An `efi_type` is an int, because firmware
may have any value there; compare it with a member of FileType or SectionType. Buffer is the type of an input, for type
hints.

A rejected input raises FaultError, a ValueError whose `fault` is the reason. Running out of memory raises MemoryError.
The number of a row that does not exist raises IndexError. The first call raises ImportError if the library is missing,
or if its major version is not 2. The environment variable LIBFV names the shared object, if another one is to be used.
`python3 -m fv` lists the contents of an image.

The other modules are not proved. Each has a docstring:

    fv.images    the contents of an image at every level, including compressed sections: fv.images.read(data)
    fv.opened    how sections are opened, and fv.limits: how much of an image is opened
    fv.names     the names of types and GUIDs
    fv.cli       what the commands share
    fv.same, fv.unpack, fv.map, fv.sbom, fv.check, fv.text, fv.diff, fv.vars    the commands fv-same and so on
"""

from __future__ import annotations

from ._calls import (
    depex_evaluate,
    header_read,
    hobs_read,
    image_check,
    image_normalise,
    image_same,
    image_scan,
    image_survey,
    section_open,
    section_way,
    sections_extract,
    sections_survey,
    sections_tree,
    sections_tree_digests,
    signatures_read,
    variables_read,
    version,
    version_number,
    volume_cells,
    volume_compare,
    volume_digest,
    volume_extract,
    volume_is_canonical,
    volume_normalise,
    volume_tree,
    volume_tree_digests,
    volume_unfix,
)
from ._errors import Error, Fault, FaultError
from ._image import Image, image_open
from ._library import Buffer, result_text
from ._native import CONTENTS_MAX, LENGTH_MAX, CellKind, Content, FaultCode, FileType, Finding, NodeKind, PartKind
from ._native import Phase, Reason, RowKind, SectionType, StoreFormat, VariableStatus, Way
from ._types import Cell, Header, Hob, HobList, Node, Opened, Packed, PackedSection, PartPlace, Sameness, Source, SurveyRow
from ._types import VariableRow
from ._types import VolumeCheck

__version__ = "2.1.0.dev0"
__all__ = [
    "CONTENTS_MAX", "LENGTH_MAX", "Buffer", "Cell", "CellKind", "Content", "Error", "Fault", "FaultCode", "FaultError",
    "FileType", "Finding", "Header", "Hob", "HobList", "Image", "Node", "NodeKind", "Opened", "Packed", "PackedSection",
    "PartKind", "PartPlace", "Phase", "Reason", "RowKind", "Sameness", "SectionType", "Source", "StoreFormat",
    "SurveyRow", "VariableRow", "VariableStatus", "VolumeCheck", "Way", "depex_evaluate", "header_read", "hobs_read",
    "image_check", "image_normalise", "image_open", "image_same", "image_scan", "image_survey", "result_text",
    "section_open", "section_way", "sections_extract", "sections_survey", "sections_tree", "sections_tree_digests",
    "signatures_read", "variables_read", "version", "version_number", "volume_cells", "volume_compare", "volume_digest",
    "volume_extract", "volume_is_canonical", "volume_normalise", "volume_tree", "volume_tree_digests", "volume_unfix",
]  # fmt: skip
