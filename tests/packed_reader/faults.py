# SPDX-License-Identifier: BSD-2-Clause-Patent
"""The faults of packed sections and of packed data."""

from dataclasses import dataclass
from enum import IntEnum

# The faults of a packed section, in the order of their numbers, which begin at 1 (docs/FAULTS.md).
Kind = IntEnum("Kind", "SHORT WAY DAMAGED SUM TOO_LONG")


@dataclass(eq=False)
class Fault(Exception):
    """The first fault of a section or of packed data: its kind and its offset. The offset is None if the documents do
    not say how many bits are read of data that are known to be damaged."""

    kind: Kind
    offset: int | None


def require(holds: bool, kind: Kind, offset: int | None) -> None:
    """Raises a fault unless something holds."""
    if not holds:
        raise Fault(kind, offset)
