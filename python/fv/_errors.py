# SPDX-License-Identifier: BSD-2-Clause-Patent
"""The faults of an input, and the exceptions that the calls raise."""

from __future__ import annotations

import struct
from dataclasses import dataclass

from . import _native as native
from ._library import result_text
from ._native import FaultCode


@dataclass(frozen=True, slots=True)
class Fault:
    """The reason why an input is rejected.

    `code` is a FaultCode, or an int if the library is newer than this package and has further faults. `offset` is the
    place of the fault, in bytes from the first byte of the input. `depth` is the number of groups and opened volumes
    around it. `input` is 1 if the second input of volume_compare is rejected, otherwise 0."""

    code: FaultCode | int
    offset: int
    depth: int = 0
    input: int = 0

    @property
    def number(self) -> int:
        """Returns the number of the fault in docs/FAULTS.md and in the lines of fvtool. Volumes, dependency
        expressions, hand-off lists and packed sections are numbered separately."""
        return self.code & 0xFF

    @property
    def text(self) -> str:
        """Returns a sentence that explains the fault."""
        return result_text(self.code)

    def __str__(self) -> str:
        """Returns the fault in the form of a line of fvtool."""
        return f"fault {self.number} at {self.offset}" + (" of the second input" if self.input else "")


class Error(Exception):
    """The base class of the exceptions of this package."""


class FaultError(Error, ValueError):
    """An input is rejected. `fault` is the reason, and the text of the exception explains it."""

    def __init__(self, fault: Fault) -> None:
        super().__init__(fault)
        self.fault = fault

    def __str__(self) -> str:
        return f"{self.fault}: {self.fault.text}"


# The codes by their numbers: this is quicker than a call of the type.
_CODES = {it.value: it for it in FaultCode}
_FAULT = struct.Struct(native.FAULT_FORMAT)
FAULT_SIZE = _FAULT.size


def fault_of(offset: int, result: int, depth: int, side: int) -> Fault:
    """Returns a fault by the fields of the structure that a call writes."""
    return Fault(_CODES.get(result, result), offset, depth, side)


def error_of(result: int, fault: bytes) -> Exception:
    """Returns the exception for a result of a call that is not 0. The fault is the structure that the call has
    written."""
    if result == native.OUT_OF_MEMORY:
        return MemoryError(result_text(result))
    if result == native.NOT_FOUND:
        return IndexError(result_text(result))
    if result in (native.BUFFER_TOO_SMALL, native.BAD_ARGUMENT):
        return Error(result_text(result))
    return FaultError(fault_of(*_FAULT.unpack(fault)))
