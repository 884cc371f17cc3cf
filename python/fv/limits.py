# SPDX-License-Identifier: BSD-2-Clause-Patent
"""Limits how much of an image is opened and shown. An image is not trusted: 64 KiB of LZMA can hold 256 MiB, and the
contents can hold further LZMA data."""

from __future__ import annotations

from dataclasses import dataclass


@dataclass(frozen=True)
class Limits:
    """The limits for one image. A small image may hold less than a large one: `least` bytes and `times` its own length,
    as far as the other limits allow."""

    total: int = 1 << 30  # bytes of the image and of all opened contents
    least: int = 40 << 20
    times: int = 32
    parts: int = 100_000  # volumes, files, sections and stretches of lost bytes

    def contents(self, size: int) -> int:
        """Returns how many bytes the opened contents of an image of this size may have."""
        return max(min(self.total - size, self.least + self.times * size), 0)


class Full(Exception):
    """An image exceeds a limit. The text names the limit."""
