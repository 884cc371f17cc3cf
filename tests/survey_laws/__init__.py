# SPDX-License-Identifier: BSD-2-Clause-Patent
"""The laws of a survey, tried over its rows: `laws.broken`.

The modules were written from docs/FORMAT.md ("A tolerant reading"), docs/FAULTS.md and volume 3 of the PI specification.
They know what the rows of a survey must satisfy, and not how a survey finds them. They share no code with the package
for Python. tests/second_reader.py reads the parts strictly."""
