# SPDX-License-Identifier: BSD-2-Clause-Patent
"""The program and the package: each command writes what the calls return, for made inputs."""

import itertools
import subprocess

import fv
from tests.frame import PROGRAM, RoomCase, needs_library, needs_program
from tests.program.test_rows import shown
from tests.python import said
from tests.python.outcomes import made

# The longest input that is also passed as digits.
MOST_DIGITS = 4096
# How many volumes of an image are passed by --at.
PLACED = 3


@needs_program
@needs_library
class Beside(RoomCase):
    """Each output of the program, and each exit status."""

    def same(self, wanted: said.Said, *words: str, given: bytes = b"") -> None:
        """Checks the status and the output of a run, which gets some bytes on standard input."""
        run = subprocess.run([PROGRAM, *words], input=given, capture_output=True, check=False)
        self.assertEqual(run.returncode, wanted[0], words)
        self.assertEqual(run.stdout, wanted[1], words)

    @classmethod
    def setUpClass(cls) -> None:
        super().setUpClass()
        for name, data in made().items():
            (cls.room / name).write_bytes(data)

    def test_files(self) -> None:
        for name, data in made().items():
            for words, (status, output) in said.outputs(data):
                with self.subTest(name, words=words):
                    self.same((status, output), *words, name)
                    if len(data) <= MOST_DIGITS:
                        output = shown(output, words[0] in said.OF_BYTES and status == 0)
                        self.same((status, output), *words, "--hex", given=data.hex().encode())

    def test_volumes_in_images(self) -> None:
        for name, data in made().items():
            for it in fv.image_scan(data)[:PLACED]:
                volume = data[it.offset : it.offset + it.length]
                for words, wanted in said.outputs(volume) if it.offset else ():
                    if words[0] not in ("scan", "survey", "hobs") and "--all" not in words:
                        with self.subTest(name, words=words):
                            self.same(wanted, *words, "--at", str(it.offset), name)

    def test_comparisons(self) -> None:
        inputs = made()
        for first, second in [*itertools.pairwise(inputs), *((it, it) for it in inputs)]:
            for pair in {(first, second), (second, first)}:
                with self.subTest(pair):
                    self.same(said.compare(*map(inputs.__getitem__, pair)), "compare", *pair)
