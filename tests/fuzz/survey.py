# SPDX-License-Identifier: BSD-2-Clause-Patent
"""Surveys made images, and prints each place at which the rows break a law (tests/survey_laws). tests/fuzz/anomalies.py
makes the images: volumes, files, sections, packed sections, nested volumes and gaps, with up to three anomalies at any
places and depths. Before them come the vendor-like images of tests/fuzz/vendors.py, whose numbers are below 0: the
number of drivers that a survey shows of each is known. The laws are

- tiling: the leaf rows lie one after another from the first byte to the last;
- nesting: the rows in a row lie one after another from its first byte to its end;
- honesty: each row has exactly the findings whose condition holds in the bytes at the row;
- passing: no place where a volume may begin is passed over in bytes without a structure;
- agreement: where a strict reading (tests/second_reader.py, the library and the program) accepts a volume, the rows
  are its cells and sections, without findings, and where it rejects the volume, there is a finding;
- sums, status: the last line and the exit status of `fvtool survey` agree with the rows.

The rows come from the library. The program surveys one of some images (`--each`) too, and must print the same rows. With
--plants, the rows are also changed in the ways of tests/survey_laws/plants.py, and the test of a law must find each of
these planted faults. The exit status is 1 if a law is broken, or if a planted fault was not found."""

import argparse
import collections
import functools
import os
import random
import sys
import tempfile
import time
from collections.abc import Iterable, Iterator, Sequence
from concurrent.futures import ProcessPoolExecutor
from dataclasses import dataclass, field
from multiprocessing import get_context
from pathlib import Path
from typing import Any

import fv
from tests.checks import skip_all
from tests.frame import LIBRARY, PROGRAM
from tests.fuzz.anomalies import make_image
from tests.fuzz.fuzz import KEPT
from tests.fuzz.program import Program
from tests.fuzz.vendors import Case, cases
from tests.survey_laws.laws import LAWS, Part, Strict, Trial, breaches, broken
from tests.survey_laws.plants import PLANTS, changes
from tests.survey_laws.rows import LEAVES, OUTER, NotRows, Row, Survey, survey_of
from tests.survey_laws.strict import DEAD, second_reading
from tests.survey_laws.volumes import up_to

Counts = collections.Counter[str]
KINDS = OUTER + LEAVES  # in the order of the numbers of fv.RowKind, which begin at 1
NODES = {fv.NodeKind.VOLUME: "volume", fv.NodeKind.FILE: "file", fv.NodeKind.SECTION: "section"}
MOST_PLANTED = 1 << 16  # bytes of an image in whose survey faults are planted
CODE = (0x10, 0x12)  # types of sections with the code of a driver: PE32 and TE


@dataclass
class Result:
    """What came of the image with a number: how many rows, findings and volumes there were, the breaches of laws, and
    the planted faults that had a place in its survey and that were found."""

    index: int
    counts: Counts = field(default_factory=Counts)
    wrong: list[str] = field(default_factory=list)
    placed: set[str] = field(default_factory=set)
    found: set[str] = field(default_factory=set)


@functools.cache
def vendors() -> list[Case]:
    """Returns the vendor-like images."""
    return list(cases())


def image_of(seed: int, index: int) -> tuple[bytes, list[str]]:
    """Returns the image with this number, and what is unusual in it."""
    if index >= 0:
        return make_image(seed, index)
    case = vendors()[index]
    return case.data, [case.name, case.what]


def wrong_drivers(index: int, rows: Sequence[Row]) -> list[str]:
    """Returns whether the rows show another number of drivers than is known of an image."""
    if index >= 0:
        return []
    case = vendors()[index]
    shown = sum(it.kind == "section" and it.code in CODE for it in rows)
    wanted = case.plain if case.shown is None else case.shown
    return [f"drivers: {shown} in place of {wanted} of {case.name}"] * (shown != wanted)


# The answers


def rows_of(rows: Iterable[fv.SurveyRow]) -> Iterator[Row]:
    """Yields the rows of the library as the laws know them."""
    for it in rows:
        kind, findings = KINDS[it.kind - 1], frozenset(map(int, it.findings))
        name = it.name.bytes_le if it.name else bytes(16) if kind in ("file", "volume") else None
        yield Row(kind, it.offset, it.length, it.depth, it.efi_type, name, it.found, findings)


def library_survey(image: bytes) -> Survey:
    """Returns the survey of the library."""
    return Survey(tuple(rows_of(fv.image_survey(image))))


def library_reading(data: bytes) -> Strict | None:
    """Returns what the library finds in a volume, or None if it rejects the volume."""
    try:
        nodes, cells = fv.volume_tree(data), fv.volume_cells(data)
    except fv.FaultError:
        return None
    parts = list[Part]()
    for it in nodes:
        kind, header = NODES[it.kind], it.header_length if it.kind != fv.NodeKind.VOLUME else 0
        size = up_to(header + it.length, 8) if kind == "file" else header + it.length
        name = it.guid.bytes_le if kind == "file" and it.guid else bytes(16) if kind == "file" else None
        parts.append(Part(kind, it.offset - header, size, it.efi_type, name))
    words = ((it.kind.name.lower(), it.offset, up_to(it.length, 8)) for it in cells)
    return Strict(tuple(Part(DEAD.get(word, word), at, size) for word, at, size in words), tuple(parts))


def program_survey(program: Program, image: bytes) -> Survey:
    """Returns the survey of the program."""
    status, text = program.once("survey", image)
    return survey_of(text.decode("ascii"), status)


def program_reads(program: Program, trial: Trial) -> list[str]:
    """Returns how commands of the program disagree about the outermost volumes: `list` and `check` read a volume exactly
    if the strict reading accepts it, and `cells` then."""
    wrong = list[str]()
    for row in (it for it in trial.rows if it.kind == "volume" and it.depth == 0):
        is_read = trial.read(trial.image[row.offset : row.end]) is not None
        for command in ("list", "check", "cells"):
            status, said = program.once(f"{command} --at {row.offset}", trial.image)
            if is_read != (status < 2) and (is_read or command != "cells"):
                wrong.append(f"agreement: `{command} --at {row.offset}` ends with {status}: {said[:80]!r}")
    return wrong


# A process that asks


@dataclass
class Asker:
    """A process's own program, and its planted faults that were not found so far."""

    given: argparse.Namespace
    program: Program
    plants: set[str]

    def of_program(self, trial: Trial) -> list[str]:
        """Returns the breaches of laws by what the program says of an image, and by the second reader."""
        told = Trial(trial.image, program_survey(self.program, trial.image), second_reading)
        wrong = [] if told.rows == trial.rows else ["rows: the program and the library survey in two ways"]
        return wrong + [f"program: {it}" for it in broken(told)] + program_reads(self.program, trial)

    def ask(self, index: int) -> Result:
        """Surveys the image with this number, and looks at the laws."""
        result, (image, names) = Result(index), image_of(self.given.seed, index)
        try:
            trial = Trial(image, library_survey(image), library_reading)
            result.wrong = broken(trial) + wrong_drivers(index, trial.rows)
            if index % self.given.each == 0:
                result.wrong += self.of_program(trial)
                result.counts["images that the program surveys"] += 1
        except NotRows as error:
            result.wrong.append(f"text: {error}")
            return result
        if result.wrong:
            result.wrong.insert(0, f"anomalies: {', '.join(names)}")
        result.counts["rows"] = len(trial.rows)
        result.counts["rows with findings"] = sum(bool(it.findings) for it in trial.rows)
        result.counts["rows of unread bytes"] = sum(it.kind == "unread" for it in trial.rows)
        result.counts["volumes that are accepted"] = sum(it is not None for it in trial.known.values())
        result.counts["volumes that are rejected"] = sum(it is None for it in trial.known.values())
        pick = random.Random(f"{self.given.seed}/{index} plants")
        left = sorted(self.plants) if len(image) < MOST_PLANTED else []
        for name, changed in changes(pick, image, trial.survey, left):
            result.placed.add(name)
            if breaches(PLANTS[name].law, Trial(image, changed, library_reading)):
                result.found.add(name)
        self.plants -= result.found
        return result

    def shown(self, result: Result) -> str:
        """Keeps the image of a breach, and returns a text that shows the breaches."""
        path = self.given.keep / f"survey-{self.given.seed}-{result.index}.image"
        path.parent.mkdir(parents=True, exist_ok=True)
        path.write_bytes(image_of(self.given.seed, result.index)[0])
        again = f"tests/run.py survey -- --no-plants --seed {self.given.seed} --first {result.index} --count 1"
        texts = "\n".join(f"  {it[:2000]}" for it in result.wrong[:10])
        return f"WRONG {result.index}, kept as {path}\n{texts}\n  again: {again}"


ASKERS: list[Asker] = []  # the one of this process


def begin(given: argparse.Namespace, room: str) -> None:
    """Prepares a process."""
    folder = Path(room) / str(os.getpid())
    folder.mkdir()
    program = Program(PROGRAM.resolve(), given.seconds, folder, random.Random(0))
    ASKERS.append(Asker(given, program, {*PLANTS} if given.plants else set()))


def ask(index: int) -> tuple[Result, str]:
    """Surveys the image with this number. Returns the result, and a text for its breaches."""
    result = ASKERS[0].ask(index)
    return result, ASKERS[0].shown(result) if result.wrong else ""


def ask_everything(given: argparse.Namespace, room: str) -> int:
    """Surveys all images, and prints the figures. Returns the exit status."""
    start, counts, found, placed = time.monotonic(), Counts(), dict[str, int](), set[str]()
    tried = wrong = 0
    first = -len(vendors()) if given.first == 0 else given.first
    with ProcessPoolExecutor(given.jobs, get_context("spawn"), begin, (given, room)) as pool:
        for result, text in pool.map(ask, range(first, given.first + given.count), chunksize=20):
            tried, wrong = tried + 1, wrong + bool(result.wrong)
            counts += result.counts
            placed |= result.placed
            for name in result.found:
                found.setdefault(name, tried)
            if text:
                print(text, flush=True)
    print(", ".join(f"{name}: {count}" for name, count in counts.items()))
    for name in PLANTS if given.plants else ():
        after = f"found by {PLANTS[name].law} after {found[name]} images" if name in found else "NOT FOUND"
        print(f"plant {name}: {after}" + " (it has no place)" * (name not in placed))
    figures = f"{len(LAWS)} laws, {time.monotonic() - start:.0f} seconds, {wrong} images that break a law"
    figures += f", {len(found)} of {len(PLANTS)} planted faults found" * given.plants
    print(f"{tried} images from {first}, seed {given.seed}: {figures}")
    return 1 if wrong or given.plants and len(found) < len(PLANTS) else 0


def main() -> int:
    """Reads the arguments, and surveys the images. Returns the exit status."""
    asks = argparse.ArgumentParser(description=__doc__, formatter_class=argparse.RawDescriptionHelpFormatter)
    asks.add_argument("--count", type=int, default=5000, help="how many images")
    asks.add_argument("--seed", type=int, default=int(time.time()), help="a number; by default the time")
    asks.add_argument("--first", type=int, default=0, help="the number of the first image")
    asks.add_argument("--jobs", type=int, default=os.cpu_count(), help="how many processes")
    asks.add_argument("--each", type=int, default=20, help="the program surveys each image whose number this divides")
    asks.add_argument("--seconds", type=float, default=60, help="how long one run of the program may take")
    asks.add_argument("--keep", type=Path, default=KEPT, help="the folder for images that break a law")
    plants: Any = argparse.BooleanOptionalAction
    asks.add_argument("--plants", action=plants, default=False, help="also look for the planted faults")
    given = asks.parse_args()
    if not PROGRAM.exists() or not LIBRARY.exists():
        return skip_all("survey", "all of it", "the program or the library is not built (./fvtool and libfv/build)")
    os.environ["LIBFV"] = str(LIBRARY)
    in_memory = "/dev/shm" if os.access("/dev/shm", os.W_OK) else None
    with tempfile.TemporaryDirectory(prefix="survey-", dir=in_memory) as room:
        return ask_everything(given, room)


if __name__ == "__main__":
    sys.exit(main())
