# SPDX-License-Identifier: BSD-2-Clause-Patent
"""Writes firmware volumes, flash images and hand-off lists, valid, nearly valid and broken, runs the built program over
them, and checks from outside whether it keeps the promises of docs/PROGRAM.md. README.md in this folder describes
more."""

import argparse
import collections
import itertools
import os
import random
import sys
import tempfile
import threading
import time
from concurrent.futures import ThreadPoolExecutor
from pathlib import Path

from tests.checks import ROOT
from tests.frame import PROGRAM
from tests.fuzz.cases import Case, make_case
from tests.fuzz.program import Program, Wrong
from tests.fuzz.promises import CHECKS

KEPT = ROOT / "tests/fuzz/out"  # the folder for inputs with a finding


def write_case(folder: Path, name: str, case: Case) -> Path:
    """Writes an input, its twin and its image into a folder. Returns the path without the ending."""
    folder.mkdir(parents=True, exist_ok=True)
    for end, data in (("input", case.data), ("twin", case.twin), ("image", case.image)):
        if data is not None:
            (folder / f"{name}.{end}").write_bytes(data)
    return folder / name


def try_one(given: argparse.Namespace, room: Path, index: int) -> tuple[str, int]:
    """Makes one input, and writes it or checks the program over it. Returns the outcome and the number of runs. An
    input for which a promise is not kept is a finding, and is kept."""
    case = make_case(given.seed, index)
    if given.show:
        stem = write_case(given.keep, f"{given.seed}-{index}", case)
        print(f"{stem}.*: {case.kind}, {len(case.data)} bytes, base {case.base}")
        return "written", 0
    folder = room / str(threading.get_ident())
    folder.mkdir(exist_ok=True)
    program = Program(PROGRAM.resolve(), given.seconds, folder, random.Random(f"{given.seed}/{index} checks"))
    try:
        return CHECKS[case.kind](program, case), program.calls
    except Wrong as wrong:
        stem = write_case(given.keep, f"{given.seed}-{index}", case)
        again = f"python3 -m tests.fuzz.fuzz --seed {given.seed} --first {index} --count 1"
        Path(f"{stem}.txt").write_text(f"{case.kind}: {wrong}\nbase {case.base}\nagain: {again}\n", encoding="utf-8")
        print(f"FINDING {index} ({case.kind}): {wrong}\n  kept as {stem}.*; again: {again}", flush=True)
        return "finding", program.calls


def try_all(given: argparse.Namespace, room: Path) -> int:
    """Tries the inputs, and prints the figures. Returns the exit status."""
    start, outcomes, runs = time.monotonic(), collections.Counter[str](), 0
    last = given.first + given.count if given.count else sys.maxsize
    numbers = iter(range(given.first, last))
    with ThreadPoolExecutor(given.jobs) as pool:
        try:
            while chunk := list(itertools.islice(numbers, 500)):
                for outcome, calls in pool.map(lambda index: try_one(given, room, index), chunk):
                    outcomes[outcome] += 1
                    runs += calls
        except KeyboardInterrupt:
            pool.shutdown(cancel_futures=True)
    counts, took = ", ".join(f"{it}: {count}" for it, count in sorted(outcomes.items())), time.monotonic() - start
    print(f"{sum(outcomes.values())} inputs from {given.first}, seed {given.seed}: {counts}")
    print(f"{runs} runs, {took:.0f} seconds, {outcomes['finding']} findings")
    return 1 if outcomes["finding"] else 0


def main() -> int:
    """Reads the arguments, and tries or writes the inputs. Returns the exit status."""
    reader = argparse.ArgumentParser(description=__doc__)
    reader.add_argument("--count", type=int, default=1000, help="how many inputs; 0: until it is interrupted")
    reader.add_argument("--seed", type=int, default=int(time.time()), help="a number; by default the time")
    reader.add_argument("--first", type=int, default=0, help="the number of the first input")
    reader.add_argument("--jobs", type=int, default=os.cpu_count(), help="how many inputs at a time")
    reader.add_argument("--seconds", type=float, default=10, help="how long one run of the program may take")
    reader.add_argument("--keep", type=Path, default=KEPT, help="the folder for inputs with a finding")
    reader.add_argument("--show", action="store_true", help="write the inputs to that folder, and run nothing")
    given = reader.parse_args()
    if not given.show and not os.access(PROGRAM, os.X_OK):
        reader.error(f"{PROGRAM} is not there: ./fvtool < crates/fv_tool/stdin builds it")
    in_memory = "/dev/shm" if os.access("/dev/shm", os.W_OK) else None
    with tempfile.TemporaryDirectory(prefix="fuzz-", dir=in_memory) as room:
        return try_all(given, Path(room))


if __name__ == "__main__":
    sys.exit(main())
