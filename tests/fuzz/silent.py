# SPDX-License-Identifier: BSD-2-Clause-Patent
"""Opens made images at every level, and compares the rows of all sources with the truth that tests/fuzz/truths.py wrote
beside them. The checks are

- levels: the rows of each source tile it, and each packed section among them is opened or closed, and not both;
- contents: a packed section that is opened has the contents that were packed, and none that is damaged is opened;
- drivers: each driver that is not lost is found at its path, with its body;
- silence: a driver or a packed section that is not found has a finding, or is in lost bytes or in a closed section;
- ranges: each range of bytes is in rows of its kind, or in bytes that are lost, or where the length of a volume or of a
  file is in doubt.

All checks but `drivers` hold in each image, and `drivers` in most of them (`--least`). With --plants, the answers are
also changed in the ways of PLANTS, and the check that each of them names must notice it in each image. The exit
status is 1 if a check does not hold, or if a planted fault was not noticed."""

from __future__ import annotations

import argparse
import collections
import functools
import json
import os
import random
import sys
import time
from collections.abc import Callable, Sequence
from concurrent.futures import ProcessPoolExecutor
from dataclasses import asdict, dataclass, field, replace
from multiprocessing import get_context
from pathlib import Path
from typing import Any

from tests.checks import skip_all
from tests.frame import LIBRARY
from tests.fuzz.fuzz import KEPT
from tests.fuzz.judge import CHECKS, IN_SECTIONS, SHUT, Judge, Level, levels_of
from tests.fuzz.truths import ANY, COVERED, PARTS, STORED, Item, Truth, make_truth
from tests.survey_laws.plants import below
from tests.survey_laws.rows import LEAVES, Row

Counts = collections.Counter[str]

# Planted faults. Each function changes the levels, or returns None if they have no place for the fault.
Change = Callable[[random.Random, Judge], list[Level] | None]


@dataclass(frozen=True)
class Plant:
    """A planted fault: the check that must notice it, and the function that makes it."""

    check: str
    change: Change


def with_level(judge: Judge, changed: Level, gone: tuple[int, ...] | None = None) -> list[Level]:
    """Returns the levels with another level in place of the one with its path, and without the contents of a packed
    section."""
    kept = (it for it in judge.levels.values() if gone is None or it.path[: len(gone)] != gone)
    return [changed if it.path == changed.path else it for it in kept]


def with_leaf(level: Level, number: int, kind: str) -> Level:
    """Returns a level with a leaf row in place of a row and the rows in it."""
    row = level.rows[number]
    leaf = Row(kind, row.offset, row.length, row.depth)
    return replace(level, rows=(*level.rows[:number], leaf, *level.rows[below(level.rows, number) :]))


def found_drivers(judge: Judge) -> list[Item]:
    """Returns the drivers that are not lost and that are found."""
    return [it for it in judge.truth.items if it.what == "driver" and not it.lost and judge.is_found(it)]


def without_driver(is_silent: bool) -> Change:
    """Returns the function that shows a driver as a leaf. If that is silent, nothing else is said of the driver."""

    def change(pick: random.Random, judge: Judge) -> list[Level] | None:
        drivers = [it for it in found_drivers(judge) if not is_silent or not judge.is_said(it)]
        if not drivers:
            return None
        item = pick.choice(drivers)
        level = judge.levels[item.path[:-1]]
        at = next(n for n, it in enumerate(level.rows) if it.kind == "section" and it.offset == item.path[-1])
        return with_level(judge, with_leaf(level, at, "body"))

    return change


def volume_passed_over(pick: random.Random, judge: Judge) -> list[Level] | None:
    """Shows a volume with drivers as a leaf."""
    drivers = found_drivers(judge)
    for item in pick.sample(drivers, len(drivers)):
        level = judge.levels[item.path[:-1]]
        around = [n for n, it in enumerate(level.rows) if it.kind == "volume" and it.offset <= item.path[-1] < it.end]
        changed = with_level(judge, with_leaf(level, around[0], "gap")) if around else []
        if changed and not Judge(judge.truth, changed).is_said(item):
            return changed
    return None


def packed_item(pick: random.Random, judge: Judge, is_fitting: Callable[[Item], bool]) -> Item | None:
    """Returns a packed section of which nothing else is said."""
    found = [it for it in judge.packed.values() if it.path[:-1] in judge.levels and not judge.is_doubted(it)]
    return pick.choice(found) if (found := [it for it in found if is_fitting(it)]) else None


def without_contents(is_closed: bool, is_opened: bool, check: str) -> Plant:
    """Returns the fault that contents are left out, and whether their section counts as closed or as opened then."""

    def change(pick: random.Random, judge: Judge) -> list[Level] | None:
        lively = {it.path[:-1] for it in found_drivers(judge)}
        item = packed_item(pick, judge, lambda it: it.path in judge.levels and it.path in lively)
        if item is None:
            return None
        outer, at = judge.levels[item.path[:-1]], item.path[-1]
        opened = outer.opened if is_opened else tuple(it for it in outer.opened if it != at)
        return with_level(judge, replace(outer, opened=opened, closed=outer.closed + (at,) * is_closed), item.path)

    return Plant(check, change)


def without_closed(pick: random.Random, judge: Judge) -> list[Level] | None:
    """Leaves out a closed section."""
    found = [it for it in judge.levels.values() if it.closed]
    if not found:
        return None
    level = pick.choice(found)
    return with_level(judge, replace(level, closed=level.closed[1:]))


def opened_anyway(pick: random.Random, judge: Judge) -> list[Level] | None:
    """Opens a damaged section: it has no bytes."""
    item = packed_item(pick, judge, lambda it: it.lost in SHUT and it.path not in judge.levels)
    if item is None or item.path[-1] not in judge.levels[item.path[:-1]].closed:
        return None
    outer, at = judge.levels[item.path[:-1]], item.path[-1]
    closed = tuple(it for it in outer.closed if it != at)
    return [*with_level(judge, replace(outer, opened=(*outer.opened, at), closed=closed)), Level(item.path, b"", ())]


def flipped(data: bytes, at: int) -> bytes:
    """Returns data with another byte at an offset."""
    return data[:at] + bytes([data[at] ^ 1]) + data[at + 1 :]


def other_contents(pick: random.Random, judge: Judge) -> list[Level] | None:
    """Changes a byte of contents."""
    item = packed_item(pick, judge, lambda it: it.path in judge.levels and not it.lost and judge.is_found(it))
    if item is None or not (data := judge.levels[item.path].data):
        return None
    return with_level(judge, replace(judge.levels[item.path], data=flipped(data, pick.randrange(len(data)))))


def other_driver(pick: random.Random, judge: Judge) -> list[Level] | None:
    """Changes a byte of a driver."""
    if not (drivers := found_drivers(judge)):
        return None
    item = pick.choice(drivers)
    level = judge.levels[item.path[:-1]]
    return with_level(judge, replace(level, data=flipped(level.data, item.end - 1)))


def unsaid(pick: random.Random, judge: Judge) -> list[Level] | None:
    """Takes away what is said of a part that is missing: closed sections, lost rows and findings."""
    missing = [it for it in judge.truth.items if it.digest and it.lost != COVERED and not judge.is_found(it)]
    missing = [seen for it in missing if not judge.is_replaced(seen := judge.seen(it))]
    if not missing:
        return None
    level = judge.levels[pick.choice(missing).path[:-1]]
    rows = (replace(it, findings=frozenset(), kind="file" if it.kind == "lost" else it.kind) for it in level.rows)
    return with_level(judge, replace(level, rows=tuple(rows), closed=()))


def other_kind(pick: random.Random, judge: Judge) -> list[Level] | None:
    """Gives a range another kind."""
    skipped = (*PARTS, *IN_SECTIONS, ANY, STORED)
    ranges = [it for it in judge.truth.items if it.what not in skipped and it.path[:-1] in judge.levels]
    ranges = [it for it in ranges if not judge.is_doubted(it) and not judge.is_hidden(it)]
    if not ranges:
        return None
    item = pick.choice(ranges)
    level = judge.levels[item.path[:-1]]
    at = next(n for n, it in enumerate(level.rows) if it.kind in LEAVES and it.offset <= item.path[-1] < it.end)
    return with_level(judge, with_leaf(level, at, "gap" if item.what != "gap" else "free"))


def without_leaf(pick: random.Random, judge: Judge) -> list[Level] | None:
    """Leaves a leaf row out."""
    level = pick.choice([it for it in judge.levels.values() if it.leaves])
    at = pick.choice([n for n, it in enumerate(level.rows) if it.kind in LEAVES])
    return with_level(judge, replace(level, rows=level.rows[:at] + level.rows[at + 1 :]))


def exchanged(pick: random.Random, judge: Judge) -> list[Level] | None:
    """Exchanges the rows of the image and of some contents."""
    others = [it for it in judge.levels.values() if it.path and len(it.data) != len(judge.truth.image)]
    if not others:
        return None
    first, other = judge.levels[()], pick.choice(others)
    changed = with_level(judge, replace(first, rows=other.rows))
    return [replace(it, rows=first.rows) if it.path == other.path else it for it in changed]


PLANTS: dict[str, Plant] = {
    "a driver is a leaf": Plant("drivers", without_driver(False)),
    "a driver is a leaf in silence": Plant("silence", without_driver(True)),
    "a volume is passed over": Plant("silence", volume_passed_over),
    "contents are left out": without_contents(False, True, "levels"),
    "contents and their section are left out": without_contents(False, False, "levels"),
    "contents count as closed": without_contents(True, False, "drivers"),
    "a closed section is left out": Plant("levels", without_closed),
    "a damaged section is opened": Plant("contents", opened_anyway),
    "a byte of contents is another": Plant("contents", other_contents),
    "a byte of a driver is another": Plant("drivers", other_driver),
    "nothing is said of a missing part": Plant("silence", unsaid),
    "a range is of another kind": Plant("ranges", other_kind),
    "a leaf row is left out": Plant("levels", without_leaf),
    "two sources have each other's rows": Plant("levels", exchanged),
}


@dataclass
class Result:
    """What came of the image with a number: what is wrong by each check, how many drivers there are, and which planted
    faults had a place and were noticed."""

    index: int
    wrong: dict[str, list[str]]
    anomalies: Sequence[str]
    counts: Counts = field(default_factory=Counts)
    placed: Counts = field(default_factory=Counts)
    noticed: Counts = field(default_factory=Counts)


def ask(given: argparse.Namespace, index: int) -> Result:
    """Opens the image with this number, and judges its levels."""
    truth = make_truth(given.seed, index)
    levels = levels_of(truth.image)
    judge = Judge(truth, levels)
    result = Result(index, {check: judge.wrong(check) for check in CHECKS}, truth.anomalies)
    drivers = [it for it in truth.items if it.what == "driver"]
    result.counts.update({"sources": len(levels), "drivers": len(drivers), "found": sum(map(judge.is_found, drivers))})
    result.counts["lost"] = sum(bool(it.lost) for it in drivers)
    result.counts["lost, and covered by a volume that is cut off"] = sum(it.lost == COVERED for it in drivers)
    pick = random.Random(f"{given.seed}/{index} plants")
    for name, plant in PLANTS.items() if given.plants else ():
        if changed := plant.change(pick, judge):
            result.placed[name] += 1
            result.noticed[name] += Judge(truth, changed).wrong(plant.check) != result.wrong[plant.check]
    if given.keep and (given.write or any(it for check, it in result.wrong.items() if check != "drivers")):
        keep(truth, given.keep / f"silent-{given.seed}-{index}")
    return result


def keep(truth: Truth, path: Path) -> None:
    """Writes an image, and its truth beside it."""
    path.parent.mkdir(parents=True, exist_ok=True)
    path.with_suffix(".image").write_bytes(truth.image)
    items = [asdict(it) for it in sorted(truth.items, key=lambda it: it.path)]
    path.with_suffix(".json").write_text(json.dumps({"anomalies": truth.anomalies, "items": items}, indent=1))


def ask_everything(given: argparse.Namespace) -> int:
    """Judges all images, and prints the figures. Returns the exit status."""
    start, wrong, counts, placed, noticed = time.monotonic(), Counts(), Counts(), Counts(), Counts()
    made, missed = Counts(), Counts()
    with ProcessPoolExecutor(given.jobs, get_context("spawn")) as pool:
        numbers = range(given.first, given.first + given.count)
        for result in pool.map(functools.partial(ask, given), numbers, chunksize=5):
            counts, placed, noticed = counts + result.counts, placed + result.placed, noticed + result.noticed
            made.update({*result.anomalies})
            missed.update({*result.anomalies} if result.wrong["drivers"] else ())
            for check in filter(result.wrong.get, CHECKS):
                wrong[check] += 1
                if check != "drivers" or given.verbose:
                    print(f"WRONG {result.index} ({', '.join(result.anomalies)})")
                    print("".join(f"  {check}: {it[:1000]}\n" for it in result.wrong[check][:5]), end="", flush=True)
    print(", ".join(f"{name}: {count}" for name, count in counts.items()))
    shares = ", ".join(f"{missed[it]}/{made[it]} {it}" for it in sorted(made))
    print(f"images that miss a driver, of all with an anomaly: {shares}")
    for name, plant in PLANTS.items() if given.plants else ():
        print(f"plant {name}: noticed by {plant.check} in {noticed[name]} of {placed[name]} images")
    complete, others = given.count - wrong["drivers"], sum(wrong[it] for it in CHECKS if it != "drivers")
    unnoticed = [it for it in PLANTS if given.plants and not 0 < placed[it] == noticed[it]]
    figures = f"all drivers that are not lost in {complete} images, {others} other breaches"
    figures += f", {len(PLANTS) - len(unnoticed)} of {len(PLANTS)} planted faults noticed" * given.plants
    seconds = f"{time.monotonic() - start:.0f} seconds"
    print(f"{given.count} images from {given.first}, seed {given.seed}, {seconds}: {figures}")
    return int(complete < given.least * given.count or others > 0 or bool(unnoticed))


def main() -> int:
    """Reads the arguments, and judges the images. Returns the exit status."""
    asks = argparse.ArgumentParser(description=__doc__, formatter_class=argparse.RawDescriptionHelpFormatter)
    asks.add_argument("--count", type=int, default=1000, help="how many images")
    asks.add_argument("--seed", type=int, default=int(time.time()), help="a number; by default the time")
    asks.add_argument("--first", type=int, default=0, help="the number of the first image")
    asks.add_argument("--jobs", type=int, default=os.cpu_count(), help="how many processes")
    asks.add_argument("--least", type=float, default=0.96, help="the share of images with all drivers (not lost ones)")
    asks.add_argument("--keep", type=Path, default=KEPT, help="the folder for images with a breach, and their truth")
    asks.add_argument("--write", action="store_true", help="keep all images")
    asks.add_argument("--verbose", action="store_true", help="also show the drivers that are not found")
    plants: Any = argparse.BooleanOptionalAction
    asks.add_argument("--plants", action=plants, default=False, help="also look for the planted faults")
    given = asks.parse_args()
    if not LIBRARY.exists():
        return skip_all("silent", "all of it", "the library is not built (libfv/build)")
    os.environ["LIBFV"] = str(LIBRARY.resolve())
    return ask_everything(given)


if __name__ == "__main__":
    sys.exit(main())
