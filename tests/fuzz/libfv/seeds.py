#!/usr/bin/env python3
# SPDX-License-Identifier: BSD-2-Clause-Patent
"""seeds.py FOLDER: writes the first inputs of the fuzzer, always the same, each after the parameters that harness.h
describes. FOLDER/seeds gets volumes, flash images, hand-off lists and expressions as tests/fuzz/cases.py makes them,
from which the mutator takes files and volumes. FOLDER/few gets empty volumes and an expression of two ops. From
these the mutator has to reach the planted faults."""

import argparse
import random
from collections.abc import Iterator
from pathlib import Path

from tests import stores
from tests.fuzz.cases import make_case
from tests.fuzz.maker import Maker
from tests.making import FFS3, RAW, VOLUME, compressed, compression, section, stream, volume

# as in harness.h
AS_VOLUME, AS_IMAGE, AS_EXPRESSION, AS_HAND_OFF_LIST, AS_PAIR = 0, 3, 4, 5, 6
AS_IMAGE_AND_VOLUME, AS_SECTIONS, AS_PACKED = 7, 8, 9
MODES = {"volume": AS_VOLUME, "image": AS_IMAGE_AND_VOLUME, "list": AS_HAND_OFF_LIST}
SEED, CASES, EXPRESSIONS = 7, 300, 20
MOST = 4000  # bytes; a small input is tried more often


def parameters(source: random.Random, mode: int, pair: int = 0) -> bytes:
    """Returns parameters of an input. In each of its first runs either no allocation fails or an early allocation
    fails."""
    refused = [source.choice((255, source.randrange(20))) for _ in range(3)]
    return bytes([mode, pair, *source.randbytes(3), *refused])


def seeds() -> Iterator[tuple[str, bytes]]:
    """Yields the inputs of FOLDER/seeds: the name of each, and its bytes with the parameters."""
    source = random.Random(SEED)
    for number in range(CASES):
        case = make_case(SEED, number)
        if case.kind in MODES and len(case.data) <= MOST:
            yield f"{case.kind}-{number}", parameters(source, MODES[case.kind]) + case.data
        if case.twin and len(case.data + case.twin) <= MOST and number % 4 == 0:
            yield f"pair-{number}", parameters(source, AS_PAIR, 1) + case.data + case.twin
    for number in range(EXPRESSIONS):
        ops = Maker(f"expression {number}").expression()
        yield f"expression-{number}", parameters(source, AS_EXPRESSION, source.randrange(4)) + ops


def few() -> Iterator[tuple[str, bytes]]:
    """Yields the inputs of FOLDER/few."""
    none_refused = bytes([0, 0, 0, 0, 255, 255, 255])
    empty = volume([], 192, system=FFS3)
    yield "volume", bytes([AS_VOLUME]) + none_refused + empty
    yield "image", bytes([AS_IMAGE_AND_VOLUME]) + none_refused + empty
    yield "pair", bytes([AS_PAIR, 1]) + none_refused[1:] + empty + empty
    yield "sections", bytes([AS_SECTIONS]) + none_refused + stream(section(RAW, b"raw"), section(VOLUME, empty))
    yield "packed", bytes([AS_PACKED]) + none_refused + compression(section(RAW, b"raw"))
    yield "lzma", bytes([AS_PACKED]) + none_refused + compressed(section(RAW, b"raw"))
    yield "expression", bytes([AS_EXPRESSION]) + none_refused + b"\x06\x08"
    store = stores.store(stores.variable("A", b"x"), length=96)
    lists = stores.signature_list(stores.X509, stores.GLOBAL, b"x", b"y")
    yield from ((it, bytes([AS_IMAGE]) + none_refused + data) for it, data in (("store", store), ("lists", lists)))


def main() -> None:
    """Reads the argument, and writes the inputs."""
    reader = argparse.ArgumentParser(description="Writes the first inputs of the fuzzer.")
    reader.add_argument("folder", type=Path, help="the folder that gets the folders seeds and few")
    given = reader.parse_args()
    for kind, made in ("seeds", seeds()), ("few", few()):
        folder = given.folder / kind
        folder.mkdir(parents=True, exist_ok=True)
        for name, data in made:
            (folder / name).write_bytes(data)
        print(f"{len([*folder.iterdir()])} inputs in {folder.name}")


if __name__ == "__main__":
    main()
