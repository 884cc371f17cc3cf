# SPDX-License-Identifier: BSD-2-Clause-Patent
"""Measures what commands cost, and prints a row for each run. README.md describes more.

    costs program       The program, over inputs of 16 MiB that are meant to be costly. A run may take 3 seconds of
                        processor time (20 with --sums, which digests each byte twice at each level), or this time for
                        each 16 MiB of a larger input, and twice the input and 64 MiB of memory. For some inputs another
                        multiple takes the place of 2.
    costs package       The commands of the Python package, over bombs: images of some KiB of LZMA that hold very many
                        parts (10 seconds), or images of 16 MiB that consist of them (60 seconds). At most 300 MB of
                        output, and for the files of fv-unpack as many bytes as the image may hold; 4 GiB of memory; no
                        traceback and no status 4. With --brief the small bombs hold a twentieth, the large ones are
                        left out, and a run may take 3 seconds. LIBFV names the library, which is libfv/out/libfv.so.2
                        if nothing is named.
    costs open          The program's `open`, over packed sections of 16 MiB that are meant to be costly, and over
                        sections of any size with contents of 256 MiB, which is the most that it writes, or a byte
                        more. A run may take 5 seconds, and the memory of the input, of these contents, and 64 MiB.
    costs speed         The program beside cat, cmp and sha256sum, over three volumes that are made, without limits: the
                        least time of the runs. Volumes that are given are also measured beside VolInfo and UEFIExtract,
                        if these are installed.
    costs library       The calls of that library from Python: the least time of each call in microseconds, over a
                        volume of 128 bytes without files, a volume of large files, and a volume of files of 24 bytes.
                        The rows of a call are counted and not read."""

import argparse
import math
import multiprocessing
import os
import re
import resource
import shutil
import signal
import subprocess
import sys
import tempfile
import timeit
from collections.abc import Callable, Iterator
from concurrent.futures import ThreadPoolExecutor
from dataclasses import dataclass, replace
from functools import partial
from pathlib import Path
from typing import IO, Any

import fv
from tests.checks import ROOT
from tests.frame import LIBRARY, PROGRAM
from tests.fuzz.costly import ALL, BOTH, FOR_PACKAGE, FOR_PROGRAM, MIB, MOST_OPENED, OPENED, PACKED, RATIOS, SECTIONS
from tests.fuzz.costly import Inputs, alike, flipped, holder, named, squeezed, volume
from tests.making import RAW_FILE

# Each command with its arguments. IMAGE, OTHER, COPY and FOLDER take the place of an input, of the same input with one
# byte changed, of its copy, and of a new folder.
COMMANDS = {
    "program": (
        *("fvtool normalise IMAGE", "fvtool normalise --all IMAGE", "fvtool list IMAGE", "fvtool list --sums IMAGE"),
        *("fvtool cells IMAGE", "fvtool unfix IMAGE", "fvtool check IMAGE", "fvtool check --all IMAGE"),
        *("fvtool scan IMAGE", "fvtool survey IMAGE", "fvtool compare IMAGE IMAGE"),
    ),
    "package": (
        *("fv-unpack --list IMAGE", "fv-unpack --list --sums IMAGE", "fv-unpack --list --json IMAGE"),
        *("fv-unpack IMAGE FOLDER", "fv-sbom IMAGE", "fv-map IMAGE", "fv-map --against OTHER IMAGE", "fv-text IMAGE"),
        *("fv-text --open IMAGE", "fv-same IMAGE OTHER", "fv-same --open IMAGE OTHER", "fv-check IMAGE"),
        "fv-vars IMAGE",
        *("fv tree IMAGE", "fv digests IMAGE"),
    ),
    "open": ("fvtool open IMAGE",),
    "speed": (
        *("cat IMAGE", "cmp IMAGE COPY", "sha256sum IMAGE", "fvtool scan IMAGE", "fvtool list IMAGE"),
        *("fvtool survey IMAGE", "fvtool cells IMAGE", "fvtool check IMAGE", "fvtool normalise IMAGE"),
        *("fvtool list --sums IMAGE", "fvtool compare IMAGE IMAGE", "VolInfo IMAGE", "UEFIExtract IMAGE report"),
    ),
    "library": (),
}
OTHER_READERS = ("VolInfo", "UEFIExtract")
# `of first` is the ratio to the time of the first command, and `of input` the ratio of the memory to the input.
HEAD = f"{'input':24} {'bytes':>10} {'command':30} status {'seconds':>9} {'of first':>8} {'MiB':>8} {'of input':>9}"
HEAD += f" {'most MiB':>9} {'output':>11}"
# Volumes of files with 64 KiB of data each, of files without data, and of empty sections
DATA_FILES = partial(alike, bytes(range(256)) * 256, kind=RAW_FILE)
PLAIN: Inputs = {"data_files": DATA_FILES, "small_files": BOTH["names"], "sections": FOR_PROGRAM["empty_sections"]}
HELD = 128 * MIB  # bytes that a small bomb holds
PARTS = 98_000  # parts of a bomb of many parts
Shape = Callable[[bytes], bytes]


@dataclass(frozen=True)
class Most:
    """The limits of a run: seconds of processor time, the peak of memory, and the output in bytes, if it is counted."""

    seconds: float
    peak: float
    output: int | None = None


@dataclass(frozen=True)
class Cost:
    """The cost of a run: its status, processor time, peak of memory, bytes of output, and last line of errors."""

    status: int
    seconds: float
    peak: int
    output: int = 0
    said: str = ""

    def is_within(self, most: Most) -> bool:
        """Returns whether a run stays within its limits, and ends with a status of the commands."""
        is_less = self.seconds <= most.seconds and self.peak <= most.peak and self.output <= (most.output or 0)
        return is_less and 0 <= self.status <= 2 and not self.said.startswith("Traceback")


@dataclass(frozen=True)
class Input:
    """An input under trial: its name, its contents, the shape around them (packed or not, in a file or as they are),
    and the seconds that a run over it may take."""

    name: str
    contents: Callable[[], bytes]
    shape: Shape
    seconds: float

    def data(self) -> bytes:
        """Returns the input."""
        return self.shape(self.contents())

    def changed(self) -> bytes:
        """Returns the input with the last byte of its contents changed."""
        data = self.contents()
        return self.shape(flipped(data, len(data) - 1))

    def most(self, what: str, command: str, length: int) -> Most:
        """Returns the limits of a command over the input, which has this length."""
        if what == "speed":
            return Most(math.inf, math.inf)
        if what == "open":
            return Most(self.seconds, length + MOST_OPENED + 64 * MIB)
        if what == "package":
            return Most(self.seconds, 4 << 30, 300_000_000 + ("FOLDER" in command) * (HELD + 32 * length))
        seconds = self.seconds * (20 / 3 if "--sums" in command else 1)
        return Most(seconds, RATIOS.get(self.name, 2) * length * command.count("IMAGE") + 64 * MIB)


def run(words: list[str], most: Most) -> Cost:
    """Runs a command without input. If its output has a limit, it is counted, and a command that takes far more than
    its limits is ended. Otherwise its output is dropped."""

    def limit() -> None:
        if most.output:
            resource.setrlimit(resource.RLIMIT_CPU, (int(most.seconds) + 2,) * 2)
            resource.setrlimit(resource.RLIMIT_FSIZE, (most.output + 1,) * 2)

    with tempfile.TemporaryFile() as out, tempfile.TemporaryFile() as err:
        to: IO[bytes] | int = out if most.output else subprocess.DEVNULL
        child = subprocess.Popen(words, stdin=subprocess.DEVNULL, stdout=to, stderr=err, preexec_fn=limit)
        _, status, used = os.wait4(child.pid, 0)
        child.returncode = os.waitstatus_to_exitcode(status)
        err.seek(0)
        said = err.read().decode(errors="replace").splitlines()
        trace = "Traceback: " * any(it.startswith("Traceback") for it in said)
        output, last = os.fstat(out.fileno()).st_size, trace + "".join(said[-1:])
    return Cost(child.returncode, used.ru_utime + used.ru_stime, used.ru_maxrss * 1024, output, last[:150])


def write_apart(path: Path, make: Callable[[], bytes]) -> int:
    """Writes an input in a process of its own, because the peak that the system reports of a run begins at the memory
    of its parent. Returns the length of the input."""
    child = multiprocessing.get_context("fork").Process(target=lambda: path.write_bytes(make()))
    child.start()
    child.join()
    if child.exitcode:
        sys.exit(f"{path.name} was not written")
    return path.stat().st_size


def inputs(given: argparse.Namespace) -> Iterator[Input]:
    """Yields the inputs of a mode. The bombs for the package are images of some KiB that hold many bytes or parts, and
    large images of parts that are not packed."""
    size = given.mib * MIB - 4096
    files: Inputs = {path.name: lambda *_, path=path: path.read_bytes() for path in given.volumes}
    small = ("", HELD // 20, PARTS // 20, 3) if given.brief else ("", HELD - MIB, PARTS, 10)
    large = "large_", 16 * MIB - 4096, PARTS, 60
    # Each table of inputs, with the shape, the start of the names, the size, the number of parts, and the seconds.
    tables: dict[str, list[tuple[Inputs, Shape, tuple[str, int, int, float]]]] = {
        "program": [(BOTH | FOR_PROGRAM, bytes, ("", size, ALL, 3 * max(given.mib / 16, 1)))],
        "open": [(OPENED, bytes, ("", size, ALL, 5))],
        "speed": [(files or PLAIN, bytes, ("", size, ALL, math.inf))],
        "package": [
            (SECTIONS | BOTH | FOR_PACKAGE, squeezed, small),
            (PACKED, bytes, small),
            (SECTIONS, holder, large),
            (BOTH | FOR_PACKAGE, bytes, large),
        ],
    }
    for table, shape, (before, length, parts, seconds) in tables[given.what][: 2 if given.brief else None]:
        for name, make in table.items():
            yield Input(before + name, partial(make, length, parts), shape, seconds)


def measure(command: str, image: Path, other: Path, given: argparse.Namespace, most: Most) -> Cost:
    """Runs a command over an input, and returns its least cost. The files that it writes count as output."""
    with tempfile.TemporaryDirectory(dir=image.parent) as folder:
        places = {"IMAGE": image, "OTHER": other, "COPY": f"{image}-copy", "FOLDER": Path(folder, "parts")}
        name, *words = (str(places.get(it, it)) for it in command.split())
        ways = {"fvtool": [str(PROGRAM)], "fv": [sys.executable, "-m", "fv"]}
        runs = given.runs if given.what == "speed" else 1
        costs = [run([*ways.get(name, [name]), *words], most) for _ in range(runs)]
        written = sum(it.stat().st_size for it in Path(folder).rglob("*") if it.is_file())
    peak, seconds = max(it.peak for it in costs), min(it.seconds for it in costs)
    return replace(costs[-1], seconds=seconds, peak=peak, output=costs[-1].output + written)


def try_input(it: Input, commands: list[str], given: argparse.Namespace) -> int:
    """Runs commands over an input, and prints the costs. Returns how many runs are over the limits."""
    over, first = 0, 0.0
    with tempfile.TemporaryDirectory(prefix="costs-") as room, ThreadPoolExecutor(given.jobs) as pool:
        image, other = Path(room, it.name), Path(room, f"{it.name}-other")
        size = write_apart(image, it.data)
        write_apart(other, it.changed)
        shutil.copyfile(image, f"{image}-copy")
        limits = [it.most(given.what, command, size) for command in commands]
        costs = pool.map(lambda command, most: measure(command, image, other, given, most), commands, limits)
        for command, most, cost in zip(commands, limits, costs):
            first = first or max(cost.seconds, 1e-6)
            is_over = not cost.is_within(most)
            figures = f"{cost.status:6} {cost.seconds:9.5f} {cost.seconds / first:8.1f} {cost.peak / MIB:8.1f}"
            figures += f" {cost.peak / size:9.2f} {most.peak / MIB:9.1f} {cost.output:11,}"
            print(f"{it.name:24} {size:10} {command:30} {figures}" + f"  OVER {cost.said}" * is_over, flush=True)
            over += is_over
    return over


def measured(data: bytes, runs: int, calls: int) -> dict[str, float]:
    """Returns the least time in microseconds of each call that takes a volume, over some runs of so many calls."""
    names = [it for it in fv.__all__ if re.match("header_|image_|volume_(?!compare|extract)", it)]
    timed: dict[str, Callable[[], Any]] = {name: partial(getattr(fv, name), data) for name in names}
    timed["volume_compare"] = partial(fv.volume_compare, data, bytes(bytearray(data)))
    timed["volume_extract, the first row"] = partial(fv.volume_extract, data, 0)
    return {name: min(timeit.repeat(call, number=calls, repeat=runs)) / calls * 1e6 for name, call in timed.items()}


def measure_library(runs: int) -> None:
    """Measures the calls of the library, and prints a row for each of them."""
    made = volume(bytes([255] * 56)), DATA_FILES(12 * MIB, ALL), volume(named(MIB // 24))
    columns = list(map(measured, made, (10 * runs, runs, 10 * runs), (100, 1, 1)))
    print(f"libfv {fv.version()}, package {fv.__version__} in {Path(fv.__file__).parent}")
    print(f"{'microseconds, over':22}" + "".join(f"{len(it):>12} B" for it in made))
    for name in columns[0]:
        print(f"{name:22}" + "".join(f"{it[name]:14.2f}" for it in columns))


def arguments() -> argparse.Namespace:
    """Reads the arguments. The help lists the inputs."""
    listed = ", ".join(BOTH | FOR_PROGRAM | FOR_PACKAGE | SECTIONS | PACKED | OPENED)
    shape = argparse.RawDescriptionHelpFormatter
    reader = argparse.ArgumentParser(description=__doc__, epilog=f"inputs: {listed}", formatter_class=shape)
    reader.add_argument("what", choices=COMMANDS, help="what is measured")
    reader.add_argument("volumes", nargs="*", type=Path, help="speed: volumes, in place of those that are made")
    reader.add_argument("--only", metavar="NAME", action="append", help="an input, by its name")
    reader.add_argument("--command", metavar="WORD", action="append", help="commands with this word")
    reader.add_argument("--jobs", type=int, help="runs at the same time; by default all processors run the package")
    reader.add_argument("--write", metavar="FOLDER", type=Path, help="write the inputs, and run nothing")
    reader.add_argument("--mib", type=int, default=16, help="program, open, speed: about how large inputs are, at most 256")
    reader.add_argument("--brief", action="store_true", help="package: small bombs that hold less")
    reader.add_argument("--runs", type=int, default=20, help="speed, library: how many runs of each command or call")
    given = reader.parse_args()
    given.jobs = given.jobs or (os.cpu_count() if given.what == "package" else 1)
    return given


def main() -> int:
    """Measures all commands over all inputs. Returns the exit status."""
    given = arguments()
    path = f"{ROOT / 'python/bin'}:{os.environ['PATH']}"
    os.environ.update(LIBFV=str(LIBRARY), PATH=path, PYTHONPATH=str(ROOT / "python"), PYTHONDONTWRITEBYTECODE="1")
    signal.signal(signal.SIGXFSZ, signal.SIG_DFL)
    if given.what == "library":
        measure_library(given.runs)
        return 0
    commands = [it for it in COMMANDS[given.what] if not given.command or {*it.split()} & {*given.command}]
    others = [it for it in OTHER_READERS if not (given.volumes and shutil.which(it))]
    commands = [it for it in commands if it.split()[0] not in others]
    over = 0
    print(HEAD)
    for it in (it for it in inputs(given) if not given.only or it.name in given.only):
        if given.write:
            given.write.mkdir(parents=True, exist_ok=True)
            for end, make in ("", it.data), ("-other", it.changed):
                print(it.name + end, write_apart(given.write / f"{it.name}{end}.fd", make), flush=True)
        else:
            over += try_input(it, commands, given)
    print(f"{over} runs over the limits")
    return 1 if over else 0


if __name__ == "__main__":
    sys.exit(main())
