#!/usr/bin/env python3
# SPDX-License-Identifier: BSD-2-Clause-Patent
"""Proves and builds a crate and the libraries that it uses: `tools/prove.py fv_tool` makes the program, and
`tools/prove.py fv_c` the archive of the library for C. Standard error shows the progress, also within a large crate.
If a crate fails, it shows the kit's output for that crate. With --is-made this script proves nothing, and only reports
whether a build is needed. `tools/prove.py --kit` only reports whether the kit is there.

A file that was made from the same sources is left as it is. A checksum of these sources is kept beside the file, in
FILE.sources. If that checksum is missing, as after `rt ci`, a file that is not older than its sources counts as made
from them. A user who may not write the checksum or the date of the file can run this script too: it succeeds if the
file is already made.

The kit's `rt all check` gives each crate one process, and `rt run --jobs N` takes one crate after another. The largest
crates use each other, so both leave processors idle. This script calls the kit's module for Python instead. It builds
libraries side by side if they do not use each other, and uses several processes for a library that other libraries wait
for. If the kit lacks this module, `rt` builds everything, which takes more time.

The kit keeps the results of checking a crate for the next check. It then checks a crate in turns, if it uses more than
one process, and reads the kept results after each turn. The program has few functions, so this takes longer than it
saves. Nothing is kept for the program."""

import concurrent.futures
import hashlib
import io
import os
import pathlib
import re
import signal
import subprocess
import sys
import threading
import time
import typing

import kit

ROOT = pathlib.Path(__file__).resolve().parent.parent
# The crates that this script builds, with the name of the file that is made from the crate, and the command of the kit
# that makes this file. The kit compiles for x86-64-v2 if it is not told otherwise. The library is for every x86-64,
# because a process that loads it on an older processor would die by SIGILL at the first call. (The program checks the
# processor itself when it starts.)
MADE = {"fv_tool": ("fv_tool", ["run"]), "fv_c": ("libfv_c.a", ["lib", "--cpu=x86-64"])}
# The command that a user runs to make the file of each crate.
BUILDS = {"fv_tool": "./fvtool < crates/fv_tool/stdin", "fv_c": "libfv/build"}
# About how many seconds the proof of a crate takes with one processor. The order of the builds and the reported share
# of the work depend on this. A crate that is not listed takes USUAL.
SECONDS = {
    "fv_base": 60, "fv_head": 100, "fv_file": 80, "fv_section": 45, "fv_depex": 60, "fv_hob": 75, "fv_text": 50, "fv_names": 45,
    "fv_placement": 35, "fv_sinks": 20, "fv_flash": 15, "fv_packed": 30, "fv_huffman": 35, "fv_lzma": 190, "fv_tiano": 110,
    "fv_x86": 20, "fv_crc32": 10, "fv_open": 110, "fv_tree": 215, "fv_survey": 220, "fv_survey_lines": 60, "fv_marks": 110, "fv_rows": 35,
    "fv_budget": 15, "fv_compare": 45, "fv_lines": 95, "fv_opened": 65, "fv_canon": 190, "fv_plan": 20, "fv_arguments": 100,
    "fv_extract": 60, "fv_command": 200, "fv_tool": 110, "fv_c": 200,
}  # fmt: skip
USUAL = 60
# The crates that other crates wait for, and the largest number of processes that build each of them, if there is room.
# (More processes use more processor time than they save.)
SHARED = {"fv_base": 4, "fv_head": 3, "fv_tree": 4, "fv_canon": 3, "fv_command": 4, "fv_c": 4}
# A crate has time to spare if it can end this many seconds later without making the build longer. It then gets
# processors only if no other crate needs them.
SLACK = 30
# The progress is reported again after SOON seconds if the kit has checked more functions, and after LATE seconds in any
# case.
SOON, LATE = 20, 60
# The kit's line about the functions of a crate that it has checked so far.
SO_FAR = re.compile(r"^so far: (\d+) of (\d+) functions checked", re.MULTILINE)
# The memory that a crate takes, in kB. A crate in SHARED takes this amount once more, and again for each process after
# the first.
ROOM = 1_500_000


def uses() -> dict[str, list[str]]:
    """Returns what each crate of the repository uses, as crates.txt lists it."""
    lines = (line.partition("#")[0] for line in (ROOT / "crates.txt").read_text().splitlines())
    rows = (line.partition(":") for line in lines if line.strip())
    return {head.split()[0]: names.split() for head, _, names in rows}


def crates_below(name: str) -> list[str]:
    """Returns a crate and the crates of the repository that it is built over."""
    own, crates = uses(), [name]
    for crate in crates:
        crates += [it for it in own[crate] if it in own and it not in crates]
    return crates


def sources(name: str) -> list[pathlib.Path]:
    """Returns the files and folders from which a crate and the crates below it are made."""
    parts = [ROOT / "crates" / crate / part for crate in sorted(crates_below(name)) for part in ("src", "specs", "proofs")]
    return [ROOT / "crates.txt", *(it for part in parts if part.exists() for it in (part, *sorted(part.rglob("*"))))]


def sum_of(paths: list[pathlib.Path], flags: list[str] | None = None) -> str:
    """Returns one checksum of the names and the bytes of the files among these paths, and of the kit's flags."""
    found = hashlib.sha256(" ".join(flags or []).encode())
    for path in paths:
        if path.is_file():
            found.update(f"{path.relative_to(ROOT)} {path.stat().st_size}\n".encode() + path.read_bytes())
    return found.hexdigest()


def latest(paths: list[pathlib.Path]) -> float:
    """Returns the time of the last change of these paths."""
    return max(path.stat().st_mtime for path in paths)


def free_memory() -> int:
    """Returns how much memory is free, in kB."""
    with open("/proc/meminfo", encoding="utf-8") as file:
        return next(int(line.split()[1]) for line in file if line.startswith("MemAvailable:"))


def minutes(seconds: float) -> str:
    """Returns the text for a number of seconds."""
    whole = max(round(seconds / 60), 1)
    return f"{whole} minute{'s' * (whole > 1)}"


def say(text: str) -> None:
    """Writes a line to standard error."""
    print(f"prove: {text}", file=sys.stderr, flush=True)


def fail(what: str, said: str) -> typing.NoReturn:
    """Shows the kit's output, and ends this program and the processes of the kit that it has started."""
    sys.stderr.write(said)
    say(f"{what}. (The kit's own lines are above.)")
    os._exit(1)


class Said(io.StringIO):
    """The text that the kit writes about a crate, and how many functions are checked so far, and how many there are, if
    the kit has reported both numbers."""

    checked = functions = 0

    def write(self, text: str) -> int:
        """Adds a text."""
        for found in SO_FAR.finditer(text):
            self.checked, self.functions = int(found[1]), int(found[2])
        return super().write(text)


class Plan:
    """The crates that are still to be built, the crates that are being built, and how much of the work is done."""

    def __init__(self, crates: list[typing.Any]) -> None:
        self.processors, self.rooms = len(os.sched_getaffinity(0)), free_memory() // ROOM
        self.left, self.count, self.begin = {*crates}, len(crates), time.monotonic()
        self.work = sum(SECONDS.get(it.name, USUAL) for it in crates)
        # The last report of the progress: the crates, the crates with the numbers of their functions, and the time of
        # the report.
        self.told, self.told_at = ("", ""), self.begin
        # The crates that are being built: the memory that each takes, the kit's text about it, and when its build
        # began. Then the time that the finished crates were expected to take, and the time that they took.
        self.running: dict[typing.Any, int] = {}
        self.said: dict[typing.Any, Said] = {}
        self.begun: dict[typing.Any, float] = {}
        self.reckoned, self.taken = 0.0, 0.0

    def usual(self, crate: typing.Any) -> float:
        """Returns how long a crate is expected to take."""
        seconds = SECONDS.get(crate.name, USUAL)
        return seconds / float(self.processors**0.3) if crate.name in SHARED else seconds

    def rest_of(self, crate: typing.Any) -> float:
        """Returns how much of the expected time of a crate is left. The finished crates show how fast this machine
        is."""
        gone = time.monotonic() - self.begun[crate] if crate in self.begun else 0
        return max(self.usual(crate) - gone * (self.reckoned / self.taken if self.taken else 1), 0)

    def chain(self, crate: typing.Any) -> float:
        """Returns how long a crate is expected to take, together with the longest chain of crates that need it."""
        return self.rest_of(crate) + max((self.chain(it) for it in self.left if crate in it.deps), default=0)

    def jobs(self, crate: typing.Any) -> int:
        """Returns the number of processes that can build a crate now, or 0 if the crate has to wait. At least one crate
        is always being built."""
        free = self.rooms - sum(self.running.values())
        most = SHARED.get(crate.name, 4 if len(self.left) == 1 else 1)
        found = min(free - 1, self.processors, most) if most > 1 else min(free, 1)
        return max(found, 0 if self.running else 1) if len(self.running) < self.processors else 0

    def start(self) -> typing.Iterator[tuple[typing.Any, int, bool]]:
        """Begins the crates that can be begun now, the longest chain first. Yields each crate, its number of processes,
        and whether it has time to spare."""
        ready = [it for it in self.left if it not in self.running and not self.left & {*it.below()}]
        longest = max(map(self.chain, [*ready, *self.running]), default=0)
        for crate in sorted(ready, key=self.chain, reverse=True):
            jobs = self.jobs(crate)
            if not jobs:
                return
            self.running[crate] = jobs + (crate.name in SHARED)
            self.said[crate] = Said()
            self.begun[crate] = time.monotonic()
            yield crate, jobs, longest - self.chain(crate) > SLACK

    def end(self, crate: typing.Any) -> None:
        """Removes a crate that is built."""
        del self.running[crate]
        self.left.remove(crate)
        self.reckoned += self.usual(crate)
        self.taken += time.monotonic() - self.begun.pop(crate)

    def now(self) -> tuple[str, str]:
        """Returns the names of the crates that are being built, as two texts. In the second text each name has the
        number of checked functions with it."""
        found = sorted((it.name, self.said[it]) for it in self.running)
        counted = (f"{name} ({it.checked} of {it.functions} functions)" if it.checked else name for name, it in found)
        return ", ".join(name for name, _ in found), ", ".join(counted)

    def done(self) -> int:
        """Returns how much of the work is done, in percent. Of a crate that is being built, the checked functions
        count."""
        rest = 0.0
        for crate in self.left:
            said = self.said.get(crate)
            checked = said.checked / said.functions if said and said.functions else 0
            rest += SECONDS.get(crate.name, USUAL) * (1 - checked)
        return int(100 * (1 - rest / self.work))

    def tell(self) -> None:
        """Reports the progress of the build, if other crates are being built, if more functions are checked, or if it
        was not reported for some time."""
        now, waited = self.now(), time.monotonic() - self.told_at
        if now[0] == self.told[0] and waited < (LATE if now == self.told else SOON):
            return
        gone = time.monotonic() - self.begin
        times = f", {self.done()}% of the work, {minutes(gone)} gone" if self.taken or gone >= LATE else ""
        say(f"{self.count - len(self.left)} of {self.count} crates{times}; now {now[1]}")
        self.told, self.told_at = now, time.monotonic()


def call(crate: typing.Any, said: Said, jobs: int, has_time: bool) -> int:
    """Builds a library, at a lower priority if it has time to spare. Returns the status."""
    if has_time:
        # The processes that this thread starts inherit its priority.
        os.setpriority(os.PRIO_PROCESS, threading.get_native_id(), 10)
    crate.out = said
    try:
        return int(crate.build_rlib(["--jobs", str(jobs)], anew=False))
    except SystemExit:
        return 2


def run(words: list[str], folder: pathlib.Path, said: Said) -> int:
    """Runs a command of the kit in a crate's folder. Returns the status."""
    stdin = folder / "stdin"
    how: dict[str, typing.Any] = {"cwd": folder, "stdout": subprocess.PIPE, "stderr": subprocess.STDOUT, "errors": "replace"}
    with open(stdin if stdin.exists() else os.devnull, "rb") as given, subprocess.Popen(words, stdin=given, **how) as ran:
        for line in ran.stdout or ():
            said.write(line)
    return ran.returncode


def begin(what: typing.Callable[..., int], *given: typing.Any) -> concurrent.futures.Future[int]:
    """Calls a function in a thread of its own, because a priority that was lowered cannot be raised again."""
    return concurrent.futures.ThreadPoolExecutor(1).submit(what, *given)


def first_of(runs: typing.Iterable[concurrent.futures.Future[int]], plan: Plan) -> set[concurrent.futures.Future[int]]:
    """Waits for the first of these builds to end, and reports the progress until then. Returns the builds that have
    ended."""
    while True:
        plan.tell()
        ended = concurrent.futures.wait(runs, 1, concurrent.futures.FIRST_COMPLETED).done
        if ended:
            return ended


def build_libraries(plan: Plan) -> None:
    """Builds the libraries of a plan: all crates except the last."""
    runs: dict[concurrent.futures.Future[int], typing.Any] = {}
    while len(plan.left) > 1:
        for crate, jobs, has_time in plan.start():
            runs[begin(call, crate, plan.said[crate], jobs, has_time)] = crate
        for ended in first_of(runs, plan):
            crate = runs.pop(ended)
            if ended.result():
                fail(f"{crate.name} is not proved", plan.said[crate].getvalue())
            plan.end(crate)


def build(name: str, command: list[str]) -> None:
    """Builds the libraries below a crate, and then, by a command of the kit, the file that is made from it."""
    folder = ROOT / "crates" / name
    jobs, said, plan = len(os.sched_getaffinity(0)), Said(), None
    try:
        rtlib = kit.rtlib()
    except ImportError:
        rtlib = None
    if rtlib:
        signal.signal(signal.SIGINT, signal.SIG_DFL)
        rtlib.guarded()
        top = rtlib.Crate(str(folder), str(ROOT), {})
        locks = rtlib.lock([*top.below(), top])
        plan = Plan([top, *(it for it in top.below() if not it.is_built())])
        build_libraries(plan)
        _, jobs, _ = next(plan.start())
        said = plan.said[top]
        for lock in locks:
            os.close(lock)
    words = ["rt", *command, "--jobs", str(jobs)]
    if rtlib and command == ["run"] and not (folder / "out/incremental").exists():
        # The command does the same as `rt run`, except that it keeps no results.
        code = "import sys, rtlib; rtlib.KEPT = []; sys.exit(rtlib.main(*sys.argv[1:]))"
        words = [sys.executable, "-c", code, *command, "--jobs", str(min(jobs, 2))]
        os.environ |= {"PYTHONPATH": str(kit.folder() / "bin"), "PYTHONDONTWRITEBYTECODE": "1"}
    last = begin(run, words, folder, said)
    if plan:
        first_of([last], plan)
    if last.result():
        fail(f"{name} is not proved and made", said.getvalue())


def main() -> int:
    """Builds the crate that the arguments name, unless it is built already. With --is-made, only reports whether it is
    built."""
    if sys.argv[1:] == ["--kit"]:
        kit.folder()
        return 0
    only_asks = sys.argv[1:2] == ["--is-made"]
    names = sys.argv[2:] if only_asks else sys.argv[1:]
    if len(names) != 1 or names[0] not in MADE:
        print(f"usage: tools/prove.py [--is-made] {'|'.join(MADE)} | --kit", file=sys.stderr)
        return 2
    name = names[0]
    file, command = MADE[name]
    made = ROOT / "crates" / name / "out" / file
    note = made.with_name(f"{file}.sources")
    began, paths = time.time(), sources(name)
    found = sum_of(paths, command[1:])
    is_made = made.exists() and (note.read_text() == found if note.exists() else latest(paths) <= made.stat().st_mtime)
    if only_asks:
        if not is_made:
            say(f"{made.relative_to(ROOT)} is not built from these sources yet: {BUILDS[name]} builds it. {kit.WITHOUT_KIT}")
        return 0 if is_made else 1
    try:
        if not is_made:
            note.unlink(missing_ok=True)
            build(name, command)
        # A source that changes later, or that has changed since the build began, is then newer than the file.
        os.utime(made, (began, began))
        if latest(paths) <= began:
            note.write_text(found)
    except OSError as error:
        # A user who may not write here can still run the file that is made. The next call then compares the checksums
        # again.
        if not is_made:
            say(f"{made.relative_to(ROOT)} is not built from these sources, and cannot be built here: {error}")
            return 1
    return 0


if __name__ == "__main__":
    sys.exit(main())
