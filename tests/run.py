#!/usr/bin/env python3
# SPDX-License-Identifier: BSD-2-Clause-Patent
"""Runs the checks of this repository, and says of each whether it passed, failed or was skipped. --list prints what
each check shows. Without names, all of them run, which is the gate: .ci/run.

A NAME is a check (`rows`), a pattern (`t*`), or one case of a check, after a dot: a test in Python
(`commands.same.Same`), a row (`rows.list.12`), the wrong bodies of a crate or one of them
(`mutants.fv_head`, `mutants.fv_head.EDIT`), a document with examples (`examples.README`). The check gets the text after
the dot as its argument. It gets the arguments after `--` as they are: `tests/run.py tables -- --write`. A check that is
run by name does not run the checks that it needs.

A check has passed if it ends with status 0. With status 77 it has tried nothing, so it has neither passed nor failed.
With any other status it has failed, and a check that needs it is not run and has failed too. Each line `NAME: skipped:
WHAT, WHY` in the output of a check counts as one skipped thing, whether or not the check has passed. Status 77 without
such a line counts as one skipped thing too. The counts of `rt ci` are added to the counts of the checks. The last line
is `N passed, N failed`, and `, N skipped` follows if something was skipped."""

from __future__ import annotations

import argparse
import contextlib
import ctypes
import fnmatch
import glob
import os
import queue
import re
import shlex
import signal
import subprocess
import sys
import tempfile
import threading
import time
from collections.abc import Callable
from dataclasses import dataclass, field
from pathlib import Path

ROOT = Path(__file__).resolve().parent.parent
NOTHING_TRIED = 77
SKIPPED = re.compile(r"^(?:[^ ]+: )?skipped: (.*)$", re.MULTILINE)
COUNTED = re.compile(r"^(\d+) passed, (\d+) failed$", re.MULTILINE)
# The lines that are shown of the output of a check that has failed.
LAST = 60
# The file without which a check that needs the thing can try nothing, and the reason that is given then.
MADE = {
    "program": ("crates/fv_tool/out/fv_tool", "the program is not built (./fvtool builds it)"),
    "library": ("crates/fv_c/out/libfv_c.a", "the library is not built (libfv/build builds it)"),
}
# The folders with files that are made. No check may write anywhere else in the repository.
OUTPUTS = {".git", "out", "target", "dist"}
# A check that proves nothing, and a check beside which nothing may run.
QUICK, ALONE = 1, 2


@dataclass(frozen=True)
class Check:
    """A check: its name, the package or module of unittest (`tests.NAME`) or the command that it runs, or a function
    that returns errors, and what it shows. `after` names the checks that come first, if they are run too, and `needs`
    the things without which the check can try nothing (MADE). `joint` replaces the dots in the argument of the
    check."""

    name: str
    runs: str | Callable[[Run], list[str]]
    kind: int
    shows: str
    after: tuple[str, ...] = ()
    needs: tuple[str, ...] = ()
    joint: str = "."

    def first(self) -> tuple[str, ...]:
        """Returns the names of the checks that come first."""
        return self.after + tuple(it for it in self.needs if it != self.name)

    def words(self, arguments: list[str]) -> list[str]:
        """Returns the words of the command for some cases, or for all of them."""
        assert isinstance(self.runs, str)
        if re.fullmatch(r"tests(\.\w+)+", self.runs):
            return [sys.executable, "-m", "tests.frame", self.runs, *arguments]
        return [*shlex.split(self.runs), *arguments]


def written(run: Run) -> list[str]:
    """Returns the files of the repository that have changed since the run began, except made files."""
    return [f"{it} was written, changed or removed" for it in sorted({it[0] for it in run.files ^ files(ROOT)})]


# fmt: off
CHECKS = (
    Check("prove", """bash -c 'rt ci && tools/statement --keep "$OUTPUT"'""", ALONE,
          "proves all crates from nothing, with their tests, programs and must-fail edits (rt ci)"),
    # rt ci also passes if an edit cannot be applied or compiled, but that edit shows nothing. grep fails without rt ci.
    Check("edits", """bash -c 'grep "BAD EDIT" "${OUTPUT%/*}/prove.said"; (($? == 1))'""", 0,
          "each must-fail edit has reached the prover in rt ci", after=("prove",)),
    Check("program", "tools/prove.py fv_tool", QUICK | ALONE,
          "the program is built from these sources, or is built now", after=("prove",), needs=("program",)),
    Check("archive", "python3 -m tests.mutants.archive", ALONE,
          "the archive of the library for C is compiled over the crates that rt ci has proved", after=("prove",)),
    Check("mutants", "python3 -m tests.mutants", ALONE,
          "the prover rejects wrong bodies of public functions, many in each check", after=("archive",), joint="/"),
    Check("library", "libfv/build", QUICK | ALONE,
          "the library for C is built over its archive", after=("archive",), needs=("library",)),
    Check("libfv", "tests.libfv", QUICK,
          "the library in C and C++, and the checks of the fuzzer over made inputs", after=("program", "library")),
    Check("rows", "tests.program.test_rows", QUICK,
          "the program over each row of crates/fv_run_tests/rows: status and output", needs=("program",)),
    Check("second", "python3 -m tests.fuzz.second --count 300 --seed 1 --jobs 2 --plants", QUICK,
          "a second reader agrees with the program and the library over 2500 inputs, and planted misreadings are found",
          after=("program", "library")),
    Check("packed", "python3 -m tests.fuzz.packed --count 300 --seed 1 --jobs 2 --plants", QUICK,
          "a second reader and liblzma agree with the library and the program over 15,000 packed sections, and planted "
          "misreadings are found", after=("program", "library")),
    Check("survey", "python3 -m tests.fuzz.survey --count 5000 --seed 1 --jobs 2 --plants", QUICK,
          "the rows of surveys of 5000 images with anomalies, and of 105 vendor-like images, keep the laws of a "
          "survey, and planted faults are found", after=("program", "library")),
    Check("silent", "python3 -m tests.fuzz.silent --count 100 --seed 2 --jobs 2 --plants", QUICK,
          "in 100 images with anomalies at every level, no driver is missing in silence, each range of bytes has its "
          "row, and planted faults are noticed", after=("program", "library")),
    Check("memory", "tests.program.test_memory", 0,
          "the program and some tests with each allocation refused in turn, and the memory that a small file takes",
          after=("prove",), needs=("program",)),
    Check("slices", "tests/program/slices", 0,
          "the compiler rejects a test that uses a slice of the input after the input is gone", after=("prove",)),
    Check("commands", "tests.commands", QUICK, "the commands fv-.. and the recipes", after=("program", "library")),
    Check("python", "tests.python", QUICK, "the package for Python, and its wheel", after=("program", "library")),
    Check("rust", "tests.rust", QUICK, "the crates for Rust", after=("program", "library")),
    Check("abi", "tests/libfv/abi", QUICK,
          "the built library and fv.h have the interface that libfv/abi describes (abidiff, nm)", needs=("library",)),
    Check("streams", "tests.program.test_streams", QUICK,
          "the program with closed, full and interrupted streams, with wrong arguments, and at a terminal",
          needs=("program",)),
    Check("static", "tests/program/static", QUICK,
          "the program is linked with the C library in it (tools/static), and runs", needs=("program",)),
    Check("examples", "python3 -m tests.examples", QUICK,
          "the examples of README, PROGRAM, FAULTS and the recipes print what these documents show",
          after=("library",), needs=("program",)),
    Check("tables", "python3 -m tests.sources.tables", QUICK,
          "MEANING and CONTRACTS agree with the comments of specs/ and src/, from which they are made"),
    Check("words", "python3 -m tests.sources.words", QUICK,
          "definitions are in the right one of specs/ and specs/inner/, and names and quotes in documents exist"),
    Check("believed", "python3 -m tests.sources.believed", QUICK,
          "PROVED lists the files that the headline rests on, and these files hold nothing else"),
    Check("plain", "python3 -m tests.sources.plain", QUICK,
          "documents, comments and help use plain words, whole sentences and readable widths"),
    Check("header", "bash -c 'tools/version --check && tools/licence --check && libfv/generate --check'", QUICK,
          "the files that are made from fv.h, and those that show the version or the licence, agree"),
    Check("types", "python3 -m tests.sources.scripts types", QUICK,
          "the types in all scripts in Python are right (mypy --strict)"),
    Check("shell", "python3 -m tests.sources.scripts shell", QUICK,
          "shell scripts are well-formed (shellcheck), and safe with CDPATH"),
    Check("runner", "tests.sources.test_runner", QUICK, "this script counts rightly, and leaves no process"),
    Check("goals", "tests.sources.test_mutants", QUICK,
          "each wrong body, also in must-fail/, names a goal that a wrong body can break"),
    Check("fuzz", "tests/fuzz/check", 0,
          "a minute of the fuzzer of the library has no finding, and it finds planted faults", needs=("library",)),
    Check("fresh", "python3 -m tests.install.fresh", 0,
          "`make check` passes in a new root of Debian 12 that has only what README asks for", needs=("program",)),
    Check("install", "tests.install", 0,
          "the program, the library, the pages and the Debian packages are installed, run and removed",
          after=("program", "library")),
    Check("written", written, QUICK | ALONE, "no check has written in the repository, except made files"),
)
# fmt: on


@dataclass
class Result:
    """The result of a check: the counts that are added, the skipped things, and why the check failed."""

    passed: int = 0
    failed: int = 0
    skips: list[str] = field(default_factory=list)
    why: str = ""

    @property
    def state(self) -> str:
        """Says in a word how the check ended."""
        return "failed" if self.failed else "passed" if self.passed else "skipped"


def counted(name: str, status: int, output: str) -> Result:
    """Returns the result of a check that has ended with this status and this output."""
    skips = [f"{name}: {it}" for it in SKIPPED.findall(output)]
    if status == NOTHING_TRIED:
        return Result(skips=skips or [f"{name}: all of it, and it gives no reason"])
    counts = COUNTED.findall(output) if name == "prove" else []
    passed, failed = map(int, counts[-1]) if counts else (int(status == 0), 0)
    return Result(passed, max(failed, int(status != 0)), skips, f"it ended with status {status}" * bool(status))


def files(root: Path) -> set[tuple[str, int, int, int]]:
    """Returns the files below a folder, except made files, with the time of their last change, their size and mode."""
    found = set()
    for folder, folders, names in os.walk(root):
        folders[:] = [it for it in folders if it not in OUTPUTS]
        for path in (os.path.join(folder, it) for it in names):
            status = os.lstat(path)
            found.add((os.path.relpath(path, root), status.st_mtime_ns, status.st_size, status.st_mode))
    return found


def environment(jobs: int) -> dict[str, str]:
    """Returns the environment of the checks. They run with a variable CDPATH, as some people have it: then `cd` writes
    the name of the folder, and a script that reads this output must be prepared for it."""
    paths = (".", "python", "tools", "crates/fv_run_tests/rows")
    return {
        **os.environ,
        "CDPATH": ".",
        "LC_ALL": "C",
        "PATH": f"{ROOT / 'python/bin'}:{os.environ.get('PATH', os.defpath)}",
        "PYTHONDONTWRITEBYTECODE": "1",
        "PYTHONPATH": ":".join(str(ROOT / it) for it in paths),
        "RT_JOBS": str(jobs),
    }


def usual_jobs() -> int:
    """Returns the number of checks that run side by side: one for each processor, if there are 4 GB for each (the
    largest check of rt ci takes 3). By default, rt ci estimates two to three times the memory that a check takes, and
    starts the crate with the longest chain last."""
    given = os.environ.get("RT_JOBS", "0")
    free = re.findall(r"MemAvailable: *(\d+)", Path("/proc/meminfo").read_text(encoding="utf-8"))[0]
    most = min(len(os.sched_getaffinity(0)), int(free) // 4_000_000)
    return given.isdigit() and int(given) or max(1, most)


def descendants(process: int) -> list[int]:
    """Returns the processes that a process or its descendants have started."""
    found: list[int] = []
    for path in glob.glob(f"/proc/{process}/task/*/children"):
        with contextlib.suppress(OSError):  # the process has ended
            found += map(int, Path(path).read_text().split())
    return [*found, *(it for child in found for it in descendants(child))]


def end_all(patience: float) -> None:
    """Ends all processes that the checks have started: first in a way that lets them remove their files, in this many
    seconds."""
    for sign in (signal.SIGINT, signal.SIGTERM, signal.SIGKILL):
        for process in descendants(os.getpid()):
            with contextlib.suppress(ProcessLookupError):
                os.kill(process, sign)
        end = time.monotonic() + patience
        with contextlib.suppress(ChildProcessError):  # no process is left
            while time.monotonic() < end:
                if os.waitpid(-1, os.WNOHANG) == (0, 0):
                    time.sleep(0.05)


class Run:
    """A run of some checks, each with its arguments: the results so far, by the names of the checks."""

    def __init__(self, room: Path, given: argparse.Namespace, checks: tuple[Check, ...]) -> None:
        self.room, self.given = room, given
        self.checks = [it for it in checks if it.name in given.chosen]
        self.waiting = [*self.checks]
        self.is_live = given.verbose or len(self.waiting) == 1
        self.environment = environment(given.jobs)
        self.files = files(ROOT) if "written" in given.chosen else set()
        self.results: dict[str, Result] = {}
        self.running: dict[str, Check] = {}
        self.ended: queue.Queue[tuple[Check, Result, float]] = queue.Queue()

    def output(self, name: str) -> str:
        """Returns the output of a check so far."""
        path = self.room / f"{name}.said"
        return path.read_text(encoding="utf-8", errors="replace") if path.exists() else ""

    def hindered(self, check: Check) -> Result | None:
        """Returns the result of a check that cannot be run, because a check that it needs has failed, or because
        something that it needs is not built."""
        for name in check.first():
            if name in self.results and self.results[name].state == "failed":
                return Result(failed=1, why=f"not run, because {name} has failed")
        for path, why in map(MADE.__getitem__, check.needs):
            if not (ROOT / path).exists():
                return Result(skips=[f"{check.name}: all of it, {why}"])
        return None

    def try_one(self, check: Check) -> None:
        """Runs a check, unless it is hindered. (This is a thread of its own.)"""
        began = time.monotonic()
        try:
            result = self.hindered(check) or counted(check.name, self.status(check), self.output(check.name))
        except Exception as error:  # whatever it is, the check has failed, and the run goes on
            result = Result(failed=1, why=str(error))
        self.ended.put((check, result, time.monotonic() - began))

    def status(self, check: Check) -> int:
        """Runs a check, writes its output to a file, and returns its status."""
        path, folder = self.room / f"{check.name}.said", self.room / check.name
        folder.mkdir()
        env = {**self.environment, "OUTPUT": str(path), "TMPDIR": str(folder)}
        if "prove" in self.results:
            env["AFTER_RT_CI"] = "yes"  # the kit's files are built from these sources, though they do not say so
        if callable(check.runs):
            lines = check.runs(self)
            path.write_text("".join(f"{check.name}: {it}\n" for it in lines), encoding="utf-8")
            return int(bool(lines))
        none, words = subprocess.DEVNULL, check.words(self.given.chosen[check.name])
        with path.open("wb") as file, path.open(encoding="utf-8", errors="replace") as said:
            process = subprocess.Popen(words, 0, None, none, file, file, cwd=ROOT, env=env, start_new_session=True)
            while process.returncode is None:
                with contextlib.suppress(subprocess.TimeoutExpired):
                    process.wait(0.1)
                if self.is_live or check.name == "prove":
                    print(said.read(), end="", flush=True)
        return process.returncode

    def start(self) -> None:
        """Starts the checks that can be started now, in the order of the table."""
        for check in list(self.waiting):
            is_alone = any(it.kind & ALONE for it in self.running.values())
            if len(self.running) >= self.given.jobs or is_alone or check.kind & ALONE and self.running:
                return
            if any(name == it.name for name in check.first() for it in [*self.waiting, *self.running.values()]):
                continue
            self.waiting.remove(check)
            self.running[check.name] = check
            threading.Thread(target=self.try_one, args=(check,), daemon=True).start()

    def run(self) -> None:
        """Runs the checks, and prints a line for each when it ends."""
        while self.waiting or self.running:
            self.start()
            check, result, seconds = self.ended.get()
            del self.running[check.name]
            self.results[check.name] = result
            self.show(check, result, seconds)

    def show(self, check: Check, result: Result, seconds: float) -> None:
        """Prints the line of a check that has ended, and the end of its output if it has failed."""
        lines = self.output(check.name).splitlines()
        said = [result.why, *(lines[-1:] if result.state == "passed" else result.skips)]
        first = next((it.removeprefix(f"{check.name}: ") for it in said if it), "")
        print(f"{check.name}: {result.state}, {seconds:.1f} s" + f": {first}" * bool(first), flush=True)
        if result.state == "failed" and not self.is_live:
            left = len(lines) - LAST
            shown = [*[f"({left} lines before)"] * (left > 0), *lines[-LAST:]]
            print("".join(f"    {it}\n" for it in shown), end="", flush=True)

    def summary(self) -> int:
        """Lists what failed and what was skipped, and prints the last line. Returns the exit status, which is 0 if
        nothing failed. With --strict, nothing may be skipped either."""
        found = [self.results[it.name] for it in self.checks]
        wrong = [it.name for it in self.checks if self.results[it.name].state == "failed"]
        skips = [skip for it in found for skip in it.skips]
        print(*(f"failed: {it}\n" for it in wrong), *(f"not tried: {it}\n" for it in skips), sep="", end="")
        if skips and self.given.strict:
            print("with --strict, nothing may be skipped")
        line = f"{sum(it.passed for it in found)} passed, {sum(it.failed for it in found)} failed"
        line += f", {len(skips)} skipped" * bool(skips)
        if not wrong and "prove" in self.results and len(self.results) == len(CHECKS):
            subprocess.run(["tools/statement", "--keep-all", line], cwd=ROOT, env=self.environment, check=False)
        print(line)
        return int(bool(wrong or skips and self.given.strict))


def arguments(checks: tuple[Check, ...]) -> argparse.Namespace:
    """Reads the arguments. Adds the names of the checks that they choose, each with the arguments of the check."""
    form = argparse.RawDescriptionHelpFormatter
    reader = argparse.ArgumentParser(prog="tests/run.py", description=__doc__, formatter_class=form)
    reader.add_argument("names", metavar="NAME", nargs="*", help="a check, or one case of it (none: all checks)")
    reader.add_argument("--quick", action="store_true", help="only the checks that prove nothing, marked * in --list")
    reader.add_argument("--strict", action="store_true", help="fails if anything was skipped, as a release needs")
    reader.add_argument("--jobs", type=int, default=usual_jobs(), help="how many run side by side (here %(default)s)")
    reader.add_argument("--verbose", action="store_true", help="shows the output of each check")
    reader.add_argument("--list", action="store_true", help="lists the checks, and runs none")
    end = [*sys.argv, "--"].index("--")
    further = sys.argv[end + 1 :]
    given = reader.parse_args(sys.argv[1:end])
    given.chosen = {}
    for name in given.names:
        pattern, _, case = name.partition(".")
        matching = [it for it in checks if fnmatch.fnmatch(it.name, pattern)]
        if not matching:
            reader.error(f"no check has the name {pattern} (--list lists them)")
        for it in matching:
            given.chosen.setdefault(it.name, []).extend([case.replace(".", it.joint)] * bool(case))
    if further and len(given.chosen) != 1:
        reader.error("the arguments after -- are for one check")
    for cases in given.chosen.values():
        cases += further
    given.chosen = given.chosen or {it.name: [] for it in checks if it.kind & QUICK or not given.quick}
    return given


def main(checks: tuple[Check, ...] = CHECKS, patience: float = 5) -> int:
    """Runs the checks that the arguments choose. Returns the exit status."""
    given = arguments(checks)
    if given.list:
        for it in (it for it in checks if it.name in given.chosen):
            after = f" (after {', '.join(it.first())})" * bool(it.first())
            print(f"{it.name:8} {'*' if it.kind & QUICK else ' '} {it.shows}{after}")
        return 0
    if "prove" in given.chosen and subprocess.run(["tools/prove.py", "--kit"], cwd=ROOT, check=False).returncode:
        return 1
    # PR_SET_CHILD_SUBREAPER: a process whose parent has ended becomes a child of this one.
    ctypes.CDLL(None).prctl(36, 1)
    for number in (signal.SIGTERM, signal.SIGHUP):
        signal.signal(number, signal.default_int_handler)
    os.umask(0o022)
    room = Path(tempfile.mkdtemp(prefix="checks-"))
    room.chmod(0o755)  # other users run some of what the checks make
    try:
        run = Run(room, given, checks)
        run.run()
        return run.summary()
    except KeyboardInterrupt:
        print("interrupted")
        return 130
    except OSError as error:  # the output cannot be written, or the disk is full
        os.dup2(os.open(os.devnull, os.O_WRONLY), 1)
        print(f"run.py: {error}", file=sys.stderr)
        return 1
    finally:
        for number in (signal.SIGINT, signal.SIGTERM, signal.SIGHUP):
            signal.signal(number, signal.SIG_IGN)
        end_all(patience)
        subprocess.run(["rm", "-rf", "--one-file-system", room], check=False)


if __name__ == "__main__":
    sys.exit(main())
