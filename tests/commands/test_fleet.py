# SPDX-License-Identifier: BSD-2-Clause-Patent
"""Runs the commands of recipes/fleet/README.md over made images, with each engine that is installed, and kills a
worker, a job or a machine with SIGKILL in the middle. Each image must then have exactly one line, with the result that
it was made for: no line is lost, and no line occurs twice. A run that is killed cannot have ended before: one of its
images is a pipe of the test with nothing in it, and becomes a file only afterwards.

By default there are 1,000 small images. With FLEET_IMAGES=10000 they are larger, and the times are shown. The Slurm
test then kills a machine, and waits until Slurm gives its task to the other machine, which takes three minutes. With
FLEET_KILL=no nothing is killed, to measure."""

import contextlib
import functools
import getpass
import os
import random
import re
import resource
import shutil
import signal
import socket
import subprocess
import sys
import time
from collections import Counter
from collections.abc import Callable, Collection, Iterator
from dataclasses import dataclass
from pathlib import Path
from typing import TypeVar

from tests import making
from tests.checks import ROOT, read
from tests.commands.room import ImageCase, needs
from tests.frame import LIBRARY, RoomCase, needs_library

FOLDER = ROOT / "recipes/fleet"
TASK = FOLDER / "fv-array.sh"
COUNT, IS_KILLED = int(os.environ.get("FLEET_IMAGES", "1000")), os.environ.get("FLEET_KILL") != "no"
IS_LONG = COUNT > 1000
Found = TypeVar("Found")
BATCH = 100  # images of a batch in README's commands
ROOM, MACHINE = "FLEET_ROOM", "FLEET_MACHINE"  # variables of the processes of a run, and of one machine
HELD = making.volume([], 72)  # the contents of the image that a run waits for
PATH = f"{os.environ['PATH']}:{FOLDER}:/usr/sbin"
needs_engine = functools.partial(needs, path=PATH, of="")
# Two workers in each engine: nproc prints OMP_NUM_THREADS, and GNU parallel reads PARALLEL.
TWO_WORKERS = {"OMP_NUM_THREADS": "2", "PARALLEL": "--will-cite --jobs 2"}
SLURM = """ClusterName=fleet
SlurmctldHost={host}(127.0.0.1)
SlurmctldPort={ports[0]}
AuthType=auth/none
CredType=cred/none
SlurmUser={user}
SlurmdUser={user}
StateSaveLocation={room}
SlurmdSpoolDir={room}/spool-%n
SlurmctldPidFile={room}/slurmctld.pid
SlurmdPidFile={room}/slurmd-%n.pid
ProctrackType=proctrack/linuxproc
SlurmdParameters=config_overrides
SlurmdTimeout=10
SchedulerParameters=batch_sched_delay=0,sched_interval=1,bf_interval=1
ReturnToService=2
NodeName=w1 NodeHostname={host} NodeAddr=127.0.0.1 Port={ports[1]} CPUs=1
NodeName=w2 NodeHostname={host} NodeAddr=127.0.0.1 Port={ports[2]} CPUs=1
PartitionName=all Nodes=w1,w2 Default=YES MaxTime=INFINITE State=UP
"""


def made_images(size: int) -> Iterator[tuple[bytes, str]]:
    """Yields images of about this size, each with its status and its verdicts by docs/FORMAT.md and docs/FAULTS.md."""
    pick = random.Random(size)
    for share in (1, 3, 5, 7):
        length = size * share // 4 & ~7
        data = [pick.randbytes(length // 40 + n) for n in range(20)]
        files = [making.file(making.guid(n), it, attributes=making.SUMMED) for n, it in enumerate(data)]
        good, other = making.volume(files, length), making.volume([making.pad(b"dust at "), *files], length)
        yield good, "0\t0 canonical"
        yield other, "1\t0 not canonical"
        yield b"\xff" * 4096 + good + bytes(64) + other, f"1\t4096 canonical, {4096 + length + 64} not canonical"
        for at, fault in ((8, "6 at 0"), (72 + 24 + 5, f"14 at {72 + 17}")):  # in the header, and in the first file
            yield good[:at] + bytes([good[at] ^ 1]) + good[at + 1 :], f"2\t0 fault {fault}"


def readme(name: str) -> list[str]:
    """Returns the commands of README after the comment that begins with this name. A quoted program is one command."""
    block = read(FOLDER / "README.md").partition(f"\n    # {name}")[2].partition("\n\n")[0].split("\n")[1:]
    lines = [line[4:].removesuffix(" &") for line in block if not line.startswith("    # ")]
    quoted = next((at for at, line in enumerate(lines) if line.count("'") == 1), len(lines))
    return [*lines[:quoted], *["\n".join(lines[quoted:])] * (quoted < len(lines))]


def free_ports(count: int) -> list[int]:
    """Returns ports of this machine that are free."""
    with contextlib.ExitStack() as stack:
        ports = [stack.enter_context(socket.create_server(("127.0.0.1", 0))).getsockname()[1] for _ in range(count)]
    return ports


def seconds() -> tuple[float, float]:
    """Returns the time now, and the processor time of the processes that have ended."""
    usage = resource.getrusage(resource.RUSAGE_CHILDREN)
    return time.monotonic(), usage.ru_utime + usage.ru_stime


@dataclass(frozen=True)
class Process:
    """A process that has not ended: its number, the number of its parent, its command, and its environment."""

    number: int
    parent: int
    words: str
    variables: list[str]


def processes() -> Iterator[Process]:
    """Yields the processes of this machine whose environment can be read."""
    for folder in Path("/proc").glob("[0-9]*"):
        with contextlib.suppress(OSError):
            environ, words, stat = ((folder / it).read_text(errors="replace") for it in ("environ", "cmdline", "stat"))
            parent = int(stat.rpartition(")")[2].split()[1])
            yield Process(int(folder.name), parent, words, environ.split("\0"))


@needs_library
class Engines(RoomCase):
    """Runs over all images, each in a folder of its own, which has the list of the images. In place of one image the
    list has the held image. If something is to be killed, a worker that reads the held image waits for its bytes."""

    names: list[Path]
    lines: list[str]

    @classmethod
    def setUpClass(cls) -> None:
        super().setUpClass()
        made = list(made_images(1 << 19 if IS_LONG else 1 << 13))
        cls.names = [cls.room / f"image {number}.fd" for number in range(COUNT)]
        cls.lines = [f"{made[number % len(made)][1]}\t{name}" for number, name in enumerate(cls.names)]
        for number, name in enumerate(cls.names):
            if number < len(made):
                name.write_bytes(made[number][0])
            else:
                os.link(cls.names[number % len(made)], name)

    def setUp(self) -> None:
        super().setUp()
        self.folder = self.room / self._testMethodName
        self.folder.mkdir()
        os.chdir(self.folder)
        own = {"HOME": str(self.folder), "PATH": PATH, "LIBFV": str(LIBRARY), ROOM: str(self.folder)}
        self.variables = {**os.environ, **TWO_WORKERS, **own}
        self.addCleanup(lambda: self.kill(self.processes()))
        self.held, at = self.folder / "held.fd", COUNT * 3 // 4
        self.held.write_bytes(HELD)
        if IS_KILLED:
            self.pipe = os.pipe()
            self.addCleanup(os.close, self.pipe[0])
            self.held = Path(f"/proc/{os.getpid()}/fd/{self.pipe[0]}")
        self.wanted = Counter([*self.lines[:at], f"0\t0 canonical\t{self.held}", *self.lines[at + 1 :]])
        Path("LIST").write_text("".join(f"{name}\n" for name in [*self.names[:at], self.held, *self.names[at + 1 :]]))
        self.began = seconds()

    def start(self, command: str, machine: str = "") -> subprocess.Popen[bytes]:
        """Starts a command in the folder, as one process of a machine."""
        with open("said", "ab") as said:
            words, more = ["bash", "-c", f"exec {command}"], {**self.variables, MACHINE: machine}
            return subprocess.Popen(words, env=more, stdin=subprocess.DEVNULL, stdout=said, stderr=said)

    def said(self) -> str:
        """Returns the end of the output that programs have written in addition to the lines."""
        return Path("said").read_text(errors="replace")[-2000:]

    def wait_for(self, what: Callable[[], Found], why: str, seconds: float = 60, every: float = 0.002) -> Found:
        """Waits until something is the case, and returns it."""
        end = time.monotonic() + seconds
        while not (found := what()):
            self.assertLess(time.monotonic(), end, f"{why}: {self.said()}")
            time.sleep(every)
        return found

    def ends(self, running: subprocess.Popen[bytes], *statuses: int) -> None:
        """Waits for the end of a command, which must have one of these statuses, or 0 if none is given."""
        self.assertIn(running.wait(), statuses or (0,), self.said())

    def processes(self, **variables: str) -> list[Process]:
        """Returns the processes of this run that have these variables."""
        wanted = {f"{name}={value}" for name, value in {ROOM: str(self.folder), **variables}.items()}
        return [it for it in processes() if wanted <= {*it.variables}]

    def kill(self, found: list[Process]) -> None:
        """Kills processes. Some of them may have ended already."""
        for it in found:
            with contextlib.suppress(ProcessLookupError):
                os.kill(it.number, signal.SIGKILL)

    def written(self) -> int:
        """Returns the number of lines that are written."""
        files = [Path("answers.tsv"), *Path().glob("parts/*.tsv")]
        return sum(path.read_bytes().count(b"\n") for path in files if path.exists())

    def wait_for_quarter(self) -> None:
        """Waits until a quarter of the lines is written."""
        self.wait_for(lambda: self.written() >= COUNT / 4, "no lines", 600)

    def kill_holder(self) -> set[int]:
        """Kills the `fv-check` that waits for the held image, once a quarter of the lines is written. Returns its
        number."""
        self.wait_for_quarter()
        self.kill(found := self.holders())
        return {it.number for it in found}

    def holders(self, killed: Collection[int] = ()) -> list[Process]:
        """Waits until an `fv-check`, except the killed ones, has the held image among its arguments. Returns it."""

        def found() -> list[Process]:
            workers = (it for it in self.processes() if re.search("(?:^|[/\0])fv-check\0", it.words))
            return [it for it in workers if f"\0{self.held}\0" in it.words and it.number not in killed]

        return self.wait_for(found, "no worker has the held image")

    def let_go(self) -> None:
        """Checks that the run was killed before its end, and makes the held image a file. A worker that still waits for
        the pipe gets the same bytes."""
        self.assertLess(self.written(), COUNT, "all lines were there before anything was killed")
        out, into = self.pipe
        pipe, file = os.dup(out), os.open("held.fd", os.O_RDONLY)
        os.dup2(file, out)
        os.write(into, HELD)
        for it in (file, into, pipe):
            os.close(it)

    def check(self) -> None:
        """Checks that each image has exactly one line, which is right, and that there is no other line."""
        took, used = (now - then for now, then in zip(seconds(), self.began))
        given = Counter(Path("answers.tsv").read_text().split("\n")[:-1])
        lost, more = self.wanted - given, given - self.wanted
        self.assertEqual((lost.total(), more.total()), (0, 0), f"{[*lost][:3]} {[*more][:3]}")
        if IS_LONG:  # the runner keeps what a test prints, except here
            figures = f"{took:.1f} s, {COUNT / took:,.0f} a second, CPU {used:.1f} s"
            print(f"{self._testMethodName}: {COUNT} lines: {figures}", file=sys.__stdout__, flush=True)

    def test_one_process(self) -> None:
        """Kills the process, and cuts its last line. The same command then checks the images without a line."""
        (command,) = readme("One process")
        running = self.start(command)
        if IS_KILLED:
            self.wait_for_quarter()
            running.kill()
            self.ends(running, -signal.SIGKILL)
            self.let_go()
            os.truncate("answers.tsv", os.stat("answers.tsv").st_size // 2)
            running = self.start(command)
        self.ends(running)
        self.check()

    @needs_engine("xargs")
    def test_xargs(self) -> None:
        """Kills a worker. Then xargs ends, and the images without a line are its next list."""
        command, left = readme("xargs")
        running = self.start(command)
        if IS_KILLED:
            self.kill_holder()
            self.ends(running, 125)
            self.let_go()
            self.ends(self.start(left))
            running = self.start(command.replace("LIST", "LEFT"))
        self.ends(running)
        self.check()

    @needs_engine("parallel")
    def test_parallel(self) -> None:
        """Kills a worker, whose batch GNU parallel gives to another worker, and then kills GNU parallel itself. The
        same command then does the jobs that are not in its log."""
        (command,) = readme("GNU parallel")
        running = self.start(command)
        if IS_KILLED:
            self.holders(self.kill_holder())
            running.kill()
            self.ends(running, -signal.SIGKILL)
            self.let_go()
            self.wait_for(lambda: not self.processes(), "workers go on")
            running = self.start(command)
        self.ends(running)
        self.check()

    def start_slurm(self) -> None:
        """Starts a cluster of two machines with one processor each. Both are this machine, and all files are in the
        folder of the run."""
        text = SLURM.format(host=socket.gethostname(), room=self.folder, user=getpass.getuser(), ports=free_ports(3))
        Path("slurm.conf").write_text(text)
        self.variables["SLURM_CONF"] = str(self.folder / "slurm.conf")
        self.start("slurmctld -D")
        for machine in ("w1", "w2"):
            self.start(f"slurmd -D -N {machine}", machine)
        words = ["sinfo", "-h", "-t", "idle", "-o", "%D"]
        self.wait_for(lambda: self.run_command(*words, env=self.variables).stdout == "2\n", "no machines", every=0.1)
        self.began = seconds()

    @needs_engine("slurmctld", "slurmd", "sbatch")
    def test_slurm(self) -> None:
        """Kills a machine in a long run, so that Slurm gives its task to the other machine. In a short run, kills only
        a task. This task has then failed, and the same command does the tasks that have no file."""
        self.start_slurm()
        folder, check, gather = readme("Slurm")
        check = check.replace("0-99", f"0-{COUNT // BATCH - 1}")
        self.ends(self.start(folder))
        running = self.start(check)
        if IS_KILLED and IS_LONG:
            self.wait_for_quarter()
            tasks = self.wait_for(lambda: self.processes(SLURMD_NODENAME="w2"), "no task on w2")
            # slurmstepd, which has overwritten its environment, would report the end of its task. It is killed first.
            parents = {task.parent for task in tasks}
            steps = [step for step in processes() if step.number in parents and "slurmstepd" in step.words]
            self.kill(self.processes(**{MACHINE: "w2"}) + steps + tasks)
            self.let_go()
        elif IS_KILLED:
            self.kill_holder()
            self.ends(running, 1, 137)
            self.let_go()
            running = self.start(check)
        self.ends(running)
        self.ends(self.start(gather))
        self.check()

    @needs_engine("dask-scheduler", "dask-worker")
    def test_dask(self) -> None:
        """Kills a machine. dask gives its images to the other machine."""
        self.variables["PATH"] = f"{Path(shutil.which('dask-worker') or '').parent}:{PATH}"  # its Python too
        (port,) = free_ports(1)
        scheduler, worker, check = (it.replace("SCHEDULER:8786", f"127.0.0.1:{port}") for it in readme("dask"))
        self.start(scheduler.replace("SCHEDULER", f"127.0.0.1 --port {port} --no-dashboard"))
        for machine in ("w1", "w2"):
            options = f"--no-dashboard --local-directory {self.folder}"
            self.start(f"{worker.partition(' &')[0]} {options}", machine)
        running = self.start(check)
        if IS_KILLED:
            self.wait_for_quarter()
            self.kill(self.processes(**{MACHINE: "w2"}))
            self.let_go()
        self.ends(running)
        self.check()


# The status of a Slurm task that must write no file, its number, and its arguments.
FAILED_TASKS = (
    (1, "0", "missing", "parts", "2"),
    (1, "0", "parts", "parts", "2"),
    (1, "2", "list", "parts", "2"),
    (1, "0", "list", "missing", "2"),
    (1, "x", "list", "parts", "2"),
    (1, "", "list", "parts", "2"),
    (3, "0", "list", "parts", "2+1"),
)
TASKS = {
    "parts/0.tsv": "0\t0 canonical\tplain.fv\n1\t0 not canonical\tfront.fv\n",
    "parts/1.tsv": "2\t0 fault 11 at 72\tdamaged.fv\n",
}


@needs_library
class SlurmTasks(ImageCase):
    """A task of fv-array.sh writes its file only if it has checked its images: not without LIST, or past its end."""

    def test_tasks(self) -> None:
        for folder in ("parts", "-parts"):
            os.mkdir(folder)
        for name in ("list", "-list"):
            Path(name).write_text("plain.fv\nfront.fv\n\ndamaged.fv\n")
        for status, number, *words in FAILED_TASKS:
            with self.subTest(words=words):
                self.assertEqual(self.runs(status, TASK, *words, env={"SLURM_ARRAY_TASK_ID": number}), "")
        without = {"SLURM_ARRAY_TASK_ID": "0", "LIBFV": "/missing/libfv.so.2"}
        self.runs(4, TASK, "list", "parts", "2", env=without)
        self.assertEqual(os.listdir("parts"), [])
        Path("parts/0.tsv").touch()  # as an earlier version left it, without LIST
        for number in ("0", "1"):
            self.expect(0, "", TASK, "list", "parts", "2", env={"SLURM_ARRAY_TASK_ID": number})
        self.assertEqual({str(it): it.read_text() for it in Path("parts").iterdir()}, TASKS)
        self.expect(0, "", TASK, "-list", "-parts", "1", env={"SLURM_ARRAY_TASK_ID": "0"})
        self.assertEqual(Path("-parts/0.tsv").read_text(), "0\t0 canonical\tplain.fv\n")
