# SPDX-License-Identifier: BSD-2-Clause-Patent
"""Contains the parts that the commands of the package share: their arguments, their inputs, and their exit statuses.

    parser = cli.of("fv-text", __doc__, cli.IMAGE, cli.flag("--open", "list the contents of compressed sections too"))

    @cli.command(parser)
    def main(given: argparse.Namespace) -> int:
        ...

| Status | Meaning |
|---|---|
| 0 | yes, or everything |
| 1 | no, or not everything |
| 2 | no verdict: an input is rejected, cannot be read, or exceeds a limit |
| 3 | the arguments are wrong |
| 4 | the command failed: no library, an output that cannot be written, an unexpected exception |

So 0 and 1 are verdicts, and an unexpected exception never ends with one."""

from __future__ import annotations

import argparse
import contextlib
import errno
import functools
import io
import os
import resource
import signal
import sys
import traceback
from collections.abc import Callable, Iterator, Sequence
from typing import IO, Any, NoReturn, Protocol

from . import __version__
from .limits import Full, Limits
from .shown import printable

DONE, OTHER, REJECTED, WRONG_WORDS, FAILED = range(5)
HELP = (
    "The library libfv is needed. It is in the Debian packages and in the wheel of a release, and libfv/build makes it"
    " in a clone that has the kit (docs/INSTALL.md). LIBFV may name the shared object."
)
MOST_MEMORY = 4 << 30  # bytes that the process may take
STEP = 1 << 20  # bytes that are read from a pipe at a time
SIGNALS = (signal.SIGINT, signal.SIGTERM, signal.SIGHUP)  # that end a command


class Main(Protocol):
    """A command. It takes the arguments after its name, by default sys.argv[1:], and returns a status."""

    def __call__(self, words: Sequence[str] | None = None) -> int: ...


class Unread(Exception):
    """An input cannot be read. The text is its line, with a fault as `fvtool` writes it."""


# An argument of a command: its names, and what argparse is told about it.
Argument = tuple[tuple[str, ...], dict[str, Any]]


def argument(*names: str, **about: Any) -> Argument:
    """Returns an argument of a command, as `add_argument` of argparse takes it."""
    return names, about


def flag(name: str, about: str) -> Argument:
    """Returns an option without a value."""
    return argument(name, action="store_true", help=about)


IMAGE = argument("image", metavar="IMAGE", help="a flash image or a firmware volume")


class Parser(argparse.ArgumentParser):
    """The arguments of a command, with --help and --version. If they are wrong, it writes the usage and ends with
    status 3. `usages` are the forms of the command after its name."""

    def __init__(self, name: str, about: str | None, *arguments: Argument, usages: Sequence[str] = ()) -> None:
        shape = argparse.RawDescriptionHelpFormatter
        usage = "\n       ".join(f"{name} {it}" for it in usages) or None
        super().__init__(prog=name, description=about, usage=usage, formatter_class=shape, allow_abbrev=False)
        self.add_argument("--version", action="version", version=f"{name} (Capstanolive) {__version__}")
        for names, rest in arguments:
            self.add_argument(*names, **rest)

    def print_help(self, file: IO[str] | None = None) -> None:
        """Writes the help. The method of argparse ignores an output that cannot be written."""
        print(self.format_help(), end="", file=file)

    def error(self, message: str) -> NoReturn:
        """Ends the command because of its arguments."""
        self.exit(WRONG_WORDS, f"{self.format_usage()}{self.prog}: {printable(message)}\n")


def with_name_last(words: list[str]) -> list[str]:
    """Returns the arguments of a command that git calls with a file name at the end, which may begin with a hyphen.
    `--help` at the end is a name if there is a file with this name, and so are `-h`, `--version` and `--`."""
    if not words or "--" in words[:-1]:
        return words
    if words[-1] in ("-h", "--help", "--version", "--") and not os.path.lexists(words[-1]):
        return words
    return [*words[:-1], "--", words[-1]]


def of(name: str, about: str | None, *arguments: Argument, usages: Sequence[str] = ()) -> Callable[[], Parser]:
    """Returns a function that makes the parser of a command."""
    return functools.partial(Parser, name, about, *arguments, usages=usages)


def command(
    parser: Callable[[], Parser], ordered: Callable[[list[str]], list[str]] = list
) -> Callable[[Callable[[argparse.Namespace], int]], Main]:
    """Makes a command from a function that takes its arguments and returns a status, and limits the memory of the
    process. `ordered` returns the words after the command's name as its parser takes them. The function is the last of
    its module: if that is run as a script (`python3 -m fv.same`), the command is run."""

    def made(run: Callable[[argparse.Namespace], int]) -> Main:
        @functools.wraps(run)
        def main(words: Sequence[str] | None = None) -> int:
            def limited() -> int:
                """Runs the command with its arguments."""
                given = reader.parse_args(ordered(list(sys.argv[1:] if words is None else words)))
                limit_memory()
                return run(given)

            reader = parser()
            return ended(reader.prog, limited)

        if run.__module__ == "__main__":
            sys.exit(main())
        return main

    return made


def ended(name: str, run: Callable[[], int]) -> int:
    """Runs a command, and returns its status, also if the command was asked for help, or a signal has ended it. All
    output is written by then. An input that cannot be read, or exceeds a limit, gives status 2."""
    try:
        prepare_output()
        try:
            status = run()
        except SystemExit as end:
            status = end.code if isinstance(end.code, int) else DONE
        sys.stdout.flush()
        return status
    except KeyboardInterrupt:
        return 128 + signal.SIGINT
    except (Unread, Full) as error:
        complain(name, f"more than {error}" if isinstance(error, Full) else str(error))
        return REJECTED
    except OSError as error:
        complain(name, reason(error))
    except MemoryError as error:
        complain(name, str(error) or "memory ran out")
    except ImportError as error:
        complain(name, f"{error}. {HELP}")
    except Exception:  # an error of the command is not a verdict
        with contextlib.suppress(OSError):
            traceback.print_exc()
    drop_output()
    return FAILED


def prepare_output() -> None:
    """Lets a command end silently if the reader of its output has ended, as other tools do. A character that the
    encoding of the output does not have is written as its number."""
    if sys.stdout is None:
        raise OSError("standard output is closed")
    signal.signal(signal.SIGPIPE, signal.SIG_DFL)
    for stream in (sys.stdout, sys.stderr):
        if isinstance(stream, io.TextIOWrapper):
            stream.reconfigure(errors="backslashreplace")


def drop_output() -> None:
    """Drops the rest of the output, so that writing it does not fail again at the end of the process."""
    with contextlib.suppress(OSError):
        os.dup2(os.open(os.devnull, os.O_WRONLY), 1)


def complain(name: str, what: str) -> None:
    """Writes a line about a run to standard error, if standard error is open."""
    if sys.stderr is not None:
        with contextlib.suppress(OSError):
            print(f"{name}: {printable(what)}", file=sys.stderr)


def reason(error: OSError, name: str | None = None) -> str:
    """Returns in plain words why a file cannot be used, after its name, which the error may have too."""
    name = error.filename if name is None else name
    if not isinstance(name, (str, bytes)) or not error.strerror or error.filename2 is not None:
        return str(error)
    is_missing = error.errno == errno.ENOENT
    words = "no such file" if is_missing else f"{error.strerror[:1].lower()}{error.strerror[1:]}"
    return f"{printable(os.fsdecode(name)) or repr(name)}: {words}"


def refuse_terminal(name: str, what: str) -> None:
    """Ends a command with status 3 if standard output is a terminal. `what` is its output, which is not for reading."""
    if sys.stdout.isatty():
        complain(name, f"{what} is not written to a terminal: add `> FILE` or `| COMMAND`")
        sys.exit(WRONG_WORDS)


def limit_memory() -> None:
    """Limits the memory of this process, so that others do not run out of it. libfv reports the fault out of memory
    then."""
    soft, hard = resource.getrlimit(resource.RLIMIT_AS)
    if soft == resource.RLIM_INFINITY or soft > MOST_MEMORY:
        resource.setrlimit(resource.RLIMIT_AS, (MOST_MEMORY, hard))


def end_by_signals() -> None:
    """Lets a signal raise SystemExit, so that nothing incomplete is left. A second signal does not stop that."""
    for number in SIGNALS:
        if signal.getsignal(number) != signal.SIG_IGN:
            signal.signal(number, _end)


@contextlib.contextmanager
def undisturbed() -> Iterator[None]:
    """Lets the signals that end a command wait until the block has ended."""
    signal.pthread_sigmask(signal.SIG_BLOCK, SIGNALS)
    try:
        yield
    finally:
        signal.pthread_sigmask(signal.SIG_UNBLOCK, SIGNALS)


def _end(number: int, _: object) -> NoReturn:
    for it in SIGNALS:
        signal.signal(it, lambda *_: None)  # Python complains if a signal that has come is ignored
    sys.exit(128 + number)


def read_file(name: str | bytes | int, most: int) -> bytes:
    """Returns the bytes of a file, a pipe or a device. Raises Full if there are more than `most` bytes."""
    pieces, left = [], most + 1
    with open(name, "rb", buffering=0) as file:
        step = min(os.fstat(file.fileno()).st_size, most) + 1  # so a file is read at once
        while left > 0 and (piece := file.read(min(step, left))):
            pieces.append(piece)
            left -= len(piece)
            step = STEP
    if not left:
        raise Full(f"{most} bytes")
    return b"".join(pieces)


def read_for(command: str, name: str, most: int = Limits.total) -> bytes:
    """Returns the bytes of an input of a command."""
    return read(name, functools.partial(complain, command), most)


def read(name: str, say: Callable[[str], None], most: int = Limits.total) -> bytes:
    """Returns the bytes of an input. Raises Full if it has more than `most` bytes, and Unread if it cannot be read;
    `say` takes the reason."""
    try:
        return read_file(name, most)
    except OSError as error:
        say(reason(error, name))
        fault = "fault 25 at 0"
    except MemoryError:
        fault = "fault 24 at 0"
    raise Unread(f"{printable(name) or repr(name)}: {fault}")


def whole_number(text: str) -> int:
    """Reads an argument that is a number of bytes."""
    if not text.isascii() or not text.isdecimal() or len(text) > 18:
        raise argparse.ArgumentTypeError(f"{text} is not a number of bytes")
    return int(text)
