# SPDX-License-Identifier: BSD-2-Clause-Patent
"""Installs the program and the library into scratch folders, as docs/INSTALL.md describes, and tries the installed
files: the program, the commands, the manual pages, completion in bash and zsh, the driver for git, and programs in C,
Python and Rust over the library, which pkg-config and CMake find. Uninstalls, and checks that no file is left."""

import filecmp
import os
import re
import shlex
import shutil
import unittest
from pathlib import Path

from tests import examples
from tests.checks import NOTHING_TRIED, ROOT
from tests.frame import needs_tool
from tests.install.pages import dead_ends_of, lacking
from tests.install.room import ARCHIVE, NAME, NUMBERS, PROGRAM, SYSTEM, VERSION, WANTED, InstallCase, below
from tests.rust.test_rust import is_new

COMPILER = os.environ.get("CC") or "cc"
EXAMPLE = ROOT / "examples/volumes.c"
ZSH = r"""zmodload zsh/zpty
zpty shell 'TERM=dumb zsh -f -i'
zpty -w shell "PS1=; fpath=(\$SITE \$fpath); autoload -Uz compinit; compinit -D -u; print initial''ised"
zpty -r shell seen '*initialised*'
zpty -w -n shell "$1"
zpty -r shell seen "$2"
"""
BASH = r"""source "$0" && [[ $(complete -p "$1") =~ -F\ ([^ ]*) ]]
COMP_WORDS=("$@") COMP_CWORD=$(($# - 1))
"${BASH_REMATCH[1]}" "$1" "${@: -1}"
echo "${COMPREPLY[*]}"
"""
PROJECT = """cmake_minimum_required(VERSION 3.13)
project(volumes C)
set(CMAKE_C_STANDARD 11)
find_package(libfv {} REQUIRED)
add_executable(volumes volumes.c)
target_link_libraries(volumes PRIVATE libfv::libfv)
add_executable(archived volumes.c)
target_link_libraries(archived PRIVATE libfv::static)
"""


class ProgramCase(InstallCase):
    """Tests of programs over the library."""

    def try_program(self, *words: str, **env: str) -> None:
        """Runs a program over the library, and compares what it writes."""
        self.assertEqual(self.runs(0, *words, "flash", env=env), WANTED)

    def compile(self, *words: str | Path, **env: str) -> None:
        """Compiles and runs a program in C."""
        self.runs(0, COMPILER, "-o", "compiled", EXAMPLE, *words)
        self.try_program("./compiled", **env)

    def try_configured(self, env: dict[str, str]) -> None:
        """Compiles and runs a program in C over the library that pkg-config finds."""
        self.compile(*shlex.split(self.runs(0, "pkg-config", "--cflags", "--libs", "libfv", env=env)), **env)


class Unbuilt(InstallCase):
    """Runs commands in a copy of the repository without built files."""

    is_built = False

    def test_build(self) -> None:
        """`make install` proves nothing: it names the command that builds the missing file."""
        for target in ("install", "install-lib"):
            said = self.make(target, f"DESTDIR={self.room}/root", status=2)
            self.assertIn("is not built from these sources yet: ", said)
            self.assertFalse((self.room / "root").exists())

    def test_kit(self) -> None:
        """Without the kit, each command that needs it names what can be installed without it."""
        folder = self.room / "without kit"
        self.runs(0, "cp", "--recursive", "--symbolic-link", "/usr/bin", folder)
        (folder / "rt").unlink(missing_ok=True)
        for command in ("./fvtool", "libfv/build", ".ci/run", "make"):
            said = self.run_command(command, cwd=self.tree, env={"PATH": str(folder)}, input="")
            self.assertNotEqual(said.returncode, 0, command)
            without = "Without the kit, install the packages or the wheel of a release"
            self.assertIn(without, said.stdout + said.stderr, command)

    @unittest.skipIf(os.getuid(), "not run by root")
    def test_other_user(self) -> None:
        """Another user runs the built program, also if a source has a newer date and the same bytes."""
        self.addCleanup(shutil.rmtree, self.tree / "crates/fv_tool/out")
        (self.tree / PROGRAM).parent.mkdir()
        shutil.copy(ROOT / PROGRAM, self.tree / PROGRAM)
        self.runs(0, self.tree / "tools/prove.py", "fv_tool")  # writes the sum of the sources, which are older
        os.utime(self.tree / "crates.txt")
        self.runs(0, "chmod", "-R", "a+rX", self.tree)
        with (ROOT / "crates/fv_tool/stdin").open() as given:
            user = ["chroot", "--userspec=65534:65534", "/", *SYSTEM]
            said = self.runs(0, *user, self.tree / "fvtool", stdin=given)
        self.assertEqual(said, (ROOT / "crates/fv_tool/stdout").read_text())


class Installed(ProgramCase):
    """Tries the files that `make install install-lib` installs."""

    root: Path
    below: Path
    variables: dict[str, str]  # by which pkg-config and the loader find the library

    @classmethod
    def setUpClass(cls) -> None:
        super().setUpClass()
        cls.root = cls.room / "root"
        cls.below = cls.root / "usr/local"
        folder = f"{cls.below}/lib"
        cls.variables = {"PKG_CONFIG_PATH": f"{folder}/pkgconfig", "LD_LIBRARY_PATH": folder}
        cls.variables["PKG_CONFIG_SYSROOT_DIR"] = str(cls.root)
        cls.make("install", "install-lib", f"DESTDIR={cls.root}")

    def test_program(self) -> None:
        """The installed program has the same loaded parts as the built program. It shows its version, and runs."""
        program = self.below / "bin/fvtool"
        for name, file in (("built", ROOT / PROGRAM), ("installed", program)):
            self.runs(0, "objcopy", "--output-target=binary", file, self.room / name)
        self.assertTrue(filecmp.cmp("built", "installed", shallow=False))
        self.assertIn(f"\nfvtool {VERSION}\n", self.runs(0, "strings", program))
        with (ROOT / "crates/fv_tool/stdin").open() as given:
            said = self.runs(0, "env", "-i", program, stdin=given)
        self.assertEqual(said, (ROOT / "crates/fv_tool/stdout").read_text())
        self.assertEqual(len(self.runs(0, program, "scan", "flash").splitlines()), 2)

    def test_sum(self) -> None:
        """CHANGELOG has the checksum of the program from these sources first, if its kit has the same logic, which is
        the last word of `rt version`."""
        page = (ROOT / "CHANGELOG.md").read_text(encoding="utf-8")
        said = re.search(r"(?m)^The program that (?:.*\n){3}", page)
        logic = self.runs(0, "rt", "version").split()[-1] if shutil.which("rt") else "no kit"
        if not said or f"logic `{logic}`" not in said[0]:
            self.skipTest(f"CHANGELOG has the sum of another logic than {logic}")
        self.assertIn(f"`{self.runs(0, 'sha256sum', ROOT / PROGRAM).split()[0]}`", said[0])

    @needs_tool("mandoc", "mandoc")
    @needs_tool("col", "bsdextrautils")
    def test_manual(self) -> None:
        """The manual pages have the right form, and lines of at most 80 columns."""
        pages = sorted((self.below / "share/man/man1").iterdir())
        self.runs(0, "mandoc", "-T", "lint", "-W", "warning", *pages)
        shown = self.runs(0, "mandoc", "-T", "ascii", "-O", "width=78", *pages)
        plain = self.runs(0, "col", "-bx", input=shown)
        self.assertEqual([line for line in plain.splitlines() if len(line) > 80], [])

    def test_pages(self) -> None:
        """The installed pages have no dead end, and each command has a manual page and completion."""
        share = self.below / "share"
        folders = [share / it for it in ("doc/fvtool", "doc/libfv", "man/man1")]
        self.assertEqual([*dead_ends_of(folders, self.root)], [])
        self.assertEqual(lacking(share / "doc/fvtool/README.md", self.root, self.below), [])
        for command in sorted(it.name for it in (self.below / "bin").iterdir()):
            for file in (f"man/man1/{command}.1", f"bash-completion/completions/{command}"):
                self.assertGreater((share / file).stat().st_size, 0, file)
            heads = [it.read_text().split("\n")[0] for it in (share / "zsh/site-functions").iterdir()]
            self.assertTrue(any(it.startswith("#compdef ") and command in it.split() for it in heads), command)

    def test_tools(self) -> None:
        """The commands work, also if all installed files are moved."""
        self.tools_work(self.below / "bin", self.room / "made", self.room)
        moved = self.room / "moved root"
        self.root.rename(moved)
        self.addCleanup(moved.rename, self.root)
        self.tools_work(moved / "usr/local/bin", self.room / "made", self.room)

    def test_bash(self) -> None:
        """Bash completes the last of some words."""
        self.runs(0, "sh", "-c", "od -An -v -tx1 -w32 volume > volume.hex")
        for wanted, line in (
            ("normalise", "fvtool n"),
            ("check", "fvtool ch"),
            ("--all --at", "fvtool normalise --a"),
            ("--all --at", "fvtool check --a"),
            ("", "fvtool list ./vol"),
            ("64 192", "fvtool list ./flash --at ''"),
            (NAME, "fvtool extract --at 64 ./flash --name 0a"),
            ("192", "fvtool compare ./volume ./flash --other-at 1"),
            (NAME, "fvtool extract --hex ./volume.hex --name ''"),
            ("--open", "fv-same --o"),
            ("--help --version --against --names", "fvmap --"),
            ("", "fv-same -- --o"),
        ):
            words = shlex.split(line)
            script = self.below / "share/bash-completion/completions" / words[0]
            env = {"PATH": f"{self.below}/bin:{os.environ['PATH']}"}
            self.assertEqual(self.runs(0, "bash", "--norc", "-c", BASH, script, *words, env=env), f"{wanted}\n", line)

    @needs_tool("zsh", "zsh")
    def test_zsh(self) -> None:
        """Zsh completes a line with tabs in it: it writes words that match the pattern."""
        Path("complete.zsh").write_text(ZSH)
        env = {"SITE": f"{self.below}/share/zsh/site-functions", "PATH": f"{self.below}/bin:{os.environ['PATH']}"}
        for line, pattern in (
            ("fv-same --op\t", "*--open*"),
            ("fvtool norm\t--al\t", "*normalise*--all*"),
            ("fvtool list flash --at 1\t", "*--at 192*"),
            ("fvtool extract flash --at 64 --name \t", f"*--name {NAME}*"),
        ):
            self.runs(0, "timeout", "60", "zsh", "-f", "complete.zsh", line, pattern, env=env)

    def test_c(self) -> None:
        """Programs in C find the shared library and the archive."""
        include = f"-I{self.below}/include"
        self.compile(include, f"-L{self.below}/lib", "-lfv", LD_LIBRARY_PATH=f"{self.below}/lib")
        self.compile(include, self.below / "lib/libfv.a")

    @needs_tool("pkg-config", "pkgconf")
    def test_pkg_config(self) -> None:
        """pkg-config finds the library and its version."""
        env = self.variables
        self.assertEqual(self.runs(0, "pkg-config", "--modversion", "libfv", env=env), f"{VERSION}\n")
        self.runs(0, "pkg-config", "--atleast-version=2.0", "libfv", env=env)
        self.try_configured(env)

    @unittest.skipUnless(is_new(1, 0) and shutil.which("pkg-config"), "no cargo, or no pkg-config")
    def test_rust(self) -> None:
        """A program in Rust finds the shared library."""
        env = {**self.variables, "CARGO_TARGET_DIR": f"{self.room}/rust"}
        words = ("cargo", "build", "--offline", "--locked", "--example", "volumes")
        self.runs(0, *words, "--manifest-path", self.tree / "rust/Cargo.toml", env=env)
        self.try_program("rust/debug/examples/volumes", **env)
        self.assertRegex(self.runs(0, "readelf", "-d", "rust/debug/examples/volumes"), "NEEDED.*libfv.so.2")

    def test_python(self) -> None:
        """A program in Python finds the package and the library."""
        [package] = self.below.glob("lib/**/fv/__init__.py")
        env = {"PYTHONPATH": str(package.parent.parent), "LD_LIBRARY_PATH": f"{self.below}/lib"}
        self.try_program("python3", "-B", str(ROOT / "examples/volumes.py"), **env)
        said = self.runs(1, "python3", "-B", "-m", "fv", "check", "flash", env=env)
        self.assertEqual(said.splitlines()[-1], "volume 192 canonical false")

    @needs_tool("cmake", "cmake")
    def test_cmake(self) -> None:
        """A project of CMake finds the library, with and without the shared object, and in no other version."""
        project, moved, library = Path("project"), self.room / "moved", self.below / "lib"
        project.mkdir()
        moved.mkdir()
        shutil.copy(EXAMPLE, project)

        def build(version: str, status: int = 0) -> None:
            shutil.rmtree("project/build", ignore_errors=True)
            (project / "CMakeLists.txt").write_text(PROJECT.format(version))
            self.runs(status, "cmake", "-S", project, "-B", "project/build", f"-DCMAKE_PREFIX_PATH={self.below}")

        for is_shared in (True, False):
            build(NUMBERS)
            self.runs(0, "cmake", "--build", "project/build")
            self.try_program("project/build/volumes")
            self.try_program("project/build/archived")
            found = self.runs(0, "readelf", "-d", "project/build/volumes")
            self.assertEqual(bool(re.search("NEEDED.*libfv.so.2", found)), is_shared)
            for path in library.glob("libfv.so*") if is_shared else ():
                path.rename(moved / path.name)
                self.addCleanup((moved / path.name).rename, path)
        build("1000", 1)


class Places(ProgramCase):
    """Installs into other folders, and uninstalls."""

    def uninstall(self, folder: Path, *words: str, left: tuple[str, ...] = ()) -> None:
        """Uninstalls, and checks which files are left in a folder."""
        self.make("uninstall", *words)
        self.assertEqual(below(folder), [*left])

    def test_uninstall(self) -> None:
        """`make uninstall` removes all files, and the folders of the program."""
        root = self.room / "root"
        self.make("install", "install-lib", f"DESTDIR={root}")
        self.uninstall(root, f"DESTDIR={root}")
        for folder in ("share/doc/fvtool", "share/doc/libfv", "share/fvtool", "lib/fvtool"):
            self.assertFalse((root / "usr/local" / folder).exists(), folder)

    def test_shared_folders(self) -> None:
        """In folders that others use too, `make uninstall` removes only the installed files."""
        root = self.room / "shared root"
        shared = ["DOCDIR=/usr/local/share/doc", "LIBDOCDIR=/usr/local/share/doc", f"DESTDIR={root}"]
        self.make("install", "install-lib", *shared)
        others = tuple(f"usr/local/{it}/other" for it in ("lib/fvtool", "share/doc", "share/fvtool"))
        for name in others:
            (root / name).touch()
        self.uninstall(root, *shared, left=others)

    def test_space(self) -> None:
        """A folder with a space in its name works: the driver for git, the installed README, and the named page."""
        prefix = self.room / "pre fix"
        self.make("install", f"PREFIX={prefix}")
        if shutil.which("git"):
            self.git_works(prefix / "share/fvtool", prefix / "bin")
        manual = (prefix / "share/man/man1/fvtool.1").read_text().replace("\\-", "-")
        self.assertTrue(Path(re.findall(r"\\fI([^\\]*FAULTS\.md)", manual)[0]).exists())
        env = {"PATH": f"{prefix}/bin:{os.environ['PATH']}", "PYTHONPATH": str(ROOT)}
        said = self.run_command("python3", examples.__file__, prefix / "share/doc/fvtool/README.md", env=env)
        self.assertIn(said.returncode, (0, NOTHING_TRIED), said.stdout)
        self.uninstall(prefix, f"PREFIX={prefix}")
        if skipped := re.search("skipped: (.*)", said.stdout):
            self.skipTest(skipped[1])

    def git_works(self, data: Path, commands: Path) -> None:
        """Shows firmware in git, by the lines of `gitconfig`, as a user does."""
        Path("home").mkdir()
        clean = (*SYSTEM, f"HOME={self.room}/home")
        git = (*clean, "git", "-C", "repository", "-c", "user.name=x", "-c", "user.email=x")
        self.runs(0, *clean, "git", "config", "--global", "include.path", data / "gitconfig")
        self.runs(0, *clean, "git", "init", "--quiet", "repository")
        Path("repository/.gitattributes").write_text("*.fd diff=fv\n")
        for name in ("plain", "changed"):
            shutil.copy(f"made/{name}.fd", "repository/image.fd")
            self.runs(0, *git, "add", ".")
            self.runs(0, *git, "commit", "--quiet", "--message", name)
        changed = r"(?m)^-.* file 00000002-7777-4777-8777-777777777777 type 07 .* sha256 "
        self.assertRegex(self.runs(0, *git, "show"), changed)
        said = self.runs(0, *git, "-c", f"diff.fv.command='{commands}/fv-diff'", "show", "--ext-diff")
        self.assertRegex(said, r'(?m)^ *changed: .* "Beta"')
        self.assertIn("Pei0", self.run_command(*clean, commands / "fv-text", "--open", "made/firmware.fd").stdout)

    @needs_tool("pkg-config", "pkgconf")
    def test_library_with_space(self) -> None:
        """A program is compiled over a library in a folder with a space in its name."""
        prefix = self.room / "library pre fix"
        self.make("install-lib", f"PREFIX={prefix}")
        self.try_configured({"PKG_CONFIG_PATH": f"{prefix}/lib/pkgconfig", "LD_LIBRARY_PATH": f"{prefix}/lib"})
        self.uninstall(prefix, f"PREFIX={prefix}")

    def test_signs(self) -> None:
        """A folder with a character that a shell or make reads as something else is refused, and nothing is written."""
        for sign in "$'\"\\`#%&|\n\t":
            for target in ("install", "install-lib", "uninstall"):
                with self.subTest(sign=sign, target=target):
                    said = self.make(target, f"PREFIX={self.room}/x{sign}y", status=2)
                    self.assertIn("a folder has a character that is not allowed", said)
        self.assertEqual([*self.room.glob("x*y")], [])

    def test_links(self) -> None:
        """A link in the place of a file or a command is replaced, and a folder in the place of a command stops make."""
        first, linked, folder = self.room / "first", self.room / "linked", self.room / "folder"
        untouched = self.room / "untouched"
        untouched.touch()
        folder.mkdir()
        self.make("install", "install-lib", f"PREFIX={first}")
        for name in below(first):
            if name.startswith(("bin/", "share/")):
                (linked / name).parent.mkdir(parents=True, exist_ok=True)
                (linked / name).symlink_to(folder if name in ("bin/fvtool", "bin/fv-same") else untouched)
        self.make("install", "install-lib", f"PREFIX={linked}")
        self.assertEqual(below(folder), [])
        self.assertEqual(untouched.stat().st_size, 0)
        self.assertEqual([it for it in linked.rglob("*") if it.resolve() in (untouched, folder)], [])
        for name in ("fvtool", "fv-same"):
            command = linked / "bin" / name
            command.unlink()
            command.mkdir()
            self.make("install", f"PREFIX={linked}", status=2)
            command.rmdir()

    def test_umask(self) -> None:
        """The modes of the files are the same, whatever the umask is."""
        for mask in (0o077, 0o000):
            self.addCleanup(os.umask, os.umask(mask))
            prefix = self.room / f"masked {mask}"
            self.make("install", f"PREFIX={prefix}")
            modes = {it.stat().st_mode & 0o7777 for it in prefix.rglob("*") if it.is_file()}
            self.assertEqual(modes, {0o644, 0o755}, oct(mask))

    def test_folders(self) -> None:
        """The library is the same in whichever folder it is built."""
        for name in ("here", "there"):
            shutil.copytree(self.tree / "libfv", f"{name}/libfv")
            shutil.copy(self.tree / "VERSION", name)
            Path(name, "crates/fv_c/out").mkdir(parents=True)
            shutil.copy(self.tree / ARCHIVE, f"{name}/crates/fv_c/out")
        self.runs(0, "make", "-C", "here/libfv")
        self.runs(0, "make", "-f", "there/libfv/Makefile", "OUT=there/libfv/out")
        for file in ("libfv.a", "libfv.so.2"):
            self.assertTrue(filecmp.cmp(f"here/libfv/out/{file}", f"there/libfv/out/{file}", shallow=False), file)
