# SPDX-License-Identifier: BSD-2-Clause-Patent
"""Makes the source archive, a release and the Debian packages, twice where they must be the same, and tries the
packages and the wheel in new roots of Debian. With the variable RELEASE, the roots get the files of that folder, which
`make release` has made."""

import atexit
import functools
import os
import shutil
import sys
import tempfile
import unittest
from pathlib import Path

from tests.checks import ROOT
from tests.frame import needs_tool
from tests.install.fresh import make_root, remove
from tests.install.pages import dead_ends_of, lacking
from tests.install.room import ARCHIVE, MAJOR, NUMBERS, PROGRAM, PYTHONPATH, SYSTEM, VERSION, WANTED
from tests.install.room import ImageCase, InstallCase, below, copy_built
from tests.rust.test_rust import is_new

GIVEN = os.environ.get("RELEASE", "")
FOLDER = Path(tempfile.mkdtemp())
atexit.register(shutil.rmtree, FOLDER, ignore_errors=True)
PACKAGES = ("fvtool", f"libfv{MAJOR}", "libfv-dev", "python3-fv")
LIBRARY_PACKAGES = PACKAGES[1:]
INSTALL = ("apt-get", "install", "--yes", "--no-install-recommends")
IN_GIT = ImageCase.run_command("git", "rev-parse", "HEAD", cwd=ROOT).returncode == 0


def why_no_release() -> str:
    """Returns the reason why no release can be made here, or nothing."""
    if not IN_GIT or run("git", "status", "--porcelain"):
        return "not a git repository, or changes that are not committed"
    if not is_new(1, 90) or not shutil.which("dpkg-deb"):
        return "no cargo 1.90, or no dpkg-deb"
    has_object = (ROOT / f"{PROGRAM}.o").exists()
    return "" if has_object else "rt ci took the program of an earlier run, without its object"


def run(*words: str | Path, **env: str) -> str:
    """Runs a command in the repository, and returns what it writes to standard output."""
    return ImageCase.runs(0, *words, cwd=ROOT, env=env)


@functools.cache
def packages() -> Path:
    """Makes the Debian packages once."""
    folder = FOLDER / "packages"
    folder.mkdir()
    run("tools/deb", folder)
    return folder


@functools.cache
def release() -> Path:
    """Makes a release once, or the packages and the wheel of a release, or takes the given release."""
    folder = FOLDER / "dist"
    if GIVEN:
        return Path(GIVEN).absolute()
    if not why_no_release():
        run("tools/release", folder, CDPATH=".")
        return folder
    shutil.copytree(packages(), folder)
    unpack(FOLDER / "unpacked library", LIBRARY_PACKAGES[:1])
    [library] = (FOLDER / "unpacked library").glob(f"usr/lib/*/libfv.so.{NUMBERS}")
    run("python3", "-B", "python/backend.py", "build", folder, LIBFV=str(library))
    run("sh", "-c", 'cd "$1" && sha256sum -- * > ../sums && mv ../sums SHA256SUMS', "", folder)
    return folder


def unpack(folder: Path, names: tuple[str, ...]) -> None:
    """Unpacks some of the packages."""
    for name in names:
        [package] = packages().glob(f"{name}_*.deb")
        run("dpkg-deb", "--extract", package, folder)


@unittest.skipUnless(IN_GIT, "not a git repository")
class Archive(InstallCase):
    """The source archive, and a release."""

    @classmethod
    def setUpClass(cls) -> None:
        super().setUpClass()
        run("make", "dist", f"OUT={cls.room}")
        cls.unpacked = cls.room / "un packed" / f"capstanolive-{VERSION}"
        cls.unpacked.parent.mkdir()
        run("tar", "-x", "-f", cls.room / f"capstanolive-{VERSION}.tar.gz", "-C", cls.unpacked.parent)

    unpacked: Path

    def test_files(self) -> None:
        """The source archive has each file of the last commit, and installs the built program and library."""
        named = self.runs(0, "git", "-C", ROOT, "ls-tree", "-r", "-z", "--name-only", "HEAD").split("\0")
        self.assertEqual(below(self.unpacked), sorted(it for it in named if it))
        built = [f"PROGRAM={ROOT / PROGRAM}", f"ARCHIVE={ROOT / ARCHIVE}"]
        self.runs(0, "make", "-C", self.unpacked, "install", *built, f"DESTDIR={self.room}/root")

    def test_gate(self) -> None:
        """`make release` stops unless the gate has passed over the same files and has skipped nothing."""
        tool = self.tree / "tools/statement"
        self.addCleanup(shutil.rmtree, self.tree / "out")
        Path("lines").write_text("1 passed, 0 failed\n")
        lines = {"2 passed, 0 failed, 1 skipped": 1, "2 passed, 1 failed": 1, "2 passed, 0 failed": 0}
        for line, status in lines.items():
            self.runs(0, tool, "--keep", "lines")
            self.runs(0, tool, "--keep-all", line)
            self.runs(status, tool, "--is-complete")
        with (self.tree / "README.md").open("a") as file:
            file.write("\n")
        self.runs(1, tool, "--is-complete")
        self.assertIn("statement --is-complete", self.runs(0, "make", "-C", self.tree, "--dry-run", "release"))

    @unittest.skipIf(GIVEN or why_no_release(), why_no_release() or "RELEASE is given")
    def test_release(self) -> None:
        """The unpacked source archive gives the same release, and a changed file of a release is found."""
        copy_built(self.unpacked)
        if (ROOT / "out/gate").exists():
            (self.unpacked / "out").mkdir()
            shutil.copy2(ROOT / "out/gate", self.unpacked / "out")
        said = self.runs(0, self.unpacked / "tools/verify", release())
        self.assertRegex(said, "(?m)^verify: these sources make the same files")
        shutil.copytree(release(), "changed")
        with Path("changed/fv.h").open("a") as file:
            file.write("\n")
        self.assertNotEqual(self.run_command(ROOT / "tools/verify", "--sums", "changed").returncode, 0)


@needs_tool("dpkg-deb")
class Packages(InstallCase):
    """The Debian packages."""

    def test_twice(self) -> None:
        """Two runs make the same packages."""
        Path("again").mkdir()
        run("tools/deb", self.room / "again", CDPATH=".")
        for package in sorted(packages().iterdir()):
            self.assertEqual(package.read_bytes(), Path("again", package.name).read_bytes(), package.name)
            print(f"{package.name}: {package.stat().st_size} bytes, twice the same")

    def stage(self, target: str, *words: str) -> list[str]:
        """Returns the files that make installs for a package."""
        multiarch = self.runs(0, "gcc", "-print-multiarch").strip()
        self.make(target, f"DESTDIR={self.room}/{target}", "PREFIX=/usr", f"LIBDIR=/usr/lib/{multiarch}", *words)
        return below(self.room / target)

    def test_program(self) -> None:
        """fvtool and python3-fv have the files of `make install`, except the copy of the library for the commands. The
        manual pages are compressed, and there is a changelog too."""
        folder = self.room / "unpacked"
        unpack(folder, ("fvtool", "python3-fv"))
        wanted = ["usr/share/doc/fvtool/changelog.gz"]
        for name in self.stage("install", "ZSHDIR=/usr/share/zsh/vendor-completions"):
            if not any(it in name for it in ("/fvtool/clib/out/", "/fvtool/clib/python/fv/", "/fvtool/libfv.so")):
                wanted.append(name + ".gz" * ("/man1/" in name))
        others = ("/share/doc/python3-fv/", "/dist-packages/", "/share/lintian/")
        found = [it for it in below(folder) if not any(other in it for other in others)]
        self.assertEqual(found, sorted(wanted))
        self.assertEqual(lacking(folder / "usr/share/doc/fvtool/README.md", folder, folder / "usr"), [])
        documents = [folder / "usr/share/doc" / it for it in ("fvtool", "python3-fv")]
        unpack(self.room / "library", ("libfv-dev",))
        documents += [self.room / "library/usr/share/doc/libfv-dev", *[release()] * (not why_no_release())]
        self.assertEqual(dead_ends_of(documents, folder), [])

    def test_library(self) -> None:
        """The packages of the library together have the files of `make install-lib`."""
        folder = self.room / "unpacked library"
        unpack(folder, LIBRARY_PACKAGES)
        wanted = self.stage("install-lib", "PYTHONDIR=/usr/lib/python3/dist-packages")
        kept = [[it for it in names if "/share/" not in it and "/bin/" not in it] for names in (below(folder), wanted)]
        self.assertEqual(*kept)

    @needs_tool("lintian", "lintian")
    def test_lintian(self) -> None:
        """lintian finds no fault in the packages."""
        self.runs(0, "lintian", "--fail-on", "error,warning", "--allow-root", *sorted(packages().iterdir()))


class Roots(ImageCase):
    """Installs and tries what a person without the kit can have, in new roots of Debian: the packages, as a job of
    recipes/ci installs them, README's examples, the commands, a program in C, and the shell of both jobs. Then the
    packages of the library are removed, and pip installs the wheel in a virtual environment. At last everything is
    removed, and the lintian of that Debian checks the packages."""

    def test_jobs(self) -> None:
        """The jobs for GitHub and GitLab install in the same way."""
        job = ROOT / "recipes/ci/shell"
        said = {self.runs(0, job, ROOT / f"recipes/ci/{it}.yml", "install") for it in ("github", "gitlab")}
        self.assertEqual(len(said), 1)

    def test_bookworm(self) -> None:
        """Debian 12."""
        self.try_root("bookworm")

    def test_trixie(self) -> None:
        """Debian 13."""
        self.try_root("trixie")

    def inside(self, *words: str) -> str:
        """Runs a command in the root, as root."""
        env = {"LC_ALL": "C", "DEBIAN_FRONTEND": "noninteractive", "TMPDIR": "/tmp"}
        return self.runs(0, "chroot", self.root, *words, env=env)

    def install(self, *names: str) -> None:
        """Installs packages of Debian."""
        self.inside(*INSTALL, *names)

    def as_user(self, status: int, *words: str) -> str:
        """Runs a command in the root, as a user who owns nothing there."""
        return self.runs(status, *self.way, *SYSTEM, *words)

    root: Path
    way: tuple[str, ...]

    def try_root(self, suite: str) -> None:
        """Makes a root, and tries everything in it."""
        self.root = self.room / suite
        self.addCleanup(remove, self.root)
        why = "no dpkg-deb" if not GIVEN and not shutil.which("dpkg-deb") else make_root(suite, self.root)
        needed = ("gcc", "pkgconf", "python3-venv", "lintian")
        if why:
            self.skipTest(why)
        # If the mirror fails here, the test is skipped. If apt-get fails later, that is a fault of the packages.
        said = self.run_command("chroot", self.root, *INSTALL, "--download-only", *needed)
        if said.returncode:
            self.skipTest(f"apt-get: {said.stderr.strip()}")
        self.way = ("chroot", "--userspec=nobody:nogroup", str(self.root), "env", "-C", "/tmp")
        self.runs(0, "cp", "-r", "flash", "made", ROOT / "examples/volumes.c", self.root / "tmp")
        self.install_packages()
        self.try_packages()
        self.try_removal()
        self.try_static_program()
        self.install("lintian")
        self.inside("sh", "-c", "lintian --fail-on error,warning --allow-root /tmp/job/tools/*.deb")

    def install_packages(self) -> None:
        """Installs the packages as a job in CI does, in a root that has only a C compiler."""
        self.install("gcc", "pkgconf")
        tools = self.root / "tmp/job/tools"
        tools.mkdir(parents=True)
        self.runs(0, "cp", *release().glob("*.deb"), release() / "SHA256SUMS", tools)
        job = self.runs(0, ROOT / "recipes/ci/shell", ROOT / "recipes/ci/github.yml", "install")
        (self.root / "tmp/job/install").write_text(job)
        self.inside("env", "-C", "/tmp/job", "sh", "-e", "install")
        self.assertEqual(self.inside("dpkg", "--verify", *PACKAGES), "")

    def try_packages(self) -> None:
        """Runs the installed program and commands, and programs in C and Python over the installed library."""
        for name, flags in {"volumes": "$(pkg-config --cflags --libs libfv)", "archived": "-l:libfv.a"}.items():
            self.inside("sh", "-e", "-c", f"cc -o /tmp/{name} /tmp/volumes.c {flags}")
            self.assertEqual(self.as_user(0, f"/tmp/{name}", "/tmp/flash"), WANTED)
        self.assertRegex(self.runs(0, "readelf", "-d", self.root / "tmp/volumes"), r"NEEDED.*libfv\.so\.")
        self.try_python("python3")
        self.try_program()
        self.tools_work("/usr/bin", "/tmp/made", "/tmp", *self.way)
        self.try_examples("/usr/bin")
        env = {"ROOT": str(self.root), "TMPDIR": f"{self.root}/tmp", "FVTOOL": f"{self.root}/usr/bin/fvtool"}
        words = (sys.executable, "-m", "tests.frame", "tests.commands", "ci")
        self.runs(0, *words, env={**env, "PYTHONPATH": PYTHONPATH}, cwd=ROOT)

    def try_program(self) -> None:
        """Runs the program."""
        self.assertEqual(len(self.as_user(0, "fvtool", "list", "--at", "64", "/tmp/flash").splitlines()), 4)

    def try_python(self, python: str) -> None:
        """Runs the package for Python."""
        said = self.as_user(1, python, "-W", "error", "-m", "fv", "check", "/tmp/flash")
        self.assertEqual(said.splitlines()[-1], "volume 192 canonical false")

    def try_examples(self, commands: str) -> None:
        """Runs README's examples with the commands of a folder."""
        words = (sys.executable, "-m", "tests.examples", "--root", str(self.root), "--bin", commands, "README.md")
        self.assertNotIn("skipped: ", self.runs(0, *words, env={"PYTHONPATH": PYTHONPATH}, cwd=ROOT))

    def try_wheel(self, wheels: list[Path]) -> None:
        """Installs the wheel in a virtual environment, without the packages of the library, and tries it there."""
        self.install("python3-venv")
        self.inside("mkdir", "-m", "777", "/tmp/wheel")
        self.runs(0, "cp", *wheels, self.root / "tmp")
        self.as_user(0, "python3", "-m", "venv", "/tmp/wheel/venv")
        pip = ("/tmp/wheel/venv/bin/pip", "install", "--no-cache-dir", "--no-index")
        self.as_user(0, *pip, *(it.name for it in wheels))
        self.try_python("/tmp/wheel/venv/bin/python")
        self.tools_work("/tmp/wheel/venv/bin", "/tmp/made", "/tmp", *self.way, has_old_name=False)
        self.try_examples("/tmp/wheel/venv/bin")

    def try_removal(self) -> None:
        """Removes the packages, of the library first: the program needs no other package."""
        owned = self.inside("dpkg", "--listfiles", *PACKAGES).split("\n")
        self.inside("dpkg", "--purge", "--force-depends", *PACKAGES[1:])
        self.try_program()
        wheels = sorted(release().glob("libfv-*.whl"))
        with self.subTest("the wheel"):
            if not wheels:
                self.skipTest(f"none in {release()}")
            self.try_wheel(wheels)
        self.inside("apt-get", "purge", "--yes", "fvtool")
        self.assertFalse((self.root / "usr/share/fvtool").exists())
        paths = [self.root / it.removeprefix("/") for it in owned if it.startswith("/")]
        self.assertEqual([it for it in paths if os.path.lexists(it) and not it.is_dir()], [])

    def try_static_program(self) -> None:
        """Runs the program that needs no C library, if there is one, where no package of a release is installed."""
        for program in release().glob("fvtool-*-linux-x86_64"):
            self.runs(0, "install", "-m", "755", program, self.root / "usr/bin/fvtool")
            self.try_program()
