# SPDX-License-Identifier: BSD-2-Clause-Patent
"""Makes the wheel and the source archive of the package for pip, as PEP 517 defines, with Python's standard library
only: without network, without setuptools, without a compiler. Both contain the library, because only the kit can build
it. The library is the file that LIBFV names, otherwise fv/libfv.so.2 (which an unpacked source archive contains),
otherwise libfv/out/libfv.so.2 (which libfv/build makes). Two runs make the same bytes.

`backend.py build FOLDER` writes both to a folder, for a release. `backend.py files` prints the files of the package for
`make install`, and `backend.py commands` its commands."""

from __future__ import annotations

import base64
import gzip
import hashlib
import io
import os
import re
import sys
import tarfile
import zipfile
from pathlib import Path

HERE = Path(__file__).resolve().parent
LIBRARY = "libfv.so.2"
# The licence of this repository, and the licences of the code that is linked in: each file, and its place here.
LICENCES = {"LICENSE": HERE.parent / "LICENSE", "copyright": HERE.parent / "tools/copyright"}
# The machines of libraries: the names that the tags of wheels have for them, by e_machine in the header of an ELF file.
MACHINES = {62: "x86_64", 183: "aarch64", 243: "riscv64"}
# The date of all files: the earliest that a zip archive can hold.
DATE = (1980, 1, 1, 0, 0, 0)


def first_of(what: str, *places: Path) -> bytes:
    """Returns the bytes of the first of these files that exists."""
    for place in places:
        if place.exists():
            return place.read_bytes()
    raise SystemExit(
        f"libfv: {what} is not there: libfv/build makes it with the kit, or LIBFV names it. Without the kit, install the"
        " wheel or the packages of a release (docs/INSTALL.md)."
    )


def package() -> list[Path]:
    """Returns the files of the package, without the library."""
    return [*sorted((HERE / "fv").glob("*.py")), *(HERE / "fv" / it for it in ("guids.txt", "page.css", "py.typed"))]


def sources() -> dict[str, bytes]:
    """Returns the files of the package and its licences, by their names."""
    named = os.environ.get("LIBFV")
    places = [Path(named)] if named else [HERE / "fv" / LIBRARY, HERE.parent / "libfv/out" / LIBRARY]
    found = {f"fv/{it.name}": it.read_bytes() for it in package()}
    found[f"fv/{LIBRARY}"] = first_of(LIBRARY, *places)
    return found | {name: first_of(name, HERE / name, place) for name, place in LICENCES.items()}


def machine(library: bytes) -> str:
    """Returns the name of the machine for which a library is built. Ends this script if the library is not a 64-bit
    little-endian ELF file for one of MACHINES."""
    if len(library) < 20 or library[:6] != b"\x7fELF\x02\x01":
        raise SystemExit(f"libfv: {LIBRARY} is not a 64-bit little-endian ELF file, so no wheel can have it")
    number = int.from_bytes(library[18:20], "little")
    if number not in MACHINES:
        known = ", ".join(MACHINES.values())
        raise SystemExit(f"libfv: {LIBRARY} is for a machine without a tag (e_machine {number}); wheels are made for {known}")
    return MACHINES[number]


def tag(library: bytes) -> str:
    """Returns the tag of a wheel with the library: any Python 3 on Linux on the library's machine, with the newest
    version of the C library among the library's symbols (objdump -T shows them), but at least 2.5, the first version
    that has a tag."""
    versions = re.findall(rb"\0GLIBC_2\.(\d+)[.\d]*(?=\0)", library)
    return f"py3-none-manylinux_2_{max([5, *map(int, versions)])}_{machine(library)}"


def line(form: str, file: str = "pyproject.toml") -> re.Match[str]:
    """Returns the first line, or lines, of a file of this folder with a form."""
    match = re.search(f"(?m)^{form}$", (HERE / file).read_text(encoding="utf-8"))
    assert match, f"{file} has no line of the form {form}"
    return match


def field(name: str) -> str:
    """Returns a text field of the project."""
    return line(f'{name} = "(.*)"')[1]


def texts(name: str) -> list[str]:
    """Returns the texts of a list of the project, which has a text in each line."""
    return re.findall('    "(.*)",\n', line(rf"{name} = \[\n((?:    .*\n)*)\]")[1])


def commands() -> dict[str, str]:
    """Returns the modules of the commands, by the names of the commands."""
    return dict(re.findall('(\\S+) = "(.*):main"\n', line(r"\[project.scripts\]\n((?:.+\n)*)")[1]))


def entry_points() -> bytes:
    """Returns the file entry_points.txt of a wheel, which lists the commands."""
    return "".join(["[console_scripts]\n", *(f"{name} = {it}:main\n" for name, it in commands().items())]).encode()


def version() -> str:
    """Returns the version of the package."""
    return line('__version__ = "(.*)"', "fv/__init__.py")[1]


def title() -> str:
    """Returns the name and the version in the form for file names."""
    return f"{field('name')}-{version()}"


def metadata() -> bytes:
    """Returns the file METADATA of a wheel, which is also PKG-INFO of a source archive."""
    # The metadata are of version 2.1, whose field License every pip shows. The pip of Debian 12 does not know the field
    # License-Expression of version 2.4, which forbids License beside it.
    lines = ["Metadata-Version: 2.1", f"Name: {field('name')}", f"Version: {version()}"]
    author = line(r'authors = \[\{ name = "(.*)", email = "(.*)" \}\]')
    lines += [f"Summary: {field('description')}", f"Author-email: {author[1]} <{author[2]}>"]
    lines += [f"Keywords: {','.join(texts('keywords'))}", *(f"Classifier: {it}" for it in texts("classifiers"))]
    lines += [f"License: {field('license')}"]
    lines += [f"Requires-Python: {field('requires-python')}"]
    lines += ["Description-Content-Type: text/markdown", ""]
    return "\n".join(lines).encode() + b"\n" + (HERE / "README.md").read_bytes()


def record(files: dict[str, bytes], name: str) -> bytes:
    """Returns the file RECORD of a wheel: the name, the digest and the length of each of its files."""
    lines = []
    for path, data in files.items():
        digest = base64.urlsafe_b64encode(hashlib.sha256(data).digest()).decode().rstrip("=")
        lines.append(f"{path},sha256={digest},{len(data)}\n")
    return "".join([*lines, f"{name},,\n"]).encode()


def build_wheel(wheel_directory: str, config_settings: object = None, metadata_directory: object = None) -> str:
    """Writes the wheel to a folder, and returns its name."""
    about, files = f"{title()}.dist-info", sources()
    tagged = tag(files[f"fv/{LIBRARY}"])
    files.update({f"{about}/licenses/{it}": files.pop(it) for it in LICENCES})
    files[f"{about}/METADATA"] = metadata()
    files[f"{about}/WHEEL"] = f"Wheel-Version: 1.0\nGenerator: libfv\nRoot-Is-Purelib: false\nTag: {tagged}\n".encode()
    files[f"{about}/entry_points.txt"] = entry_points()
    files[f"{about}/RECORD"] = record(files, f"{about}/RECORD")
    name = f"{title()}-{tagged}.whl"
    with zipfile.ZipFile(Path(wheel_directory, name), "w", zipfile.ZIP_DEFLATED) as wheel:
        for path, data in files.items():
            entry = zipfile.ZipInfo(path, DATE)
            entry.external_attr, entry.compress_type = 0o100644 << 16, zipfile.ZIP_DEFLATED
            wheel.writestr(entry, data)
    return name


def build_sdist(sdist_directory: str, config_settings: object = None) -> str:
    """Writes the source archive to a folder, and returns its name."""
    files = sources()
    files.update({it: (HERE / it).read_bytes() for it in ("pyproject.toml", "backend.py", "README.md")})
    files["PKG-INFO"] = metadata()
    name, packed = f"{title()}.tar.gz", io.BytesIO()
    with tarfile.open(fileobj=packed, mode="w", format=tarfile.PAX_FORMAT) as archive:
        for path, data in files.items():
            entry = tarfile.TarInfo(f"{title()}/{path}")
            entry.size, entry.mode = len(data), 0o644
            archive.addfile(entry, io.BytesIO(data))
    Path(sdist_directory, name).write_bytes(gzip.compress(packed.getvalue(), mtime=0))
    return name


def main() -> None:
    """Writes the wheel and the source archive, or prints names of the package."""
    match sys.argv[1:]:
        case ["build", folder]:
            print(build_wheel(folder), build_sdist(folder))
        case ["commands"]:
            print(*commands())
        case ["files"]:
            print(*(it.name for it in package()))
        case _:
            sys.exit("usage: backend.py build FOLDER | files | commands")


if __name__ == "__main__":
    main()
