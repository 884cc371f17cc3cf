# SPDX-License-Identifier: BSD-2-Clause-Patent
"""fv-unpack over made firmware, over Debian's firmware, beside UEFIExtract, and over sections that EDK II's own tools
compress. Each image is also given to fv-sbom, which says whether it was read whole."""

import contextlib
import hashlib
import io
import json
import os
import re
import shutil
import unittest
import uuid
from collections import Counter
from collections.abc import Iterator
from pathlib import Path

from fv import unpack
from fv._parts import Digests
from fv.images import Part
from fv.limits import Full

from tests import making
from tests.checks import ROOT, read
from tests.commands.room import AAVMF, EDK2_PATH, GUIDS, ImageCase, Row, Table, needs, rows_of
from tests.frame import PROGRAM, needs_firmware, needs_library, needs_program, needs_tool
from tests.making import DXE_DRIVER, FREEFORM, LZMA, RAW, SECURITY_CORE, UNKNOWN, VOLUME, A, B, C
from tests.making import compressed, file, guid, noise, section, stream, ui, volume

PLAIN, ONE, TWO, FIVE = (f"00-volume: volume at 0x0: {count} files" for count in (3, 1, 2, 5))
SMALL = "01-volume: volume at 0xa000: 1 files"
MAIN, OTHER = f"00-volume/000-{GUIDS[7]}/lzma/", f"00-volume/001-{GUIDS[9]}/"
GUIDED_SECTION = f"00-volume/000-{GUIDS[1]}/guid-defined.bin"
DAMAGED = "fault 11 at 4168: the header of a file is damaged: its checksum is wrong"
SYSTEM = "no volume of files begins here: its file system is neither FFS2 nor FFS3"
GAP = "outside-00002000.bin: not read: it is in no volume"
LATER = "01-volume: volume at 0x2040: 2 files"
HIDDEN = volume([A, making.pad(bytes(8) + volume([B], 0x1000)), making.deleted(guid(9), b"a driver"), C])
MARKED, SUMMED = volume(making.fixed(), 0x4000), file(guid(4), noise("d", 777), attributes=making.SUMMED)
PAIR = volume([A, B], 0x2000)


def changed(at: int, new: bytes) -> bytes:
    """Returns a volume of two files with other bytes at a place."""
    return PAIR[:at] + new + PAIR[at + len(new) :]


SIGNED = uuid.UUID("a7717414-c616-4977-9420-844712a735bf")
# A section in LZMA data of CompressionType 2, without and with four bytes before the data, and one with a GUID that
# needs no processing.
TEXT, IN_LZMA = ui("Text"), compressed(ui("Text"))[24:]
WAYS = (
    making.compression(IN_LZMA, len(TEXT), 2),
    making.compression(b"four" + IN_LZMA, len(TEXT), 2),
    making.guided(UNKNOWN, TEXT, 0),
)
STORE = changed(16, uuid.UUID("fff12b8d-7696-4c8b-a985-2747075b4f50").bytes_le)
# Images that are unpacked: the status of fv-unpack and of fv-sbom, the lines, the name or the bytes, and the numbers of
# rows in the index and of other files.
UNPACKED: Table = (
    # The drivers of one volume are compressed together. The second volume inside does not begin at a multiple of 8.
    (1, ["00-volume: volume at 0x1000: 1 files", f"01-volume: volume at 0x80 in {MAIN}: 3 files",
         f"02-volume: volume at 0x2084 in {MAIN}: 7 files", "03-volume: volume at 0x12000: 2 files",
         f"03-volume/001-{GUIDS[9]}/guid-defined.bin: not opened: unknown GUID {UNKNOWN}"], "firmware.fd", (43, 24)),
    # A volume in a volume, sections in each other, and data that are not LZMA.
    (1, [TWO, "01-volume: volume at 0x64: 1 files",
         f"{OTHER}guid-defined.bin: not opened: LZMA: more than 268435456 bytes",
         f"{OTHER}guid-defined-2.bin: not opened: LZMA: section fault 3 at 114: the packed data are damaged",
         f"{OTHER}guid-defined-3.bin: not opened: section fault 1 at 11: the section is cut short"], "deep.fd", (15, 7)),
    (2, [f"00-volume: volume at 0x1000: {DAMAGED}", SMALL], "damaged.fd", (9, 4)),
    (0, [PLAIN], "plain.fv", (9, 5)),
    (0, ["00-volume: volume at 0x1000: 3 files, 2 of them fixed", SMALL], "fixed.fd", (12, 6)),
    (0, ["00-volume: volume at 0x1000: 2 files, 1 of them fixed", SMALL], "refused.fd"),
    (0, [TWO, "01-volume: volume at 0x64: 3 files, 2 of them fixed"], "fixed-inside.fv", (13, 6)),
    # Sections, names and expressions that are long, or hard to write.
    (1, [ONE, f"{GUIDED_SECTION}: not opened: more than 100000 parts"], "parts.fd", (5, 2)),
    (0, [ONE], "texts.fd", (4, 1)),
    (0, [ONE], "ops.fd"),
    (0, [ONE], "long.fd"),
    (0, [FIVE], "formula.fv"),
    (0, [TWO], "cores.fv"),
    (1, [TWO, "01-volume: volume at 0xc50: 1 files", "00-volume/pad-00000c48.bin: not read: a pad holds bytes",
         "00-volume/deleted-file-00001c50.bin: not read: it was deleted"], "hidden.fd", (12, 7)),
    # A volume that is not at a multiple of 8, as after the header of a capsule.
    (0, ["00-volume: volume at 0x1c: 3 files"], bytes(28) + volume([A, B, C]), (9, 5)),
    # Fixed files in opened contents and in a section there; one that is superseded; and a fault after fixed files.
    (0, [ONE, f"01-volume: volume at 0x0 in {MAIN}: 3 files, 2 of them fixed"],
     volume([file(guid(7), compressed(MARKED), FREEFORM)]), (12, 5)),
    (0, [ONE, f"01-volume: volume at 0x4 in {MAIN}: 3 files, 2 of them fixed"],
     volume([file(guid(7), compressed(section(VOLUME, MARKED)), FREEFORM)]), (12, 5)),
    (1, [TWO, "00-volume/superseded-file-00000048.bin: not read: another file took its place"],
     volume([file(guid(4), b"old", attributes=making.FIXED, state=0x0F), file(guid(4), b"new"), A]), (7, 4)),
    (2, ["00-volume: volume at 0x0: fault 14 at 8089: the data of a file are damaged: the file checksum is wrong"],
     volume([*making.fixed(), SUMMED[:17] + bytes([SUMMED[17] ^ 1]) + SUMMED[18:]])),
    # Volumes whose header is wrong, or of an older revision; and a variable store.
    (2, [TWO, "01-volume: volume at 0x2000: fault 6 at 8192: the header of a volume is damaged: its checksum is wrong"],
     PAIR + changed(50, b"\x12\x34"), (14, 8)),
    (2, [TWO, "01-volume: volume at 0x2000: fault 4 at 8247: the header of a volume is damaged, or its revision is not"
              " 2"], PAIR + changed(55, b"\1"), (14, 8)),
    (1, ["00-volume: volume at 0x2000: 2 files", f"variable-store-00000000.bin: not read: fault 3 at 16: {SYSTEM}"],
     STORE + PAIR),
    # A section whose checksum is wrong, and bytes outside of volumes.
    (1, [TWO, f"{OTHER}crc32/: opened, but the CRC32 is wrong"],
     volume([A, file(guid(9), making.checked(section(RAW, b"data"), 1), FREEFORM)])),
    (1, [TWO, f"{OTHER}signed/: opened, but the signature is not verified"],
     volume([A, file(guid(9), making.guided(SIGNED, section(RAW, b"data"), 3, b"signature"), FREEFORM)])),
    (0, [TWO], volume([A, file(guid(9), stream(*WAYS), FREEFORM)]), (11, 5)),
    (1, [TWO, GAP], PAIR + bytes(64) + b"text" + bytes(60)),
    (1, [TWO, LATER, GAP], PAIR + b"\x55" * 64 + PAIR),
    (0, [TWO, LATER], PAIR + bytes(64) + PAIR + b"\xff" * 64, (14, 8)),
)  # fmt: skip
# Images without a volume, and the lines about their parts.
NO_VOLUME: dict[str, list[str]] = {
    "none.bin": ["bytes at 0x0, 5000 bytes: not read: it is in no volume"],
    "zeros.bin": [],
    "signatures.bin": ["bytes at 0x0, 16000000 bytes: not read: it is in no volume"],  # they only look like volumes
    "only-store.fd": [f"variable store at 0x0, 8192 bytes: not read: fault 3 at 16: {SYSTEM}"],
}  # fmt: skip
LEFT = (
    "it contains .fv-unpack, which another run writes to, or which a run that was killed has left: if no other run"
    " writes to it, remove .fv-unpack"
)
# Images, limits and folders that cannot be used. `{}` is the folder of the tests.
UNUSED: Table = (
    (3, "fv-unpack: {}/full is not empty: it contains 0 and 4 more: give a new or an empty folder", "plain.fv", "full"),
    (3, f"fv-unpack: {{}}/left is not empty: {LEFT}", "plain.fv", "left"),
    (4, "fv-unpack: {}/plain.fv: not a directory", "firmware.fd", "plain.fv"),
    (4, "fv-unpack: {}/plain.fv: not a directory", "firmware.fd", "plain.fv/in"),
    (2, "fv-unpack: missing.fd: no such file\nmissing.fd: fault 25 at 0", "missing.fd", "missing"),
    (2, "/dev/zero: not unpacked: more than 1000000 bytes", "--most", "1000000", "/dev/zero", "endless"),
    (2, "bytes.fd: not unpacked: more than 1000 bytes", "--most", "1000", "bytes.fd", "small"),
    (2, "listed.fd: not unpacked: more than 100000 parts", "listed.fd", "listed"),
    (2, "files.fd: not unpacked: more than 5032 files", "files.fd", "files"),
    (2, "rows.fd: not unpacked: more than 100000 bytes", "--most", "100000", "rows.fd", "rows"),
)
# The parts of firmware.fd that --only writes, and their paths in the index.
ONLY = (
    ("Alpha", "02-volume/000-Alpha/"),
    (GUIDS[1], "02-volume/000-Alpha/"),
    ("Alpha/PE32", "02-volume/000-Alpha/pe32.efi"),
    (f"{GUIDS[1]}/ui", "02-volume/000-Alpha/ui.bin"),
    ("Own/pe32", "03-volume/000-Own/lzma/pe32.efi"),
    ("02-volume/000-Alpha/ui.bin", "02-volume/000-Alpha/ui.bin"),
    ("02-volume", "02-volume/"),
    (f"{GUIDS[7]}/guid-defined", MAIN),
)
NOT_ONE: Table = (
    (1, "fv-unpack: --only Gamma: no part is called so in plain.fv", "--only", "Gamma", "plain.fv", "gamma"),
    (1, r"fv-unpack: --only a\u000ab: no part is called so in plain.fv", "--only", "a\nb", "plain.fv", "gamma"),
    (1, "fv-unpack: --only Alpha/PE32: 2 parts: give the path of one of them\nfv-unpack: 00-volume/000-Alpha/pe32.efi\n"
        "fv-unpack: 01-volume/000-Alpha/pe32.efi", "--only", "Alpha/PE32", "twice.fd", "gamma"),
    (2, "fv-unpack: missing.fd: no such file\nmissing.fd: fault 25 at 0", "--only", "Alpha", "missing.fd", "gamma"),
)  # fmt: skip
LIST = """\
offset   size  type        path
   0x0  32768  FFS2        00-volume/
  0x60   3020  DXE driver  00-volume/000-Alpha/
  0x64   3000  PE32        00-volume/000-Alpha/pe32.efi
 0xc20     12  UI          00-volume/000-Alpha/ui.bin
"""
FORMULAS = '=HYPERLINK("http://x")', "+1", "-1", "@x", "a=b"
HOSTILE = "../../\033]0;pwned\a\u202e\t\n/etc/\u00e9" + "x" * 300
# Images that UEFIExtract opens too: files of /usr/share, and those that BESIDE names.
BESIDE = ["ovmf/OVMF.fd", "OVMF/OVMF32_CODE_4M.secboot.fd", "OVMF/OVMF_CODE.secboot.fd", "AAVMF/AAVMF_CODE.fd",
          "AAVMF/AAVMF32_CODE.fd", "qemu-efi-aarch64/QEMU_EFI.fd",
          *filter(None, os.environ.get("BESIDE", "").split(":"))]  # fmt: skip
REPORTED = re.compile(r" (File|Section) +\| (.{21}) \| .{8} \| (.{8}) \| .{8} \| -+ (\S+)")
HEADERS = {"file": (24, 32), "section": (4, 8)}  # lengths of short and of long headers
Found = tuple[str, str, int]  # the kind, the GUID and the size of a part
GUIDED_BY_GENSEC = ("GenSec", "-s", "EFI_SECTION_GUID_DEFINED")


def large_images() -> dict[str, bytes]:
    """Returns images that hold far more than their size, each in one compressed section: 8 times 1 MB in compressed
    sections of their own, 100,000 empty sections, and long texts; and a file of as many empty sections."""
    empty = section(RAW, b"")
    packed = {
        "bytes.fd": stream(*[compressed(bytes(1_000_000))] * 8),
        "files.fd": empty * 5_100,
        "ops.fd": section(0x13, b"\6" * 15_000_000),
        "long.fd": ui("x" * 7_000_000),
        "texts.fd": ui(HOSTILE),
    }
    found = {name: stream(compressed(data)) for name, data in packed.items()}
    found["parts.fd"] = stream(compressed(empty * 100_000), compressed(section(RAW, b"1")))
    found["listed.fd"] = empty * 100_000
    return {
        name: volume([file(guid(1), data, FREEFORM)], 0x1000 + (len(data) + 0xFFF) // 0x1000 * 0x1000)
        for name, data in found.items()
    }


def small_images() -> dict[str, bytes]:
    """Returns images with names, sections and types that have to be written with care."""
    core = stream(section(RAW, b"1"), section(0x12, b"23"), b"")
    named = [A, file(guid(8), section(0x13, b"\6\10"), DXE_DRIVER)]
    formulas = [file(guid(number), stream(ui(it)), FREEFORM) for number, it in enumerate(FORMULAS)]
    return {
        "rows.fd": volume([file(guid(1), section(RAW, b"1234") * 3000, FREEFORM)]),
        "cores.fv": volume([file(guid(1), core, SECURITY_CORE), file(guid(2), b"no sections", SECURITY_CORE)]),
        "formula.fv": volume(formulas),
        "named.fv": volume(named, name=guid(9)),
        "zeros.bin": bytes(5000),
        "signatures.bin": b"_FVH" * 4_000_000,
        "only-store.fd": STORE + b"\xff" * 64,
        "hidden.fd": HIDDEN,
        "twice.fd": volume([A, B, C]) * 2,
    }


def is_at(row: Row, data: bytes) -> bool:
    """Returns whether some data have the bytes of a row at its place."""
    start = int(row["offset"], 16)
    return hashlib.sha256(data[start : start + int(row["size"])]).hexdigest() == row["sha256"]


def files_in(folder: str | Path) -> dict[str, Path]:
    """Returns the files in a folder, at every level, by their paths."""
    return {str(it.relative_to(folder)): it for it in Path(folder).rglob("*") if it.is_file()}


def reported(report: str) -> Iterator[Found]:
    """Yields the files and sections in a report of UEFIExtract, without pads."""
    for part, kind, size, name in REPORTED.findall(report):
        if kind.strip() != "Pad":
            yield part.lower(), name.lower() if part == "File" else "", int(size, 16)


def indexed(folder: str) -> Iterator[Found]:
    """Yields the same from an index, which shows a section that holds a volume as a volume."""
    for row in rows_of(folder):
        part = "section" if row["part"] == "volume" and row["in"] != "image" else row["part"]
        if part in HEADERS:
            short, long = (int(row["size"]) + it for it in HEADERS[part])
            yield part, row["guid"] if part == "file" else "", short if short < 1 << 24 else long


def swap_folders() -> None:
    """Unpacks an image into a folder to which another user may write, who puts a link to a file in the place of a
    folder that the run has made."""
    Path("victim").write_text("mine")
    make, parts = os.mkdir, Path("shared/.fv-unpack/parts/00-volume/000-Alpha")

    def make_and_swap(path: str, mode: int = 0o777, *, dir_fd: int | None = None) -> None:
        make(path, mode, dir_fd=dir_fd)
        if os.path.basename(path) == "000-Alpha":
            os.mkdir = make
            os.rename("shared/.fv-unpack", "shared/.gone")
            parts.mkdir(parents=True)
            (parts / "pe32.efi").symlink_to(Path("victim").resolve())

    os.mkdir("shared")
    os.mkdir = make_and_swap  # type: ignore[assignment]
    with contextlib.redirect_stderr(io.StringIO()) as said:
        status = unpack.main(["plain.fv", "shared"])
    assert status == 4 and "something else was written to" in said.getvalue(), said.getvalue()
    assert os.mkdir == make and sorted(os.listdir("shared")) == [".fv-unpack", ".gone"], os.listdir("shared")


class PartsCase(ImageCase):
    """Tests of folders of parts, and of their index."""

    def rows(self, image: str) -> list[Row]:
        """Returns the rows of the index of an image, which is unpacked the first time."""
        if not Path(f"{image}.d").exists():
            self.run_command("fv-unpack", "--", image, f"{image}.d")
        return rows_of(f"{image}.d")

    def agrees(self, image: str, folder: str) -> tuple[int, int]:
        """Checks that each file is in the index with its size and sum, each folder with a slash, and nothing else, and
        that the bytes are in the image, or in opened contents, where the index says. Returns the numbers of rows and of
        files."""
        rows, files, data = rows_of(folder), files_in(folder), Path(image).read_bytes()
        paths = {it["path"] for it in rows}
        self.assertEqual({it for it in paths if not it.endswith("/")} | {"index.tsv"}, files.keys())
        for it in rows:
            file = files.get(it["path"])
            self.assertTrue(file or Path(folder, it["path"]).is_dir(), it)
            if file:
                self.assertEqual(str(file.stat().st_size), it["size"])
                self.assertEqual(hashlib.sha256(file.read_bytes()).hexdigest(), it["sha256"])
            self.assertTrue(is_at(it, data) if it["in"] == "image" else it["in"] in paths, it)
        return len(rows), len(files) - 1


@needs_library
class Unpack(PartsCase):
    """Made images."""

    @classmethod
    def images(cls) -> dict[str, bytes]:
        return large_images() | small_images()

    def test_folder_and_bill(self) -> None:
        for status, lines, image, *counts in UNPACKED:
            with self.subTest(lines=lines):
                if isinstance(image, bytes):
                    Path("it.fd").write_bytes(image)
                    image = "it.fd"
                folder = f"{image}.parts"
                shutil.rmtree(folder, ignore_errors=True)
                self.expect(status, "\n".join(lines), "fv-unpack", "--", image, folder)
                found = self.agrees(image, folder)
                self.assertIn(found, counts or [found])
                bill = json.loads(self.runs(status, "fv-sbom", "--", image))
                self.assertEqual(bill["compositions"][0]["aggregate"], "incomplete" if status else "complete")

    def test_names_and_places(self) -> None:
        rows = {it["path"]: it for it in self.rows("firmware.fd")}
        place = ["02-volume/000-Alpha/", "0x20e4", MAIN, "file", "DXE driver", GUIDS[1], "Alpha"]
        self.assertEqual([*rows["02-volume/000-Alpha/"].values()][:7], place)
        text = files_in("firmware.fd.d/02-volume/000-Alpha")["ui.bin"].read_bytes()
        self.assertEqual(text, "Alpha\0".encode("utf-16-le"))
        self.assertEqual(sorted(files_in("firmware.fd.d/03-volume/000-Own")), ["lzma/pe32.efi", "lzma/ui.bin"])
        self.rows("deep.fd")
        code = files_in("deep.fd.d")["01-volume/000-Core/lzma/crc32/lzma-x86/pe32.efi"].read_bytes()
        self.assertEqual(code.count(b"\x90\xe8\x10\x20\0\0"), 50)
        self.rows("cores.fv")  # a security core with sections and a filler, and one without sections
        names = sorted(it.name for it in files_in("cores.fv.d/00-volume").values())
        self.assertEqual(names, ["body.bin", "raw.bin", "te.efi"])

    @needs_program
    @needs_tool("xz", "xz-utils")
    def test_contents_that_xz_opens(self) -> None:
        words = ["extract", "--at", "4096", "--name", GUIDS[7], "--section", "2", "firmware.fd"]
        packed = self.output(0, PROGRAM, *words)[20:]
        unpacked = self.output(0, "xz", "--format=lzma", "-dc", input=packed)
        found = [it for it in self.rows("firmware.fd") if it["in"] == MAIN]
        self.assertEqual((len(found), [it for it in found if not is_at(it, unpacked)]), (33, []))

    def test_rejected_volume_has_its_files(self) -> None:
        rows, data = {it["path"]: it for it in self.rows("damaged.fd")}, Path("damaged.fd").read_bytes()
        wanted = ["0x1000", "image", "volume", "32768", DAMAGED, ""]
        columns = ("offset", "in", "part", "size", "note", "findings")
        self.assertEqual([rows["00-volume/"][it] for it in columns], wanted)
        file = rows[f"00-volume/000-{GUIDS[4]}/"]
        self.assertEqual((file["note"], file["findings"]), (DAMAGED.replace("fault 11 at 4168", "finding 11"), "11"))
        self.assertTrue(all(is_at(it, data) for it in rows.values()))
        self.rows("hidden.fd")
        pad = files_in("hidden.fd.d")["00-volume/pad-00000c48.bin"].read_bytes()
        self.assertEqual(pad, Path("hidden.fd").read_bytes()[3144 : 3144 + 4104])

    def test_fixed_files_have_a_note(self) -> None:
        found = [(it["path"], it["type"], it["note"]) for it in self.rows("fixed.fd") if it["part"] == "file"]
        cores = [(f"00-volume/000-{GUIDS[10]}/", "SEC core", "fixed"), ("00-volume/001-PeiCore/", "PEI core", "fixed")]
        others = [("00-volume/002-Alpha/", "DXE driver", ""), (f"01-volume/000-{GUIDS[5]}/", "raw", "")]
        self.assertEqual(found, cores + others)

    def test_images_without_a_volume(self) -> None:
        for image, lines in NO_VOLUME.items():
            for first, second in (("--list", image), (image, "down/none")):
                with self.subTest(first=first, second=second):
                    text = "\n".join([f"{image}: no volume", *lines])
                    self.expect(1, text, "fv-unpack", first, second, timeout=20)
        self.assertFalse(Path("down").exists())

    def test_unused_arguments_leave_nothing(self) -> None:
        for path in ("left/.fv-unpack", *(f"full/{number}" for number in range(5))):
            Path(path).mkdir(parents=True)
        for status, text, *words in UNUSED:
            with self.subTest(words=words):
                self.expect(status, text.format(self.room.resolve()), "fv-unpack", *words)
                self.assertTrue(words[-1] in ("full", "left") or not os.path.isdir(words[-1]), words[-1])
        Path("loop").symlink_to("loop")
        ran = self.run_command("fv-unpack", "plain.fv", "loop")
        self.assertEqual((ran.returncode, (ran.stdout + ran.stderr).count("\n")), (4, 1))
        self.assertEqual([str(it) for it in Path().rglob(".fv-unpack*")], ["left/.fv-unpack"])

    def test_folder_that_exists_stays(self) -> None:
        for folder in ("empty", "here"):
            os.mkdir(folder, 0o700)
        before = os.stat("empty")
        self.expect(0, PLAIN, "fv-unpack", "--", "plain.fv", "empty")
        after = os.stat("empty")
        self.assertEqual((after.st_ino, after.st_mode), (before.st_ino, before.st_mode))
        self.assertEqual(self.agrees("plain.fv", "empty"), (9, 5))
        self.expect(0, PLAIN, "fv-unpack", "../plain.fv", ".", cwd="here")
        self.assertEqual(sorted(os.listdir("here")), ["00-volume", "index.tsv"])
        self.runs(1, "fv-unpack", "firmware.fd", "modes", umask=0o022)
        self.assertEqual([os.stat(it).st_mode & 0o777 for it in ("modes", "modes/index.tsv")], [0o755, 0o644])

    def test_links_in_the_place_of_folders(self) -> None:
        self.addCleanup(shutil.rmtree, "shared")  # what is left there is not ours
        ran = self.ran_alone(swap_folders)
        self.assertEqual((ran.returncode, ran.stderr), (0, ""))
        self.assertEqual(Path("victim").read_text(), "mine")
        self.assertEqual((os.listdir("shared/.gone"), os.path.exists("shared/index.tsv")), ([], False))

    def test_run_that_a_signal_ends(self) -> None:
        self.run_command("timeout", "0.2", "fv-unpack", "bytes.fd", "ended")
        self.assertEqual(list(Path().glob(".fv-unpack*")), [])
        self.assertTrue(not Path("ended").exists() or Path("ended/index.tsv").exists())

    def test_limits_of_bytes(self) -> None:
        inner = f"00-volume/000-{GUIDS[1]}/lzma/guid-defined"
        lines = [f"{inner}{end}.bin: not opened: more than 5000000 bytes" for end in ("", "-2", "-3", "-4")]
        self.expect(1, "\n".join([ONE, *lines]), "fv-unpack", "--most", "5000000", "bytes.fd", "bytes")
        sizes = [it.stat().st_size for path, it in files_in("bytes").items() if path.endswith(".bin")]
        self.assertLessEqual(sum(sizes), 5_000_000)
        self.expect(0, ONE, "fv-unpack", "--most", "1000000", "rows.fd", "few-rows")  # the index has bytes too
        self.assertLessEqual(sum(it.stat().st_size for it in files_in("few-rows").values()), 1_000_000)

    def test_list(self) -> None:
        self.assertEqual("".join(self.runs(0, "fv-unpack", "--list", "plain.fv").splitlines(True)[:5]), LIST)
        rows, words = self.rows("firmware.fd"), ["fv-unpack", "--list", "firmware.fd"]
        table = self.runs(1, *words).splitlines()
        self.assertIn("  +0x80   8192  FFS2          01-volume/", table)
        paths = re.findall(r"^.*  ([0-9o][^ \n]*)(?:  .*)?$", "\n".join(table), re.M)
        self.assertEqual(paths, [it["path"] for it in rows])
        self.assertEqual(len(self.runs(0, "fv-unpack", "--list", "files.fd").splitlines()), 5104)
        lines = list(map(json.loads, self.runs(1, *words, "--sums", "--json").splitlines()))
        self.assertEqual([{**it, "offset": hex(it["offset"]), "size": str(it["size"])} for it in lines], rows)
        sums = self.runs(1, *words, "--sums").splitlines()[1:]
        self.assertTrue(len(rows) == 43 and all(it["sha256"] in line for it, line in zip(rows, sums, strict=True)))

    def test_names_are_not_paths_or_formulas(self) -> None:
        self.assertEqual(len(self.rows("texts.fd")), 4)
        self.assertEqual(os.listdir("texts.fd.d/00-volume"), ["000-.._.._0_pwned_etc_" + "x" * 42])
        name = r"../../\u001b]0;pwned\u0007\u202e\u0009\u000a/etc/" + "\u00e9" + "x" * 175 + ".."
        self.assertIn(name, [it["name"] for it in self.rows("texts.fd")])
        found = [it["name"] for it in self.rows("formula.fv") if it["part"] == "file"]
        self.assertEqual(found, ["'" + it for it in FORMULAS[:4]] + ["a=b"])
        line = self.runs(0, "fv-unpack", "--list", "--json", "formula.fv").splitlines()[1]
        self.assertEqual(json.loads(line)["name"], FORMULAS[0])

    def test_long_texts_are_cut(self) -> None:
        for image, width in (("ops.fd", 528), ("long.fd", 456)):
            self.rows(image)
            lines = Path(f"{image}.d/index.tsv").read_text().splitlines()
            self.assertEqual(max(len(line.expandtabs()) for line in lines), width, image)

    def test_only(self) -> None:
        sums = {it["path"]: it["sha256"] for it in self.rows("firmware.fd")}
        for part, path in ONLY:
            with self.subTest(part=part):
                body = self.output(0, "fv-unpack", "--only", part, "firmware.fd")
                self.assertEqual(hashlib.sha256(body).hexdigest(), sums[path])
        self.assertEqual(self.runs(0, "fv-unpack", "--only", f"{GUIDS[8]}/DXE-depex", "named.fv"), "\6\10")
        for words in (["Alpha/PE32", "plain.fv", "alpha.efi"], [GUIDS[9], "named.fv", "named"]):
            self.expect(0, "", "fv-unpack", "--only", *words)
        self.assertEqual(Path("named").read_bytes(), Path("named.fv").read_bytes())
        code = hashlib.sha256(Path("alpha.efi").read_bytes()).hexdigest()
        self.assertEqual(code, sums["02-volume/000-Alpha/pe32.efi"])

    def test_not_only_one_part(self) -> None:
        Path("to-itself").symlink_to("to-itself")
        for name in ("damaged.fd", "to-itself"):
            text = f"fv-unpack: {name} exists already: give the name of a new file"
            self.expect(3, text, "fv-unpack", "--only", "Alpha", "plain.fv", name)
        self.expect_each("fv-unpack", NOT_ONE)
        self.assertFalse(Path("gamma").exists())


class Limited(unittest.TestCase):
    """The limit for digests."""

    def test_digests(self) -> None:
        digests, part = Digests(25), Part(bytes(100), 10, 10)
        self.assertEqual(digests.of(part), digests.of(part))
        with self.assertRaisesRegex(Full, r"\A25 bytes under digests\Z"):
            digests.of(part)


@needs_library
class OfDebian(PartsCase):
    """Debian's firmware. All images of ARM have fixed files, and code before their first volume."""

    @needs_firmware("ovmf")
    def test_ovmf(self) -> None:
        lines = self.runs(1, "fv-unpack", "/usr/share/ovmf/OVMF.fd", "ovmf").splitlines()
        self.assertIn(f"variable-store-00000000.bin: not read: fault 3 at 16: {SYSTEM}", lines)
        inner = "02-DXEFV: volume at 0xe0090 in 00-FVMAIN_COMPACT/000-FVMAIN_COMPACT_file/lzma/: 113 files"
        self.assertIn(inner, lines)
        self.assertEqual(self.agrees("/usr/share/ovmf/OVMF.fd", "ovmf"), (622, 486))

    @needs_firmware("qemu-efi-aarch64")
    def test_aavmf(self) -> None:
        inner = "01-FVMAIN_COMPACT_file: volume at 0x10 in 00-volume/010-FVMAIN_COMPACT_file/lzma/: 96 files"
        lines = ["00-volume: volume at 0x1000: 11 files, 10 of them fixed", inner, GAP.replace("2", "0")]
        self.expect(1, "\n".join(lines), "fv-unpack", AAVMF, "aavmf")
        self.assertEqual(self.agrees(str(AAVMF), "aavmf"), (407, 297))

    @needs_tool("UEFIExtract")
    @needs_firmware("ovmf")
    def test_beside_uefiextract(self) -> None:
        figures = [line for line in read(ROOT / "recipes/unpack/README.md").splitlines() if ".fd` | " in line]
        for image in filter(Path.exists, (Path("/usr/share", it) for it in BESIDE)):
            with self.subTest(image=image):
                os.mkdir("theirs")
                shutil.copy(image, "theirs/image")
                self.run_command("UEFIExtract", "image", "all", cwd="theirs")
                os.remove("theirs/image")
                self.run_command("fv-unpack", image, "ours")
                found = Counter(indexed("ours"))
                self.assertEqual(found, Counter(reported(Path("theirs/image.report.txt").read_text(errors="replace"))))
                counts = [sum(found[it] for it in found if it[0] == part) for part in HEADERS]
                sizes = [sum(it.stat().st_size for it in files_in(folder).values()) for folder in ("theirs", "ours")]
                row = " | ".join([f"| `{image.name}`", *map(str, counts), *(f"{it / 1e6:.1f} MB" for it in sizes)])
                known = [line for line in figures if f"`{image.name}`" in line]
                self.assertIn(known, ([], [f"{row} |"]))
            for folder in ("theirs", "ours"):
                shutil.rmtree(folder, ignore_errors=True)


@needs_library
@needs("GenSec", "LzmaCompress")
class OfEdk2(ImageCase):
    """Sections that EDK II's own tools compress."""

    def test_sections(self) -> None:
        Path("code").write_bytes(Path(shutil.which("bash") or "").read_bytes()[:60_000])
        lzma_x86 = "d42ae6bd-1352-4bfb-909a-ca72a6eae889"
        for words in (
            ["GenSec", "-s", "EFI_SECTION_RAW", "-o", "code.sec", "code"],
            ["LzmaCompress", "-e", "-q", "-o", "code.lz", "code.sec"],
            ["LzmaCompress", "-e", "-q", "--f86", "-o", "code.x86", "code.sec"],
            [*GUIDED_BY_GENSEC, "-g", str(LZMA), "-r", "PROCESSING_REQUIRED", "-o", "1.sec", "code.lz"],
            [*GUIDED_BY_GENSEC, "-g", lzma_x86, "-r", "PROCESSING_REQUIRED", "-o", "2.sec", "code.x86"],
            [*GUIDED_BY_GENSEC, "-o", "3.sec", "code.sec"],
            ["GenSec", "-s", "EFI_SECTION_COMPRESSION", "-c", "PI_NONE", "-o", "4.sec", "code.sec"],
            ["GenSec", "-s", "EFI_SECTION_COMPRESSION", "-c", "PI_STD", "-o", "5.sec", "code.sec"],
        ):
            self.runs(0, *words, env={"PATH": EDK2_PATH})
        parts = [Path(f"{number}.sec").read_bytes() for number in range(1, 6)]
        Path("edk2.fv").write_bytes(volume([file(guid(1), stream(*parts), FREEFORM)], 0x40000))
        self.runs(0, "fv-unpack", "edk2.fv", "edk2")
        found = {path: it.read_bytes() for path, it in files_in("edk2").items() if path.endswith("/raw.bin")}
        folders = sorted(Path(it).parent.name for it in found)
        self.assertEqual(folders, ["crc32", "lzma", "lzma-x86", "stored", "uefi"])
        self.assertEqual(set(found.values()), {Path("code").read_bytes()})
