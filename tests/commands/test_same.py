# SPDX-License-Identifier: BSD-2-Clause-Patent
"""fv-same over made volumes and flash images, over Debian's images, and over volumes that EDK II's own tools make."""

import json
import lzma
import uuid
from collections.abc import Sequence
from pathlib import Path
from typing import Any

from tests import making
from tests.commands.room import AAVMF, EDK2_PATH, GUIDS, OVMF, ImageCase, Table, needs
from tests.frame import needs_firmware, needs_library
from tests.making import GONE, PE32, RAW, TIANO, UNKNOWN, VOLUME, VOLUME_IMAGE, A, B, C, D, compressed, file, flash
from tests.making import guid, guided, noise, pad, section, stream, ui, volume

ALPHA, BETA, CORE = f'{GUIDS[1]} "Alpha"', f'{GUIDS[2]} "Beta"', f'{GUIDS[11]} "PeiCore"'
SAME_INSIDE = "packed in another way, what it holds is the same"


def differs(at: int, how: str, *lines: str) -> str:
    """Returns the lines about inputs with one volume that has another meaning."""
    return "\n".join(["different", f"volume at {at}: different at {how}", *(f"  {line}" for line in lines)])


def elsewhere(*lines: str) -> str:
    """Returns the lines about inputs whose volumes are at other places."""
    return "\n".join(["different", "the volumes are at other places, or have other lengths", *lines])


def outside(*texts: str) -> str:
    """Returns the lines about bytes outside of the meaning."""
    return "".join(f"\nbytes outside the meaning differ: {text}" for text in texts)


def gone(at: int, side: str, place: int) -> str:
    """Returns the line about a deleted file that only one input has."""
    return outside(f"a deleted file of the volume at {at}, only in the {side}, at {place}")


NONE = "has no volume, so its bytes are compared\n" + elsewhere("only in the second: volume at 0 length 32768")
EQUAL = "volume at 4096: equal bytes, fault 11 at 4168"
BY_MARKS = differs(4096, "file 1 attributes", f"changed: {CORE}")
MAIN = differs(4096, "file 0 section 0 body", f"changed: {GUIDS[7]}")
IN_MAIN = f"    LZMA, volume at 8324: different at file 1 section 0 body\n      changed: {BETA}"
VERDICTS: Table = (
    # Three files, stored in four ways. The contents of deleted files and of pads are outside of the meaning.
    (0, "same", "plain.fv", "plain.fv"),
    (0, "same" + gone(0, "second", 72), "plain.fv", "front.fv"),
    (0, "same" + gone(0, "second", 3120) + outside("a pad of the volume at 0, only in the second, at 4496"),
     "plain.fv", "middle.fv"),
    (0, "same" + gone(0, "first", 12696), "last.fv", "plain.fv"),
    (1, differs(0, "file 1 section 0 body", f"changed: {BETA}") + gone(0, "first", 72), "front.fv", "changed.fv"),
    (1, differs(0, "file count", f"only in the second: {GUIDS[4]}") + gone(0, "first", 12696), "last.fv", "more.fv"),
    (1, differs(0, "file count", f"only in the first: {GUIDS[4]}"), "more.fv", "plain.fv"),
    (1, differs(0, "file 0 name", "the files are in another order"), "plain.fv", "order.fv"),
    (1, differs(0, "file 0 section 0 file 1 section 0 body", f"changed: {GUIDS[6]}/{BETA}"),
     "nested.fv", "nested-changed.fv"),
    # A volume in a file, with a difference that is not in a file.
    (1, differs(0, "file 0 section 0 file 0 name", f"changed: {GUIDS[6]}"), "nested.fv", "nested-order.fv"),
    # Flash images.
    (0, "same" + gone(4096, "second", 7216), "plain.fd", "stored.fd"),
    (1, differs(4096, "file 1 section 0 body", f"changed: {BETA}"), "stored.fd", "changed.fd"),
    (1, differs(32768, "file 0 data", f"changed: {GUIDS[5]}"), "joined.fd", "joined-changed.fd"),
    (1, "different\nother bytes differ, first at 49151", "plain.fd", "outside.fd"),
    # The bytes of rejected volumes are compared, and the meaning of the other volumes.
    (0, "same", "damaged.fd", "copy.fd"),
    (2, "rejected\nvolume at 0: bytes differ, first at 72, second fault 11 at 72", "plain.fv", "damaged.fv"),
    (2, "rejected\nvolume at 4096: bytes differ, first at 4168, first fault 11 at 4168", "damaged.fd", "plain.fd"),
    (2, "rejected\nvolume at 4096: bytes differ, first at 4168, second fault 11 at 4168", "fixed.fd", "damaged.fd"),
    (2, "rejected\nvolume at 4096: bytes differ, first at 4192, fault 11 at 4168", "wrong.fd", "wrong-other.fd"),
    (0, f"same\n{EQUAL}{gone(24576, 'second', 24648)}", "wrong.fd", "wrong-stored.fd"),
    (1, differs(24576, "file count", f"only in the second: {GUIDS[4]}").replace("\n", f"\n{EQUAL}\n", 1),
     "wrong.fd", "wrong-more.fd"),
    # Volumes with fixed files are compared without their marks, and then their marks are compared, also of volumes in
    # a section.
    (0, "same" + gone(4096, "second", 12168), "fixed.fd", "fixed-stored.fd"),
    (1, differs(4096, "file 2 name", f"only in the first: {ALPHA}", f"only in the second: {BETA}"),
     "fixed.fd", "fixed-changed.fd"),
    (1, BY_MARKS, "fixed.fd", "less-fixed.fd"),
    (1, BY_MARKS + gone(4096, "second", 12168), "less-fixed.fd", "fixed-stored.fd"),
    (1, differs(4096, "file 0 attributes", f"changed: {GUIDS[10]}", f"changed: {CORE}") + gone(4096, "second", 12168),
     "unfixed.fd", "fixed-stored.fd"),
    (1, differs(0, "file 0 section 0 length", f"only in the first: {GUIDS[6]}/{GUIDS[10]}",
                f"only in the first: {GUIDS[6]}/{CORE}", f"only in the second: {GUIDS[6]}/{BETA}"),
     "fixed-inside.fv", "nested.fv"),
    (1, differs(0, "file 0 section 0 file 1 attributes", f"changed: {GUIDS[6]}/{CORE}"),
     "fixed-inside.fv", "fixed-inside-less.fv"),
    # A volume may have moved, or be in two places, and its deleted files do not matter.
    (1, elsewhere("only in the second: volume at 4088 length 32768", "only in the first: volume at 4096 length 32768",
                  "only in the second: volume at 40952 length 4096", "only in the first: volume at 40960 length 4096",
                  "moved from 4096 to 4088: volume length 32768, the meaning is the same",
                  "moved from 40960 to 40952: volume length 4096, the meaning is the same"), "plain.fd", "moved.fd"),
    (1, elsewhere("only in the first: volume at 0 length 32768", "only in the second: volume at 64 length 32768",
                  "only in the first: volume at 32768 length 32768",
                  "moved from 0 to 64: volume length 32768, the meaning is the same"), "two.fd", "one.fd"),
    (1, f"fv-same: none.bin {NONE}", "none.bin", "plain.fv"),
    # A compressed driver: the output names the file, and with --open the driver.
    (1, MAIN, "firmware.fd", "firmware-changed.fd"),
    (1, f"{MAIN}\n{IN_MAIN}", "--open", "firmware.fd", "firmware-changed.fd"),
    # A line feed in a name does not begin a line.
    (1, f"fv-same: a\\u000asame {NONE}", "a\nsame", "plain.fv"),
    # Inputs that give no verdict.
    (2, "fv-same: .: is a directory\n.: fault 25 at 0", ".", "plain.fv"),
    (2, "not compared: more than 1073741824 bytes", "/dev/zero", "plain.fv"),
)  # fmt: skip


CODE, OTHER_CODE = (section(PE32, noise(it, 400)) for it in ("own", "other"))
OTHER_WAY: list[dict[str, Any]] = [{"id": lzma.FILTER_LZMA1, "preset": 9, "lc": 2}]
OWN, PACKED, OTHER_PACKED = ui("Own"), compressed(stream(CODE, ui("Own"))), compressed(stream(OTHER_CODE, ui("Own")))


def holding(data: bytes, number: int = 6) -> bytes:
    """Returns a file that holds volumes."""
    return file(guid(number), stream(data), VOLUME_IMAGE)


def by_tiano(code: bytes) -> bytes:
    """Returns a section with a driver that is compressed as Tiano does it."""
    return guided(TIANO, making.packed_by_tiano(stream(code, OWN), 5))


def twice(packed: bytes) -> bytes:
    """Returns a packed section that is packed again, before another section."""
    return compressed(stream(packed, section(RAW, b"1")))


# Sections of a file, and the lines about what is in them: other compressions, a driver that is compressed by itself,
# and sections that are not opened.
PACKED_PAIRS: tuple[tuple[str, list[str], bytes, bytes], ...] = (
    ("0 body", [f"LZMA: {SAME_INSIDE}"], compressed(making.inside()), compressed(making.inside(), OTHER_WAY)),
    ("0 body Own", ["LZMA: other sections: PE32"], PACKED, OTHER_PACKED),
    ("0 body Own", [f"Tiano compression in place of LZMA: {SAME_INSIDE}"], PACKED, by_tiano(CODE)),
    ("0 body Own", ["Tiano compression: other sections: PE32"], PACKED, by_tiano(OTHER_CODE)),
    ("0 body Own", ["LZMA: other sections: GUID-defined", "LZMA, LZMA: other sections: PE32"],
     twice(PACKED), twice(OTHER_PACKED)),
    ("1 body", ["LZMA: other sections: PE32"],
     stream(twice(b""), compressed(CODE)), stream(twice(b""), compressed(OTHER_CODE))),
    ("0 body Own", [f"not opened: GUID-defined: unknown GUID {UNKNOWN}"],
     stream(guided(UNKNOWN, b"own"), OWN), stream(guided(UNKNOWN, b"other"), OWN)),
)  # fmt: skip
FIT, OTHER_FIT = (pad(b"_FIT_   " + bytes([number]) * 100) for number in (1, 2))
HELD, OTHER_HELD = (section(VOLUME, volume([A, it], 0x2000)) for it in (FIT, OTHER_FIT))
AT_FIT = "a pad of the volume at 4096, first at 7248"
LATER_PAD = "a pad of the volume at 4096, only in the second, at 7960"
IN_FILE = f"a pad of the volume at 4196 in {GUIDS[6]}, first at 7348"
FILLER = "a filler of the volume at 4096, only in the first, at 16785"
# Files of two volumes with the same meaning, and the bytes outside of it: contents of pads, deleted files and fillers
# that differ, wherever they lie, also in volumes inside files. A place on its own, or a pad without contents, has no
# line.
OUTSIDE_PAIRS: tuple[tuple[list[str], list[bytes], list[bytes]], ...] = (
    ([AT_FIT], [A, FIT, B], [A, OTHER_FIT, B]),
    ([], [A, OTHER_FIT, B], [A, pad(b"\xff" * 40), B, OTHER_FIT]),
    ([AT_FIT, LATER_PAD], [A, FIT, B], [A, pad(bytes(9)), B, OTHER_FIT, pad(b"more")]),
    ([FILLER], [A, B, C[:-1] + b"\1"], [A, B, C]),
    ([IN_FILE], [holding(HELD), C], [holding(OTHER_HELD), C]),
)  # fmt: skip
# Some values of the output as JSON, by their paths. `*` is each entry of a list.
JSON: tuple[tuple[int, tuple[str, ...], dict[str, Any]], ...] = (
    (0, ("plain.fv", "plain.fv"), {"verdict": "same", "volumes": [], "other_bytes": None}),
    (1, ("stored.fd", "outside.fd"), {"verdict": "different", "fault": None, "other_bytes": 49151}),
    (2, ("plain.fv", "damaged.fv"),
     {"verdict": "rejected", "volumes.0.faults": ["second fault 11 at 72"], "volumes.0.first_byte": 72}),
    (0, ("fixed.fd", "fixed-stored.fd"),
     {"verdict": "same", "volumes.0.fixed": [2, 2], "volumes.0.difference": None}),
    (1, ("less-fixed.fd", "fixed.fd"),
     {"verdict": "different", "volumes.*.fixed": [[1, 2], [0, 0]],
      "volumes.0.difference": "different at file 1 attributes"}),
    (1, ("fixed.fd", "without.fd"), {"verdict": "different", "volumes.0.fixed": [2, 0]}),
    (0, ("held.fd", "other-held.fd"),
     {"outside_meaning": [{"what": "pad", "verdict": "different", "offset": 4196, "other_offset": 4196,
                           "first_byte": 7348, "within": [GUIDS[6]]}]}),
    (0, ("many.fd", "few.fd"), {"outside_meaning.*.verdict": ["only in the first"] * 25}),
    (1, ("two.fd", "one.fd"), {"moved": [{"offset": 0, "other_offset": 64, "length": 32768}]}),
    (2, ("missing.fv", "plain.fv"), {"verdict": "rejected", "fault": "missing.fv: fault 25 at 0"}),
    (1, ("--open", "firmware.fd", "firmware-changed.fd"),
     {"volumes.0.files.0.opened.0.volumes.0.files.0": {"change": "changed", "guids": [GUIDS[2]], "name": "Beta",
                                                       "known": "", "sections": ["PE32"], "opened": []}}),
)  # fmt: skip


def value_at(value: Any, path: str) -> Any:
    """Returns the value at a path of JSON."""
    key, _, rest = path.partition(".")
    if key == "*":
        return [value_at(it, rest) for it in value]
    found = value[int(key) if isinstance(value, list) else key]
    return value_at(found, rest) if rest else found


@needs_library
class Same(ImageCase):
    """The lines and the status for two inputs."""

    @classmethod
    def images(cls) -> dict[str, bytes]:
        made = {name: make() for name, make in making.IMAGES.items()}
        wrong, other = (it[:16] + b"\0" + it[17:] for it in (file(guid(4), noise(it, 777)) for it in ("d", "other d")))
        marks = section(VOLUME, volume(making.fixed(early=making.ALIGNED), 0x4000))
        many = [making.deleted(guid(100 + number), bytes([number])) for number in range(25)]
        return {
            "copy.fd": made["damaged.fd"],
            "wrong.fd": flash(volume([wrong], 0x4000), volume([C], 0x4000)),
            "wrong-stored.fd": flash(volume([wrong], 0x4000), volume([GONE, C], 0x4000)),
            "wrong-more.fd": flash(volume([wrong], 0x4000), volume([C, D], 0x4000)),
            "wrong-other.fd": flash(volume([other], 0x4000), volume([C], 0x4000)),
            "nested-order.fv": volume([holding(section(VOLUME, volume([B, A], 0x2000))), C]),
            "fixed-inside-less.fv": volume([holding(marks), C]),
            "moved.fd": made["plain.fd"][8:],
            "two.fd": made["plain.fv"] + made["front.fv"],
            "one.fd": bytes(64) + made["last.fv"],
            "without.fd": made["fixed.fd"][:4096],
            "held.fd": flash(volume([holding(HELD), C])),
            "other-held.fd": flash(volume([holding(OTHER_HELD), C])),
            "many.fd": flash(volume([A, *many, B, C])),
            "few.fd": flash(volume([A, B, C])),
            "a\nsame": made["none.bin"],
        }

    def expect_of(self, status: int, text: str, first: bytes, second: bytes, options: Sequence[str] = ()) -> None:
        """Compares two images, and checks the status and the lines."""
        for name, data in (("first", first), ("second", second)):
            Path(name).write_bytes(data)
        self.expect(status, text, "fv-same", *options, "first", "second")

    def test_verdicts(self) -> None:
        self.expect_each("fv-same", VERDICTS)

    def test_stored_in_four_ways(self) -> None:
        self.assertEqual(len({Path(f"{it}.fv").read_bytes() for it in ("plain", "front", "middle", "last")}), 4)

    def test_opened(self) -> None:
        for place, lines, *pair in PACKED_PAIRS:
            with self.subTest(lines=lines):
                changed = f"changed: {GUIDS[8]}" + ' "Own"' * place.endswith(" Own")
                text = differs(0, f"file 0 section {place.removesuffix(' Own')}", changed, *(f"  {it}" for it in lines))
                first, second = (volume([file(guid(8), it, making.DXE_DRIVER)]) for it in pair)
                self.expect_of(1, text, first, second, ["--open"])

    def test_outside_of_the_meaning(self) -> None:
        for texts, first, second in OUTSIDE_PAIRS:
            with self.subTest(texts=texts):
                self.expect_of(0, "same" + outside(*texts), flash(volume(first)), flash(volume(second)))
        in_packed = outside(f"a pad of the volume at 4 in {GUIDS[7]}/LZMA, first at 3156")
        text = f"{MAIN}\n    LZMA: {SAME_INSIDE}{in_packed}"
        first, second = ([holding(compressed(it), 7), C] for it in (HELD, OTHER_HELD))
        self.expect_of(1, text, flash(volume(first)), flash(volume(second)), ["--open"])
        lines = self.runs(0, "fv-same", "many.fd", "few.fd").splitlines()
        self.assertEqual((len(lines), lines[-1]), (22, "bytes outside the meaning differ at 5 more places"))

    def test_json(self) -> None:
        for status, words, wanted in JSON:
            with self.subTest(words=words):
                found = json.loads(self.runs(status, "fv-same", "--json", *words))
                self.assertEqual({path: value_at(found, path) for path in wanted}, wanted)


@needs_library
class OfDebian(ImageCase):
    """Real firmware, down to the drivers."""

    @needs_firmware("ovmf")
    def test_ovmf(self) -> None:
        lines = self.runs(1, "fv-same", "--open", OVMF, OVMF.with_name("OVMF_CODE_4M.secboot.fd")).splitlines()
        self.assertIn("  changed: 9e21fd93-9c72-4c15-8c4b-e77f1db2d792 (FVMAIN_COMPACT file)", lines)
        self.assertIn('      only in the second: 34c8c28f-b61c-45a2-8f2e-89e46becc63b "PeiVariable"', lines)
        self.assertIn('      changed: 6d33944a-ec75-4855-a54d-809c75241f6c "BdsDxe"', lines)

    @needs_firmware("qemu-efi-aarch64")
    def test_aavmf_with_a_mark_fewer(self) -> None:
        data = bytearray(AAVMF.read_bytes())
        start = data.index(b"_FVH") - 40
        start += int.from_bytes(data[start + 48 : start + 50], "little")
        data[start + 19] -= 4  # the attributes of the first file
        data[start + 16] = (data[start + 16] + 4) % 256  # the checksum of its header
        Path("aavmf.fd").write_bytes(data)
        lines = self.runs(1, "fv-same", AAVMF, "aavmf.fd").splitlines()
        self.assertEqual(lines[:2], ["different", "volume at 4096: different at file 0 attributes"])
        self.assertEqual(len(lines), 3)


INF = """[options]
EFI_BLOCK_SIZE = 0x1000
EFI_NUM_BLOCKS = 0x10
[attributes]
EFI_ERASE_POLARITY = 1
[files]
"""


@needs_library
@needs("GenSec", "GenFfs", "GenFv")
class OfEdk2(ImageCase):
    """Volumes of EDK II's own tools: three files, stored in four ways with a file that is marked as deleted in place,
    as a flash driver does it, and three volumes with another meaning."""

    def make_file(self, name: str, digit: str, data: bytes) -> None:
        """Makes a file with one section."""
        Path(f"{name}.bin").write_bytes(data)
        env = {"PATH": EDK2_PATH}
        self.runs(0, "GenSec", "-s", "EFI_SECTION_RAW", "-o", f"{name}.sec", f"{name}.bin", env=env)
        words = ["-t", "EFI_FV_FILETYPE_FREEFORM", "-g", "11111111-1111-4111-8111-111111111111".replace("1", digit)]
        self.runs(0, "GenFfs", *words, "-o", f"{name}.ffs", "-i", f"{name}.sec", env=env)

    def make_volume(self, name: str, files: str) -> None:
        """Makes a volume of these files. The file `d` is then marked as deleted, except in the volume `more`."""
        Path("it.inf").write_text(INF + "".join(f"EFI_FILE_NAME = {it}.ffs\n" for it in files))
        words = ["-i", "it.inf", "-o", f"{name}.fv", "-g", str(uuid.UUID(bytes_le=making.FFS2))]
        self.runs(0, "GenFv", *words, env={"PATH": EDK2_PATH})
        data = bytearray(Path(f"{name}.fv").read_bytes())
        at = data.find(uuid.UUID("44444444-4444-4444-8444-444444444444").bytes_le)
        if at >= 0 and name != "more":
            data[at + 23] &= ~0x10 & 0xFF
            Path(f"{name}.fv").write_bytes(data)

    def test_verdicts(self) -> None:
        for name, digit, data in (("a", "1", b"a\n" * 1500), ("b", "2", b"b\n" * 250), ("d", "4", b"d\n" * 388 + b"d")):
            self.make_file(name, digit, data)
        self.make_file("c", "3", b"c\n" * 4500 + b"c")
        ways = {"plain": "abc", "front": "dabc", "middle": "adbc", "last": "abcd"}
        for name, files in {**ways, "more": "abcd", "order": "bac"}.items():
            self.make_volume(name, files)
        self.make_file("b", "2", b"b\n" * 124 + b"X\n" + b"b\n" * 125)
        self.make_volume("changed", "abc")
        self.assertEqual(len({Path(f"{it}.fv").read_bytes() for it in ways}), 4)
        for status, verdict, others in ((0, "same", list(ways)), (1, "different", ["more", "order", "changed"])):
            for other in others:
                with self.subTest(other=other):
                    said = self.runs(status, "fv-same", "plain.fv", f"{other}.fv")
                    self.assertEqual(said.splitlines()[0], verdict)
