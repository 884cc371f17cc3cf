# SPDX-License-Identifier: BSD-2-Clause-Patent
"""fv-map: draws made flash images, and reads the pages back. Each part of an image is on the page, at its place, with
its size, and nothing of the image is markup. If Chromium is installed, it opens pages without a screen: the names are
in the opened page, the colours are in the drawn page, light and dark, and a window of 500 pixels is wide enough. If
Debian's OVMF or AAVMF is installed, it is drawn too."""

import base64
import hashlib
import html
import json
import re
import shutil
import subprocess
import unittest
import uuid
from html.parser import HTMLParser
from pathlib import Path
from typing import Any

from tests import making
from tests.commands.room import AAVMF, OVMF, ImageCase
from tests.frame import needs_library
from tests.making import APPLICATION, FREEFORM, PE32, RAW, VOLUME, compressed, driver, file, section, stream, ui, volume

CHROMIUM = next((it for it in ("chromium", "chromium-browser", "google-chrome") if shutil.which(it)), "")
SECFV = uuid.UUID("763bed0d-de9f-48f5-81f1-3e90e1b1a015")  # a GUID whose name is in guids.txt
HOSTILE = "</td><script>alert(\"1\")</script><img src=x onerror='y'>&amp;\u202e\ud800"
SHOWN = "</td><script>alert(\"1\")</script><img src=x onerror='y'>&amp;\\u202e\\ud800"
FAULT = "fault 11 at 41032 (0xa048): the header of a file is damaged: its checksum is wrong"

# The allowed contents of a page: no script, no image, no link to a file.
TAGS = set("html head meta title style body header section h1 h2 p i span div table tr th td a details summary".split())
TAGS |= {"b", "small", "wbr"}
KEYS = set("lang charset http-equiv content name class style title href id role aria-label colspan open".split())

# Scripts that write a JSON text into the title of a page. The first writes the width of the page, and of the narrowest
# cell and area that shows a name. The second writes the colours of a picture.
MEASURE = """<script>
const widths = what =>
    [...document.querySelectorAll(what)].map(it => it.getBoundingClientRect().width).filter(it => it);
document.title = JSON.stringify({window: innerWidth, page: document.documentElement.scrollWidth,
    cell: Math.min(...widths("td.name")), area: Math.min(...widths(".areas b"))});
</script>"""
COLORS = """<title></title><img src="data:image/png;base64,@"><script>
window.onload = () => {
    const it = document.images[0];
    const pen = new OffscreenCanvas(it.width, it.height).getContext("2d");
    pen.drawImage(it, 0, 0);
    const found = new Set(), data = pen.getImageData(0, 0, it.width, it.height).data;
    for (let at = 0; at < data.length; at += 4) found.add(data[at] << 16 | data[at + 1] << 8 | data[at + 2]);
    document.title = JSON.stringify([...found]);
};
</script>"""
# The colours of a driver, an application, a volume image and a rejected volume. Then the colours that differ between a
# dark and a light page: the colours of the page, of texts, of bytes outside of volumes, and of free space. The last
# colours are for edges of changed files.
KINDS = {0x35618F, 0x1C7069, 0x56687C, 0xA63A3A}
DARK, LIGHT = {0x15181B, 0xE4E7EA, 0x40361F, 0x2A2F34}, {0xFBFBFA, 0x1D2126, 0xF0DFB8, 0xECEEEF}
DARK_EDGE, LIGHT_EDGE = {0xFFC64D}, {0xFFB000}


def guid_of(number: int) -> uuid.UUID:
    """Returns the name of the made file with this number."""
    return uuid.UUID(int=0xF1 << 120 | number)


def holder(number: int, content: bytes, name: str) -> bytes:
    """Returns a file with a section that holds volumes."""
    return file(guid_of(number), stream(content, ui(name)), making.VOLUME_IMAGE)


def made(is_new: bool) -> tuple[bytes, dict[str, int]]:
    """Returns one of two flash images, and the places of the files in its first volume."""
    pei = driver(guid_of(20), "InnerPei", bytes(500), making.PEI_DRIVER)
    mm = driver(guid_of(21), "InnerMm", bytes(90), 0x0A)
    packed = compressed(bytes(16) + volume([pei], 4096) + volume([mm], 2048))
    nested = section(VOLUME, volume([driver(guid_of(30), "NestedData", bytes(50), FREEFORM)], 1024))
    last, number, kind = ("GammaDxe", 10, making.DXE_DRIVER) if is_new else ("BetaApp", 9, APPLICATION)
    files = {
        "AlphaDxe": driver(guid_of(1), "AlphaDxe", (b"\x01" if is_new else b"\x02") * 6000),
        "pad": making.pad(b"\xff" * 488),
        SHOWN: driver(guid_of(3), HOSTILE, bytes(3000), APPLICATION),
        "deleted file": making.deleted(guid_of(4), bytes(200)),
        str(guid_of(5)): file(guid_of(5), bytes(1234)),
        "Packed": holder(6, packed, "Packed"),
        "Nested": holder(7, nested, "Nested"),
        "Broken": holder(8, packed[:40] + b"\xff" * 20 + packed[60:], "Broken"),
        last: driver(guid_of(number), last, bytes(777), kind),
    }
    cells, places = b"", {}
    for name, data in files.items():
        places[name] = 72 + 24 + 24 + len(cells)  # after the two headers
        cells += data
    damaged = bytearray(volume([file(guid_of(1), bytes(100))], 1024))
    damaged[72 + 16] ^= 1
    return making.flash(volume([cells], 32768, SECFV), bytes(damaged))[: -4096 + 64], places


class Page(HTMLParser):
    """The contents of a page: its text, its elements, its texts, and the cells of the rows of its tables."""

    def __init__(self, text: str) -> None:
        super().__init__()
        self.text = text
        self.attributes: list[tuple[str, str]] = []
        self.tags, self.texts, self.drawn, self.open = (list[str]() for _ in range(4))
        self.rows: list[list[str]] = []
        self.feed(text)
        self.close()

    def handle_starttag(self, tag: str, attrs: list[tuple[str, str | None]]) -> None:
        self.tags.append(tag)
        self.attributes += [(key, value or "") for key, value in attrs]
        self.open += [tag] * (tag not in ("wbr", "meta"))
        self.rows += [[]] * (tag == "tr")
        self.drawn += [""] * (tag == "b")
        if tag in ("td", "th"):
            self.rows[-1].append("")

    def handle_endtag(self, tag: str) -> None:
        while self.open and self.open.pop() != tag:
            pass

    def handle_data(self, data: str) -> None:
        if "style" in self.open[-1:]:
            return
        self.texts.append(data)
        if "b" in self.open[-1:]:
            self.drawn[-1] += data
        if self.rows and self.rows[-1] and {"td", "th"} & {*self.open}:
            self.rows[-1][-1] += data.strip("\n")

    def row_with(self, *words: str) -> list[str]:
        """Returns the row that has a cell for each of these words. The cell is the word, or begins with it."""
        for row in self.rows:
            if all(any(cell == word or cell.startswith(word + " ") for cell in row) for word in words):
                return row
        raise AssertionError(f"no row with {words}")

    def changes(self) -> list[list[str]]:
        """Returns the rows of the files that came, went or changed."""
        return [row for row in self.rows if row and row[0] in ("came", "went", "changed")]

    def values(self, key: str) -> list[str]:
        """Returns the values of the attributes with a name."""
        return [value for name, value in self.attributes if name == key]


class MapCase(ImageCase):
    """Tests of pages."""

    @classmethod
    def images(cls) -> dict[str, bytes]:
        return {"new.fd": made(True)[0], "old.fd": made(False)[0]}

    def page(self, status: int | None, *words: str | Path) -> Page:
        """Returns the page that fv-map writes with a status, or with 0 or 1. The page must not have a script or load
        anything from outside."""
        ran = self.run_command("fv-map", *words, encoding="utf-8")
        self.assertIn(ran.returncode, (0, 1) if status is None else (status,), (words, ran.stderr))
        self.assertNotIn("Traceback", ran.stderr)
        it = Page(ran.stdout)
        places, links = it.values("id"), it.values("href")
        self.assertTrue(set(it.tags) <= TAGS and {key for key, _ in it.attributes} <= KEYS, (it.tags, it.attributes))
        self.assertTrue(len(places) == len(set(places)) and {*links} <= {f"#{place}" for place in places}, links)
        return it


@needs_library
class Pages(MapCase):
    """The contents of pages of made images."""

    def test_parts_and_places(self) -> None:
        places = made(True)[1]
        shutil.copy("new.fd", "new<b>.fd")
        page = self.page(1, "new<b>.fd")
        self.assertEqual(page.text, self.page(1, "new<b>.fd").text)
        self.assertNotIn("Not all is shown", page.text)
        for name, at in places.items():
            if name not in ("pad", "deleted file"):
                self.assertTrue({str(at), hex(at)} <= set(page.row_with(name)), (name, at))
        for name in ("InnerPei", "InnerMm", "NestedData"):
            page.row_with(name)
        self.assertTrue({"new<b>.fd", "no volume", "pad"} <= set(page.texts))  # the image, and names of the legend
        self.assertEqual(page.row_with("AlphaDxe")[4], f"{(6004 + 22) / 1024:.1f} KiB")
        self.assertTrue({"4096", "0x1000"} <= set(page.row_with("SECFV")), "the place of the volume")
        page.row_with("volume 1", FAULT)
        for place in (["0", "0x0", "4.0 KiB"], ["36864", "0x9000", "4.0 KiB"], ["41984", "0xa400", "64 B"]):
            self.assertIn(["no volume", *place, "erased"], page.rows)
        boxes = page.text.count('<div class="wide"><table>')  # in which tables scroll
        self.assertTrue(0 < boxes == page.text.count("<table"))
        self.assertTrue(any("(not opened: GUID-defined: LZMA: " in cell for cell in page.row_with("Broken")))
        self.assertTrue({"AlphaDxe", "GammaDxe"} <= set(page.drawn), page.drawn)

    def test_drawn_parts(self) -> None:
        page, places = self.page(1, "new.fd"), made(True)[1]
        for start in ("pad", "deleted file", SHOWN):
            title = f"{start}\nat {places[start]} ({places[start]:#x}),"
            self.assertTrue(any(it.startswith(title) for it in page.values("title")), title)
        classes = re.findall(r'class="(k-[a-z]+)[^"]*" style="[^"]*" title="no volume\nat', page.text)
        self.assertEqual(set(classes), {"k-none"})
        alpha = stream(section(PE32, b"\x01" * 6000), ui("AlphaDxe"))
        row = next(it for it in re.findall("<tr id=.*</tr>", page.text) if "Alpha<wbr>Dxe" in it)
        self.assertIn(hashlib.sha256(alpha).hexdigest(), row)
        place = re.findall('id="(f[0-9]+)"', row)[0]
        for part in (f'<a href="#{place}" class="k-dxe', f'<a href="#{place}" style="'):  # they lead to the row
            self.assertIn(part, page.text)

    def test_parts_that_are_not_read(self) -> None:
        """Each of them is on the page, with its place and the reason, and the status is 1. An image that was read whole
        has none, and the status 0."""
        page = self.page(0, "plain.fd")
        self.assertTrue("Everything was read." in page.texts and 'id="unread"' not in page.text)
        page = self.page(1, "new.fd")
        self.assertIn(["40960", "0xa000", "1.0 KiB", "rejected volume", FAULT, "the image"], page.rows)
        self.assertEqual(page.row_with("deleted file", "it was deleted")[2], "224 B")
        self.assertTrue(page.row_with("GUID-defined", "SECFV › Broken")[4].startswith("not opened: LZMA: "))
        store = bytes(16) + uuid.UUID("fff12b8d-7696-4c8b-a985-2747075b4f50").bytes_le + volume([], 1024)[32:]
        summed = stream(making.checked(section(RAW, b"x"), 1), ui("Summed"))
        files = [making.pad(b"held"), file(guid_of(42), summed, FREEFORM)]
        Path("unread.fd").write_bytes(making.flash(volume(files), store)[:-8] + b"trailing")
        page = self.page(1, "unread.fd")
        self.assertEqual(page.row_with("pad")[2:], ["4 B", "pad", "a pad holds bytes", "volume 0"])
        self.assertEqual(page.row_with("the CRC32 is wrong")[5], "volume 0 › Summed")
        self.assertTrue(page.row_with("Summed")[6].endswith("(GUID-defined: the CRC32 is wrong)"))
        self.assertEqual(page.row_with("variable store", "40960")[3], "1.0 KiB")
        self.assertTrue(any(it.startswith("Not read: ") for it in page.texts))
        row = self.page(1, "damaged.fd").row_with("0x48", "raw")
        self.assertEqual(row[6], "(finding 11: the header of a file is damaged: its checksum is wrong)")

    def test_fixed_files(self) -> None:
        """A volume with fixed files is drawn as any other, with the number of fixed files. A removed mark counts as a
        change."""
        page = self.page(0, "fixed.fd")
        inside = self.page(0, "fixed-inside.fv")
        fixed, core, top, alpha = "canonical 2 of 3 files fixed", "PEI core, fixed", "SEC core, fixed", "DXE driver"
        for words in (("volume 0", fixed), ("PeiCore", "4072", "0xfe8", core), ("72", "0x48", top), ("Alpha", alpha)):
            page.row_with(*words)
        for words in ((fixed,), ("PeiCore", core)):
            inside.row_with(*words)
        self.assertEqual(page.text.count("2 of 3 files fixed"), 2)
        self.assertFalse("rejected volume" in page.texts or "rejected volume" in inside.texts)
        changes = self.page(0, "--against", "less-fixed.fd", "fixed.fd").changes()
        self.assertEqual([row[:2] for row in changes], [["changed", "PeiCore"]])

    def test_no_volume(self) -> None:
        for data in (b"", b"no volume\n" * 100):
            Path("none").write_bytes(data)
            page = self.page(1, "none")
            self.assertTrue(any("0 volumes" in it for it in page.texts))
            self.assertIn("No firmware volume was found in this image.", page.texts)

    def test_texts(self) -> None:
        """The name of the image is not a part of the template, and a long name is cut."""
        Path("@STYLE@.fd").write_bytes(volume([driver(guid_of(1), "N" * 5000, b"")]))
        page = self.page(0, "@STYLE@.fd")
        self.assertTrue("<title>@STYLE@.fd</title>" in page.text and "<h1>@STYLE@.fd</h1>" in page.text)
        self.assertTrue(0 < max(map(len, re.findall("N+", page.text))) <= 200)
        self.expect(4, "fv-map: missing: no such file", "fv-map", "--names", "missing", "plain.fd")

    def test_limits(self) -> None:
        """Images that hold far more than their size are drawn: an image of many volumes, and a packed volume with very
        many sections."""
        Path("many.fd").write_bytes(volume([], 72) * 251)
        page = self.page(1, "many.fd")
        self.assertTrue("Not all is shown" in page.text and "no volume" not in page.texts)
        self.assertIn(["not shown", "18000", "0x4650", "72 B", ""], page.rows)
        inner = volume([file(guid_of(1), section(RAW, b"") * 500_000, FREEFORM)], 0x200000)
        Path("listed.fd").write_bytes(volume([holder(2, compressed(inner), "Listed")], 0x10000))
        self.assertIn("(not opened: GUID-defined: more than 100000 parts)", self.page(1, "listed.fd").text)


@needs_library
class Changes(MapCase):
    """Pages with --against."""

    def test_files(self) -> None:
        """The files that came, went and changed are on the page, and no others, and the names of the two images."""
        page = self.page(1, "--against", "old.fd", "new.fd")
        rows = {(row[0], row[1]): row[2:] for row in page.changes()}
        self.assertEqual(set(rows), {("came", "GammaDxe"), ("went", "BetaApp"), ("changed", "AlphaDxe")})
        self.assertEqual(rows["came", "GammaDxe"], ["–", "806 B", "+806 B", "SECFV"])
        self.assertEqual(rows["changed", "AlphaDxe"][2], "0 B")
        links = re.findall('<td class="name"><a href="#(f[0-9]+)">', page.text)
        self.assertTrue(len(links) == 2 and all(f'<tr id="{it}">' in page.text for it in links), links)
        sides = [(row[0], row[1], row[3]) for row in page.rows if row and row[0] in ("before", "now")]
        sums = {name: hashlib.sha256(Path(name).read_bytes()).hexdigest() for name in ("old.fd", "new.fd")}
        self.assertEqual(sides, [("before", "old.fd", sums["old.fd"]), ("now", "new.fd", sums["new.fd"])])

    def test_equal_images_and_equal_names(self) -> None:
        page = self.page(1, "--against", "new.fd", "new.fd")
        said = {"0 changed", "0 came", "Against new.fd", "The two have the same bytes."}
        self.assertTrue(said <= set(page.texts), page.texts[:20])
        for folder in ("a/out", "b/out"):
            Path(folder).mkdir(parents=True)
            shutil.copy("new.fd", f"{folder}/build.fd")
        page = self.page(1, "--against", "a/out/build.fd", "b/out/build.fd")
        self.assertTrue({"b/out/build.fd", "Against a/out/build.fd"} <= set(page.texts), page.texts[:20])

    def test_two_files_with_one_name(self) -> None:
        """A changed driver is found, also if a second file has the name of the file around it."""
        for name, beta in (("old.fv", bytes(50)), ("new.fv", b"\x01" * 50)):
            alpha = driver(guid_of(1), "Alpha", bytes(40))
            inner = [volume([alpha, driver(guid_of(2), "Beta", it)], 1024) for it in (beta, bytes(50))]
            mains = [holder(5 + number, section(VOLUME, it), "Main") for number, it in enumerate(inner)]
            Path(name).write_bytes(volume(mains))
        found = [(row[0], row[1], row[5]) for row in self.page(0, "--against", "old.fv", "new.fv").changes()]
        wanted = [("changed", "Main", "volume 0"), ("changed", "Beta", "volume 0 › Main › volume 0")]
        self.assertEqual(found, wanted)

    def test_parts_that_are_not_read(self) -> None:
        """Changes of rejected volumes and of other bytes that are not read are found and counted. A byte in the free
        space of the rejected volume is lost."""
        data, places = made(True)
        other = bytearray(data)
        for at in (41400, places["deleted file"] + 4096 + 100):  # the first place is in the rejected volume
            other[at] ^= 1
        Path("other.fd").write_bytes(other)
        page = self.page(1, "--against", "new.fd", "other.fd")
        self.assertEqual([row[:2] for row in page.changes()], [["changed", "volume 1"]])
        self.assertIn("Of the parts that are not read, 3 came or changed, and 2 went.", page.texts)
        page.row_with("lost bytes came", "8 B")
        page.row_with("deleted file came", "it was deleted")


@needs_library
@unittest.skipUnless(CHROMIUM, "no Chromium (Debian: chromium)")
class InChromium(MapCase):
    """Chromium has the names, draws the colours, and has room for the page in a narrow window."""

    def opened(self, page: str, *words: str) -> str:
        """Returns the output of Chromium for a page, without a screen."""
        path = self.room / "page.html"
        path.write_text(page, encoding="utf-8")
        command = [CHROMIUM, "--headless", "--no-sandbox", "--disable-gpu", "--hide-scrollbars"]
        command += [f"--user-data-dir={self.room / 'profile'}", *words, path.as_uri()]
        return self.runs(0, *command, stdin=subprocess.DEVNULL, timeout=120, encoding="utf-8")

    def title(self, page: str, *words: str) -> Any:
        """Returns the JSON text that a script writes into the title of a page."""
        shown = self.opened(page, "--dump-dom", *words)
        return json.loads(html.unescape(shown.partition("<title>")[2].partition("</title>")[0]))

    def colors(self, page: str, scheme: int) -> set[int]:
        """Returns the colours of a drawn page, which is dark with the scheme 0 and light with the scheme 1."""
        settings = f"--blink-settings=preferredColorScheme={scheme}"
        self.opened(page, "--screenshot=page.png", "--window-size=700,2000", settings)
        return set(self.title(COLORS.replace("@", base64.b64encode(Path("page.png").read_bytes()).decode())))

    def test_pages(self) -> None:
        for words in (["new.fd"], ["--against", "old.fd", "new.fd"]):
            text = self.page(1, *words).text
            read = Page(self.opened(text, "--dump-dom"))
            for name in ("AlphaDxe", "GammaDxe", "InnerPei", "InnerMm", "NestedData", SHOWN):
                read.row_with(name)
            self.assertTrue({"AlphaDxe", "GammaDxe"} <= set(read.drawn), read.drawn)
            for scheme, form, edge in ((0, DARK, DARK_EDGE), (1, LIGHT, LIGHT_EDGE)):
                lacking = (KINDS | form | (edge if len(words) > 1 else set())) - self.colors(text, scheme)
                self.assertEqual([f"{it:06x}" for it in lacking], [], scheme)
            # The copy that is measured has a script, which the page forbids, and all its tables are open.
            text = re.sub("<meta http-equiv[^>]*>", "", text).replace("<details>", "<details open>") + MEASURE
            sizes = self.title(text, "--window-size=500,900")
            self.assertEqual((sizes["window"], sizes["page"]), (500, 500), sizes)
            self.assertTrue(sizes["cell"] >= 150 and sizes["area"] >= 35, sizes)


@needs_library
class OfDebian(MapCase):
    """Debian's firmware."""

    @unittest.skipUnless(OVMF.exists(), "no package ovmf of Debian")
    def test_ovmf(self) -> None:
        page = self.page(None, OVMF)
        for name in ("DXEFV", "PEIFV", "SECFV"):
            self.assertIn("canonical", page.row_with(name))
        self.assertTrue({"Shell", "DxeCore"} <= set(page.drawn), page.drawn)

    @unittest.skipUnless(AAVMF.exists(), "no package qemu-efi-aarch64 of Debian")
    def test_aavmf(self) -> None:
        page = self.page(None, AAVMF)
        self.assertRegex(page.text, r"\b\d+ of \d+ files fixed")
        self.assertNotIn("rejected volume", page.texts)
        self.assertTrue({"PeiCore", "DxeCore"} <= {name for row in page.rows for name in row})
