# SPDX-License-Identifier: BSD-2-Clause-Patent
"""fv-archive over made images, and the figures of recipes/archive/README.md, which are measured again."""

import concurrent.futures
import hashlib
import shutil
from pathlib import Path

from tests import making
from tests.checks import ROOT, read
from tests.commands.room import ImageCase
from tests.commands.test_commands import ARCHIVE
from tests.frame import PROGRAM, needs_library, needs_program

MEASURED = "files {} bytes {}, of them refused {}\ndistinct as stored {} bytes {}\ndistinct in meaning {} bytes {}"
FORGED = "x\n{0} {1} y\r"  # the name of a file, which looks like a line of the index


def digest(name: str | Path) -> str:
    """Returns the digest of a file."""
    return hashlib.sha256(Path(name).read_bytes()).hexdigest()


@needs_library
class Archive(ImageCase):
    """Images that are stored, and found again."""

    def stored(self, image: str) -> str:
        """Returns the digest of the canonical image of a file."""
        return hashlib.sha256(self.output(0, PROGRAM, "normalise", image)).hexdigest()

    def got(self, store: str, name: str) -> str:
        """Returns the digest of an image that is found in an archive."""
        return hashlib.sha256(self.output(0, ARCHIVE, "get", store, name)).hexdigest()

    def test_figures_of_readme(self) -> None:
        images = dict(making.field_images())
        for name, data in images.items():
            Path(name).write_bytes(data)
        different, size = len(set(images.values())), 131072
        text = MEASURED.format(160, 160 * size, 0, different, different * size, 4, 4 * size)
        self.expect(0, text, ARCHIVE, "measure", *images)
        row = f"| 160 images after updates in the field | 160 | {different} | 4 |"
        self.assertIn(row, read(ROOT / "recipes/archive/README.md").splitlines())
        text = MEASURED.format(3, 98304, 1, 3, 98304, 3, 98304)
        self.expect(0, text, ARCHIVE, "measure", "plain.fv", "more.fv", "refused.fv")

    @needs_program
    def test_images_are_stored_once(self) -> None:
        image, refused = self.stored("front.fv"), digest("refused.fv")
        lines = [f"{image} new front.fv", f"{image} known plain.fv"]
        lines.append(f"{refused} new refused.fv, stored as it is: fault 15 at 91")
        self.expect(0, "\n".join(lines), ARCHIVE, "add", "store", "front.fv", "plain.fv", "refused.fv")
        self.expect(0, f"{image} known last.fv", ARCHIVE, "add", "store", "last.fv")
        self.assertEqual(len(list(Path("store/images").iterdir())), 2)
        self.assertEqual(read("store/index").splitlines()[0], f"{digest('front.fv')} {image} front.fv")
        for name in (image, digest("last.fv")):
            self.assertEqual(self.got("store", name), image)
            Path("got").write_bytes(Path(f"store/images/{image}").read_bytes())
            self.expect(0, "same", PROGRAM, "compare", "got", "middle.fv")
        self.expect(1, "fv-archive: no image 00", ARCHIVE, "get", "store", "00")
        self.expect(4, "fv-archive: missing.fv: no such file", ARCHIVE, "add", "store", "missing.fv")
        self.expect(2, "fv-archive: more than 1073741824 bytes", ARCHIVE, "measure", "/dev/zero")
        # A disk that is full leaves no part of an image, and no line that hides the next one.
        too_large = "fv-archive: [Errno 27] File too large"
        self.expect(4, too_large, "bash", "-c", 'ulimit -f 8 && exec "$@"', "", ARCHIVE, "add", "store", "changed.fv")
        self.assertEqual(len(list(Path("store/images").iterdir())), 2)
        with open("store/index", "a") as index:
            index.write(image)
        self.expect(0, f"{image} known middle.fv", ARCHIVE, "add", "store", "middle.fv")
        self.assertEqual(self.got("store", digest("middle.fv")), image)
        full = "fv-archive: [Errno 28] No space left on device"
        self.expect(4, full, "bash", "-c", '"$@" > /dev/full', "", ARCHIVE, "get", "store", image)

    @needs_program
    def test_names_like_options_or_lines(self) -> None:
        more, changed = self.stored("more.fv"), self.stored("changed.fv")
        forged = FORGED.format(more, self.stored("plain.fv"))
        for image, name in (("more.fv", "--hex"), ("more.fv", "--"), ("changed.fv", forged)):
            shutil.copy(image, f"./{name}")
        self.expect(0, f"{more} new --hex\n{more} known --", ARCHIVE, "add", "--", "named", "--hex", "./--")
        shown = forged.replace("\n", r"\u000a").replace("\r", r"\u000d")
        self.expect(0, f"{changed} new {shown}", ARCHIVE, "add", "named", forged)
        self.assertEqual(len(read("named/index").splitlines()), 3)
        with open("named/index", "a") as index:
            index.write(f"x\n\n{more} {changed}\n{digest('more.fv')} {changed} later\n")
        for name in (more, digest("more.fv")):
            self.assertEqual(self.got("named", name), more)
        # An image that has changed in the store is not written, and is stored again if its file is added once more.
        with open(f"named/images/{more}", "r+b") as image_file:
            image_file.seek(100)
            image_file.write(b"X")
        self.expect(4, f"fv-archive: the image {more} is damaged", ARCHIVE, "get", "named", more)
        self.expect(0, f"{more} new more.fv", ARCHIVE, "add", "named", "more.fv")
        self.assertEqual(self.got("named", more), more)

    @needs_program
    def test_volumes_at_other_places(self) -> None:
        """A file whose canonical image has volumes at other places is stored as it is. In that image the program finds
        a volume that covers the volume of the file."""
        for is_accepted in (True, False):
            Path("covered.fd").write_bytes(making.covered(is_accepted))
            Path("other.fd").write_bytes(self.output(0, PROGRAM, "normalise", "--all", "covered.fd"))
            self.expect(0, "volume at 72 length 256", PROGRAM, "scan", "covered.fd")
            self.expect(0, "volume at 0 length 328", PROGRAM, "scan", "other.fd")
            stored = digest("covered.fd")
            line = f"{stored} new covered.fd, stored as it is: its canonical image has volumes at other places"
            self.expect(0, line, ARCHIVE, "add", "covered", "covered.fd")
            self.assertEqual(self.got("covered", stored), stored)
            said = self.runs(0, ARCHIVE, "measure", "covered.fd").splitlines()
            self.assertEqual(said[0], "files 1 bytes 328, of them refused 1")

    def test_runs_at_once_write_whole_lines(self) -> None:
        names = [f"plain-{number}.fv" for number in range(8)]
        for name in names:
            shutil.copy("plain.fv", name)
        with concurrent.futures.ThreadPoolExecutor(8) as pool:
            list(pool.map(lambda name: self.runs(0, ARCHIVE, "add", "together", name), names))
        lines = read("together/index").splitlines()
        self.assertEqual(sorted(it.split(" ")[2] for it in lines), names)
        self.assertEqual(len({it.split(" ")[1] for it in lines}), 1)
