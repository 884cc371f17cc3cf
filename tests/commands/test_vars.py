# SPDX-License-Identifier: BSD-2-Clause-Patent
"""fv-vars: the lines for made variable stores, whose numbers were worked out by hand."""

import hashlib
import json
import unittest
from typing import Any

from tests import making, stores
from tests.commands.room import ImageCase
from tests.frame import needs_library
from tests.stores import ADDED, DATABASE, DELETED, FIELDS, GLOBAL, HEADER_ONLY, REPLACED, variable

G, D = f"{GLOBAL} gEfiGlobalVariableGuid", f"{DATABASE} gEfiImageSecurityDatabaseGuid"
OWNER, CERTIFICATE, DIGEST = making.guid(3), b"certificate", bytes(range(32))
X509, SHA256 = f"{stores.X509} gEfiCertX509Guid", f"{stores.SHA256} gEfiCertSha256Guid"


def sha(data: bytes) -> str:
    """Returns the digest of some data."""
    return hashlib.sha256(data).hexdigest()


BOOT = variable("Boot", b"12345")
# 28 bytes of header; Boot: 32 + 10 + 5 bytes, and 1 of filler; Old: 32 + 8 + 2, and 2; Next: 32 + 10 + 0, and 2.
SIMPLE = stores.store(BOOT, variable("Old", b"ab", state=DELETED), variable("Next", b"", attributes=0x100), length=0x200)
KEYS = (
    stores.signature_list(stores.X509, OWNER, CERTIFICATE)
    + stores.signature_list(stores.SHA256, OWNER, DIGEST, DIGEST[::-1])
    + b"rest"
)
# db: 60 + 6 bytes, 55 + 124 + 4 bytes of data, and 3 of filler.
SECURE = stores.store(
    variable("db", KEYS, DATABASE, attributes=0x27, fields=FIELDS), kind=stores.AUTHENTICATED, length=0x200
)
HOSTILE = variable("a\n\x1b[2J\u202e\ud800\"\\", b"", making.guid(1))
STATES = 0x3D, HEADER_ONLY, 0x12
IMAGES = {
    "simple.fd": making.flash(stores.volume(SIMPLE, stores.working_block(8), length=0x400), making.SMALL),
    "store": SIMPLE,
    "db.fd": stores.volume(SECURE),
    "hostile": stores.store(HOSTILE, variable(b"odd", b"x"), variable(b"\0\xd8", b""), length=0x100),
    "twice": stores.store(BOOT, BOOT, variable("Boot", b"", state=REPLACED), length=0x100),
    "replaced": stores.store(*[variable("Boot", it, state=REPLACED) for it in (b"1", b"2")], length=0x80),
    "states": stores.store(*[variable("S", b"", state=it) for it in STATES], stores.UNFINISHED, length=0x100),
    "cut": stores.store(BOOT, variable("Next", b"1" * 99), length=0x200)[:150],
    "state": stores.store(BOOT, formatted=0, length=0x80),
    "garbage": stores.store(BOOT, b"garbage", length=0x80),
    "outside": b"\xff" * 4 + b"more" + SIMPLE + stores.working_block(4, 5),
    "two.fd": making.flash(stores.volume(SIMPLE, length=0x400), stores.volume(SIMPLE, length=0x400)),
    "empty": b"",
}
SIZE = "Size of the store is not possible, so it is read up to the end"


@needs_library
class Lines(ImageCase):
    """The lines and statuses of images."""

    @classmethod
    def images(cls) -> dict[str, bytes]:
        return IMAGES

    def lines(self, status: int, *words: str) -> list[str]:
        """Returns the lines of a run."""
        return self.runs(status, "fv-vars", *words).splitlines()

    def test_image(self) -> None:
        start = 4096 + 72
        lines = [
            f"store at {start} length 28 plain size 512",
            f'variable at {start + 28} length 47 added NV BS RT {G} "Boot" data 5 sha256 {sha(b"12345")}',
            f'variable at {start + 120} length 42 added 0x100 {G} "Next" data 0 sha256 {sha(b"")}',
            f"working block at {start + 512} length 40",
        ]
        self.assertEqual(self.lines(0, "simple.fd"), lines)
        free = f"free at {start + 552} length {0x400 - 72 - 552}"
        old = f'variable at {start + 76} length 42 deleted NV BS RT {G} "Old" data 2 sha256 {sha(b"ab")}'
        fillers = [f"filler at {start + at} length {n}" for at, n in ((75, 1), (118, 2), (162, 2))]
        rest = f"free at {start + 164} length {512 - 164}"
        parts = [*lines[:2], fillers[0], old, fillers[1], lines[2], fillers[2], rest, lines[3], free]
        self.assertEqual(self.lines(0, "--all", "simple.fd"), parts)
        self.assertEqual(len(self.lines(0, "two.fd")), 6)

    def test_store_without_a_volume(self) -> None:
        moved = [it.replace("at 28", "at 36").replace("at 120", "at 128") for it in self.lines(0, "store")]
        found = self.lines(1, "outside")
        self.assertEqual(found[2:4], moved[1:])
        wrong = "the bytes are in no store, and are not erased"
        queue = "WriteQueueSize is not possible, so the block is read up to the end"
        self.assertEqual(found[0], f"unread at 0 length 8; {wrong}")
        self.assertEqual(found[4:], [f"working block at 520 length 36; {queue}"])

    def test_signatures(self) -> None:
        data, owner = 72 + 28 + 66, f"owner {OWNER}"
        self.assertEqual(self.lines(1, "db.fd")[1:], [
            f'variable at 100 length 249 added NV BS RT AT {D} "db" data 183 sha256 {sha(KEYS)}',
            f"  signature at {data + 28} length 27 {X509} {owner} data 11 sha256 {sha(CERTIFICATE)}",
            f"  signature at {data + 83} length 48 {SHA256} {owner} data 32 sha256 {DIGEST.hex()}",
            f"  signature at {data + 131} length 48 {SHA256} {owner} data 32 sha256 {DIGEST[::-1].hex()}",
            f"  unread at {data + 179} length 4; the sizes of a signature list are not possible",
        ])  # fmt: skip

    def test_hostile_names(self) -> None:
        shown = [it.split(str(making.guid(1)) + " ")[-1].split(" data ")[0] for it in self.lines(0, "hostile")[1:]]
        self.assertEqual(shown[0], r'"a\u000a\u001b[2J\u202e\ud800\u0022\u005c"')
        self.assertEqual([it.split(G)[-1] for it in shown[1:]], [" without a name"] * 2)

    def test_two_of_a_name(self) -> None:
        second = f'variable at 76 length 47 added NV BS RT {G} "Boot" data 5 sha256 {sha(b"12345")}'
        wrong = "the variable at 28 has the same vendor and name"
        self.assertEqual(self.lines(1, "twice")[2:], [f"{second}; {wrong}"])
        first, last = self.lines(1, "replaced")[1:]
        self.assertIn("replaced", last)
        self.assertTrue(first.endswith(f"sha256 {sha(b'1')}; the variable at 72 has the same vendor and name"), first)

    def test_states(self) -> None:
        self.assertEqual(self.lines(0, "states"), ["store at 0 length 28 plain size 256"])
        variables = [
            f'variable at {28 + 36 * number} length 36 {status} NV BS RT {G} "S" data 0 sha256 {sha(b"")}'
            for number, status in enumerate(("deleted", "header only", "other"))
        ]
        rest = ["unfinished at 136 length 32", "free at 168 length 88"]
        self.assertEqual(self.lines(0, "--all", "states")[1:], [*variables, *rest])
        self.assertEqual([it["state"] for it in self.parts(0, "--all", "states")[1:4]], [*STATES])

    def test_damaged(self) -> None:
        unfit = "the variable does not fit into the store"
        found = self.lines(1, "cut")
        self.assertEqual(found[0], f"store at 0 length 28 plain size 512; {SIZE}")
        self.assertEqual(found[2:], [f"unread at 76 length 74; {unfit}"])
        said = "EDK II does not use the store, by its Format and State"
        self.assertEqual(self.lines(1, "state")[0], f"store at 0 length 28 plain size 128; {said}")
        begins = "no variable begins here, and the bytes are not erased"
        self.assertEqual(self.lines(1, "garbage")[2:], [f"unread at 76 length 52; {begins}"])

    def test_no_store(self) -> None:
        for name in ("empty", "plain.fv", "plain.fd"):
            self.expect(2, f"fv-vars: {name}: no variable store", "fv-vars", name)

    def test_json(self) -> None:
        parts = self.parts(1, "db.fd")
        place = {"part": "variable", "offset": 100, "length": 249, "status": "added", "state": 63}
        name = {"vendor": str(DATABASE), "vendor_name": "gEfiImageSecurityDatabaseGuid", "name": "db"}
        value = {"data": 183, "sha256": sha(KEYS), "count": 7, "time": "2024-05-06 07:08:09", "key": 3}
        lists = parts[1].pop("lists")
        self.assertEqual(parts[1], {**place, "attributes": "NV BS RT AT", **name, **value})
        self.assertEqual([it["part"] for it in lists], ["signature"] * 3 + ["unread"])
        self.assertEqual((lists[0]["type_name"], lists[0]["owner"]), ("gEfiCertX509Guid", str(OWNER)))
        self.assertEqual(lists[-1]["wrong"], ["the sizes of a signature list are not possible"])
        self.assertEqual(self.parts(0, "hostile")[1]["name"], "a\n\x1b[2J\u202e\ud800\"\\")
        self.assertEqual([it["name"] for it in self.parts(0, "hostile")[2:]], [None, None])
        self.assertEqual(len(self.parts(0, "--all", "simple.fd")), 10)

    def parts(self, status: int, *words: str) -> list[dict[str, Any]]:
        """Returns the parts that a run writes as JSON."""
        found: list[dict[str, Any]] = json.loads(self.runs(status, "fv-vars", "--json", *words))["parts"]
        return found


if __name__ == "__main__":
    unittest.main()
