# SPDX-License-Identifier: BSD-2-Clause-Patent
"""fv-sbom: the components of a bill of materials, which names the digests of the unpacked files. test_unpack.py checks
for each of its images whether the bill is complete."""

import importlib.util
import json
import os
import unittest
from pathlib import Path
from typing import Any

from tests.commands.room import ImageCase, rows_of
from tests.commands.test_unpack import HIDDEN
from tests.frame import needs_library

KNOWN = {"type", "bom-ref", "name", "version", "hashes", "properties"}  # the keys of a component
SCHEMA = os.environ.get("CYCLONEDX_SCHEMA", "")  # the published schema of CycloneDX 1.5
has_schema = SCHEMA and importlib.util.find_spec("jsonschema")


def values_of(component: dict[str, Any]) -> dict[str, str]:
    """Returns the properties of a component."""
    return {it["name"]: it["value"] for it in component["properties"]}


@needs_library
class Bill(ImageCase):
    """Bills of made images."""

    @classmethod
    def images(cls) -> dict[str, bytes]:
        return {"hidden.fd": HIDDEN}

    def bill(self, status: int, image: str) -> Any:
        """Returns the bill of an image, which two runs write with the same bytes."""
        text = self.runs(status, "fv-sbom", image)
        self.assertEqual(self.runs(status, "fv-sbom", image), text)
        return json.loads(text)

    def unread(self, status: int, image: str) -> list[dict[str, Any]]:
        """Returns the components of the parts that are not read."""
        return [it for it in self.bill(status, image)["components"] if it["type"] == "file"]

    def test_components(self) -> None:
        self.runs(0, "fv-unpack", "plain.fd", "plain")
        parts, bill = {it["path"]: it for it in rows_of("plain")}, self.bill(0, "plain.fd")
        found = {it["bom-ref"]: it for it in bill["components"]}
        files = {path: it for path, it in parts.items() if it["part"] == "file"}
        self.assertEqual((found.keys(), len(found)), (files.keys(), 4))
        self.assertRegex(bill["serialNumber"], r"\Aurn:uuid:[0-9a-f]{8}(-[0-9a-f]{4}){3}-[0-9a-f]{12}\Z")
        for it in (*found.values(), bill["metadata"]["component"]):
            self.assertTrue(it.keys() <= KNOWN and it["type"] == "firmware", it)
        for path, row in files.items():
            values = values_of(found[path])
            self.assertEqual(found[path]["hashes"], [{"alg": "SHA-256", "content": row["sha256"]}])
            for name in ("guid", "type", "offset"):
                self.assertEqual(values[f"uefi:{name}"], row[name])
            if f"{path}pe32.efi" in parts:
                self.assertEqual(values["uefi:PE32:sha256"], parts[f"{path}pe32.efi"]["sha256"])

    def test_parts_that_are_not_read(self) -> None:
        lines = map(json.loads, self.runs(1, "fv-unpack", "--list", "--json", "--sums", "hidden.fd").splitlines())
        rows = [it for it in lines if it["part"] == "unread"]
        self.assertEqual([it["type"] for it in rows], ["pad", "deleted file"])
        self.assertEqual(rows[1]["guid"], "00000009-7777-4777-8777-777777777777")
        types = [it["type"] for it in self.bill(1, "hidden.fd")["components"]]
        self.assertEqual(types, ["firmware"] * 3 + ["file"] * 2)
        for row, it in zip(rows, self.unread(1, "hidden.fd"), strict=True):
            self.assertEqual((it["bom-ref"], it["hashes"][0]["content"]), (row["path"], row["sha256"]))
            place = [row["type"], hex(row["offset"]), row["in"], row["note"]]
            self.assertEqual([values_of(it)[f"uefi:{name}"] for name in ("type", "offset", "in", "note")], place)

    def test_reasons(self) -> None:
        for status, image, note in (
            (2, "damaged.fd", "fault 11 at 4168: "),
            (1, "firmware.fd", "not opened: unknown GUID "),
            (1, "none.bin", "it is in no volume"),
        ):
            (it,) = self.unread(status, image)
            self.assertEqual(it["properties"][-1]["name"], "uefi:note", image)
            self.assertEqual(it["properties"][-1]["value"][: len(note)], note)
        self.assertEqual(self.bill(1, "none.bin")["compositions"][0]["aggregate"], "incomplete")

    def test_damaged_volume(self) -> None:
        """The files of a damaged volume are components, and one that breaks a rule says so. The volume is one too."""
        found = self.bill(2, "damaged.fd")["components"]
        self.assertEqual([it["name"] for it in found][1:], ["Alpha", found[2]["name"], "00-volume"])
        findings = [values_of(it).get("uefi:findings") for it in found]
        self.assertEqual(findings, ["11", None, None, None])
        self.assertEqual(found[-1]["bom-ref"], "00-volume/")

    @unittest.skipUnless(has_schema, "no schema of CycloneDX (CYCLONEDX_SCHEMA), or no module jsonschema")
    def test_schema(self) -> None:
        jsonschema: Any = importlib.import_module("jsonschema")
        jsonschema.validate(self.bill(0, "plain.fd"), json.loads(Path(SCHEMA).read_text(encoding="utf-8")))
