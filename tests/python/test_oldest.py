# SPDX-License-Identifier: BSD-2-Clause-Patent
"""The library on the oldest processor: it has no instruction that the first x86-64 processors lack, and it returns the
same on such a processor, which qemu emulates, as on this one."""

import os
import platform
import re
import sys
import unittest

from tests.checks import ROOT
from tests.frame import LIBRARY, RoomCase, needs_library, needs_tool
from tests.python.outcomes import made

# The instructions of SSE3, SSSE3, SSE4, AVX, BMI and so on, in the order of these extensions.
NEWER = re.compile(
    r"""addsub|hadd|hsub|lddqu|mov(ddup|shdup|sldup)|cmpxchg16b|pabs|palignr|phadd|phsub|pmaddubsw|pmulhrsw|pshufb|psign
    |p?blend|dpp[sd]|extractps|insertps|movntdqa|mpsadbw|packusdw|pcmpeqq|pextr[bdq]|phminposuw|pinsr[bdq]
    |pm(ax|in)(s[bd]|u[dw])|pmov[sz]x|pmul(dq|ld)|ptest|round[ps][sd]|crc32|pcmp[ei]str|pcmpgtq|popcnt|lzcnt|movbe
    |v|andn$|bextr|bls|bzhi|pdep|pext$|mulx|rorx|s[ah][lr]x|adcx|adox|sha(1|256)|aes|pclmul""",
    re.VERBOSE,
)
OLDEST = ("qemu-x86_64-static", "-cpu", "qemu64,-sse3,-cx16")
# How many of the made inputs are tried, and how long they may be.
TRIED, MOST = 20, 5000


@needs_library
@unittest.skipUnless(platform.machine() == "x86_64", "this is not an x86-64")
class Oldest(RoomCase):
    """The instructions of the library, and its results on such a processor."""

    @needs_tool("objdump", "binutils")
    def test_instructions(self) -> None:
        code = self.runs(0, "objdump", "--disassemble", "--no-show-raw-insn", LIBRARY.with_name("libfv.a"))
        found = re.findall(r"(?m)^ *[0-9a-f]+:\t(?:(?:lock|rep\w*) +)?(\w+)", code)
        self.assertGreater(len(found), 10_000)
        self.assertEqual(sorted({it for it in found if NEWER.match(it)}), [])

    @needs_tool(OLDEST[0], "qemu-user-static")
    def test_outputs(self) -> None:
        names = [name for name, data in made().items() if len(data) <= MOST][:TRIED]
        for name in names:
            (self.room / name).write_bytes(made()[name])
        words = (sys.executable, "-m", "tests.python.said", *names)
        wanted, found = self.runs(0, *words), self.runs(0, *OLDEST, *words)
        self.assertTrue(found == wanted and len(wanted) > 1000)

    @needs_tool(OLDEST[0], "qemu-user-static")
    @needs_tool(os.environ.get("CC", "cc"))
    def test_program(self) -> None:
        # The results of this test in C, which has the archive in it, were worked out by hand.
        words = ("-std=c11", "-O1", "-static", f"-I{ROOT}/libfv/include", "-o", "fields", ROOT / "tests/libfv/fields.c")
        self.runs(0, os.environ.get("CC", "cc"), *words, LIBRARY.with_name("libfv.a"))
        self.runs(0, *OLDEST, self.room / "fields")
