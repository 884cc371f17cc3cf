# SPDX-License-Identifier: BSD-2-Clause-Patent
"""The tests of the package for Python, over the library that LIBFV names, or otherwise over the built library. If LIBFV
is empty, the package looks for its library as users have it."""

import os

from tests.frame import LIBRARY

os.environ.setdefault("LIBFV", str(LIBRARY))
