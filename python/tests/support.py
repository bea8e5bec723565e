"""What the tests share."""
from __future__ import annotations

import os
import sys
import unittest
from pathlib import Path

TOP = Path(__file__).resolve().parents[2]

if str(TOP / "python") not in sys.path:
    sys.path.insert(0, str(TOP / "python"))

from replset.lab.library import find_library  # noqa: E402

#: The environment of a program that imports the package from here.
ENVIRONMENT = {**os.environ, "PYTHONPATH": str(TOP / "python"), "PYTHONDONTWRITEBYTECODE": "1"}


def needs_library(test: "type[unittest.TestCase]") -> "type[unittest.TestCase]":
    """Skips tests where no library is built."""
    return unittest.skipIf(find_library() is None, "no library is built (tools/build_library build/libreplset.so builds one)")(test)
