"""The wheel and the source archive, as pip asks for them."""
from __future__ import annotations

import os
import subprocess
import sys
import tarfile
import tempfile
import unittest
import zipfile
from pathlib import Path
from typing import Dict

from support import ENVIRONMENT, TOP, needs_library

from replset.lab.library import find_library

TRIED = "from replset import Set; s = Set(1); s.elect(0); print(s.note(0), len(s._repr_html_()) > 1000)"


@needs_library
class Built(unittest.TestCase):
    """Each is unpacked, and used with nothing of this checkout."""

    def setUp(self) -> None:
        """Makes a folder, and an environment that knows nothing of the checkout."""
        room = tempfile.TemporaryDirectory()
        self.addCleanup(room.cleanup)
        self.room = Path(room.name)
        self.alone: Dict[str, str] = {name: value for name, value in ENVIRONMENT.items() if not name.startswith(("REPLSET", "PYTHONPATH"))}

    def build(self, folder: Path, kind: str, library: str) -> Path:
        """What the backend of a folder makes."""
        environment = {**self.alone, "REPLSET_LIBRARY": library} if library else self.alone
        done = subprocess.run([sys.executable, "-c", f"import building; print(building.build_{kind}({str(self.room)!r}))"], cwd=folder,
                              env=environment, capture_output=True, text=True)
        self.assertEqual(done.returncode, 0, done.stderr)
        return self.room / done.stdout.strip()

    def check(self, wheel: Path) -> None:
        """Uses what a wheel carries."""
        unpacked = self.room / "site"
        zipfile.ZipFile(wheel).extractall(unpacked)
        done = subprocess.run([sys.executable, "-c", TRIED], cwd=self.room, env={**self.alone, "PYTHONPATH": str(unpacked)},
                              capture_output=True, text=True)
        self.assertEqual(done.stdout, "written 1/0/2 True\n", done.stderr)
        self.assertFalse(os.path.exists(unpacked / "replset" / "lab" / "tests"))

    def test_a_wheel(self) -> None:
        self.check(self.build(TOP / "python", "wheel", find_library() or ""))

    def test_a_source_archive_makes_the_same_wheel(self) -> None:
        archive = self.build(TOP / "python", "sdist", find_library() or "")
        with tarfile.open(archive) as opened:
            opened.extractall(self.room)
        self.check(self.build(self.room / archive.name[: -len(".tar.gz")], "wheel", ""))


if __name__ == "__main__":
    unittest.main()
