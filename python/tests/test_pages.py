"""The worked examples, the notebook and the page."""
from __future__ import annotations

import re
import subprocess
import sys
import tempfile
import unittest

from notebook import outputs, read
from support import ENVIRONMENT, TOP, needs_library


@needs_library
class Runs(unittest.TestCase):
    """Each is run as a reader would."""

    def run_python(self, text: str) -> str:
        """What a program prints, which must end well."""
        with tempfile.TemporaryDirectory() as room:
            done = subprocess.run([sys.executable, "-"], input=text, cwd=room, env=ENVIRONMENT, capture_output=True, text=True)
        self.assertEqual(done.returncode, 0, done.stderr)
        return done.stdout

    def test_worked_examples(self) -> None:
        found = sorted((TOP / "python" / "examples").glob("*.py"))
        self.assertEqual(len(found), 3)
        for path in found:
            self.assertTrue(self.run_python(path.read_text()), path)

    def test_notebooks(self) -> None:
        for path in (TOP / "docs" / "notebooks").glob("*.ipynb"):
            kept = read(path)
            cells = [cell for cell in kept["cells"] if cell["cell_type"] == "code"]
            self.run_python("\n".join("".join(cell["source"]) for cell in cells))
            for cell, found in zip(cells, outputs(kept)):
                self.assertEqual(cell["outputs"], found, f"{path} (python/tests/notebook.py puts it in)")

    def test_the_page(self) -> None:
        """What stands in a block of the page is a session: it prints what stands below it."""
        page = (TOP / "docs" / "PYTHON.md").read_text()
        for block in re.findall(r"^```python\n(.*?)^```$", page, re.MULTILINE | re.DOTALL):
            self.run_python(block)

    def test_sessions(self) -> None:
        """Docstrings that show a session."""
        self.assertEqual(self.run_python("import doctest, replset; print(doctest.testmod(replset))"),
                         "TestResults(failed=0, attempted=5)\n")


if __name__ == "__main__":
    unittest.main()
