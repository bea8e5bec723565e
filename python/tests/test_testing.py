"""The plugin of pytest and the state machine of Hypothesis, where these are installed."""
from __future__ import annotations

import importlib.util
import subprocess
import sys
import tempfile
import unittest
from pathlib import Path
from typing import List

from support import ENVIRONMENT, needs_library

import replset.testing

FAILING = '''
import pytest

def test_passes(replset_set):
    assert replset_set.elect(0)

@pytest.mark.replset(nodes=1)
def test_fails(replset_set):
    replset_set.elect(0)
    written = replset_set.insert(0, "t", {"_id": 1})
    assert not replset_set.ack(0, written).refused
'''

#: What a write at w:1 promises, and what a failover does to it.
OUTBOX = '''
from hypothesis import settings
from hypothesis.stateful import invariant, rule
from replset import replies
from replset.testing.machine import NODE, FailoverMachine


class Outbox(FailoverMachine):
    picture = "outbox.html"

    def __init__(self):
        super().__init__()
        self.promised = []

    @rule(node=NODE)
    def order(self, node):
        written = self.set.insert(node, "orders", {"_id": len(self.set.lines())})
        self.set.flush(node)
        if not written.refused and not self.set.ack(node, written, CONCERN).refused:
            self.promised.append(written.optime)

    @invariant()
    def a_primary_of_a_later_term_has_it(self):
        primary = self.set.primary()
        if primary is None:
            return
        term = self.set.look(f"state n{primary}").term
        held = {entry.optime for entry in self.set.look(f"log n{primary}").items}
        assert all(at in held for at in self.promised if at.term < term)


TestOutbox = Outbox.TestCase
TestOutbox.settings = settings(max_examples=300, stateful_step_count=30, deadline=None, derandomize=True, database=None)
'''


def is_missing(name: str) -> bool:
    """Whether a package isn't installed."""
    return importlib.util.find_spec(name) is None


class Lazy(unittest.TestCase):
    """What isn't installed is told in a sentence."""

    def test_a_sentence(self) -> None:
        if not is_missing("hypothesis"):
            self.skipTest("Hypothesis is installed")
        with self.assertRaisesRegex(ImportError, "needs Hypothesis, which isn't installed here"):
            replset.testing.FailoverMachine
        with self.assertRaises(AttributeError):
            replset.testing.Other


@needs_library
class InTests(unittest.TestCase):
    """Tests of an application."""

    def setUp(self) -> None:
        """Makes a folder for them."""
        room = tempfile.TemporaryDirectory()
        self.addCleanup(room.cleanup)
        self.room = Path(room.name)

    def called(self, module: str, text: str, *words: str) -> "subprocess.CompletedProcess[str]":
        """How a module of Python ends on a file of tests."""
        name = self.room / "test_application.py"
        name.write_text(text)
        command: List[str] = [sys.executable, "-m", module, *words, name.stem if module == "unittest" else name.name]
        return subprocess.run(command, cwd=self.room, env=ENVIRONMENT, capture_output=True, text=True)

    @unittest.skipIf(is_missing("pytest"), "pytest isn't installed")
    def test_a_failing_test_tells_and_draws_its_run(self) -> None:
        done = self.called("pytest", FAILING, "-p", "replset.testing.plugin", "-p", "no:cacheprovider")
        self.assertIn("1 failed, 1 passed", done.stdout)
        self.assertIn("refused 15 Waiting 0 1", done.stdout)
        self.assertIn("verdicts: none", done.stdout)
        pictures = list((self.room / "replset-pictures").iterdir())
        self.assertEqual([picture.name for picture in pictures], ["test_application.py_test_fails.html"])

    @unittest.skipIf(is_missing("hypothesis"), "Hypothesis isn't installed")
    def test_a_machine_finds_and_shrinks_a_lost_write(self) -> None:
        done = self.called("unittest", OUTBOX.replace("CONCERN", "1"))
        said = done.stdout + done.stderr
        self.assertEqual(done.returncode, 1, said)
        self.assertIn("w1-lost", said)
        self.assertTrue((self.room / "outbox.html").exists())
        steps = [line for line in said.splitlines() if line.strip().startswith("state.")]
        self.assertLessEqual(len([step for step in steps if "a_primary_of" not in step and "teardown" not in step]), 6, said)
        short = said.split("the shortest script with the verdict w1-lost:\n")[1].split("picture:")[0].split("\n")
        self.assertLess(len(short), 16, said)

    @unittest.skipIf(is_missing("hypothesis"), "Hypothesis isn't installed")
    def test_at_majority_it_finds_none(self) -> None:
        done = self.called("unittest", OUTBOX.replace("CONCERN", '"majority"').replace("max_examples=300", "max_examples=100"))
        self.assertEqual(done.returncode, 0, done.stdout + done.stderr)


if __name__ == "__main__":
    unittest.main()
