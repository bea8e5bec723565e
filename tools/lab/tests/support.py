"""What the tests share: how the lab is called, and scripts."""
from __future__ import annotations

import os
import subprocess
import sys
import tempfile
import unittest
from pathlib import Path
from typing import Dict, List, Optional

TOP = Path(__file__).resolve().parents[3]
LAB = TOP / "lab"

if str(TOP / "tools") not in sys.path:
    sys.path.insert(0, str(TOP / "tools"))

from lab.program import find_program  # noqa: E402

#: A primary with one write that is on all three nodes.
COMMITTED = ["set 3", "elect n0", "insert n0 orders {_id: 1, n: 0}", "spread n0"]


def script_by_chance(nodes: int, count: int, seed: int = 5) -> List[str]:
    """A script of some length, from a generator of its own."""
    state = seed

    def draw(below: int) -> int:
        nonlocal state
        state = (state * 6364136223846793005 + 1442695040888963407) % 2**64
        return (state >> 33) % below

    lines = [f"set {nodes}"]
    while len(lines) < count:
        kind, one = draw(12), draw(nodes)
        other = (one + 1 + draw(nodes - 1)) % nodes
        if kind < 4:
            lines.append(f"insert n{one} t {{_id: {len(lines)}, n: 0}}")
        elif kind < 7:
            lines += [f"heartbeat n{other} n{one}", f"deliver n{other} n{one}", f"fetch n{one}", f"deliver n{one} n{other}"]
            lines += [f"deliver n{other} n{one}", f"flush n{one}", f"apply n{one}", f"report n{one} n{other}", f"deliver n{one} n{other}"]
        elif kind == 7:
            lines.append(f"campaign n{one}")
            for voter in range(nodes):
                lines += [] if voter == one else [f"deliver n{one} n{voter}", f"deliver n{voter} n{one}"]
            lines += [f"drain n{one}", f"flush n{one}"]
        elif kind == 8:
            lines += [f"common n{one} n{other}", f"deliver n{one} n{other}", f"deliver n{other} n{one}"]
        elif kind == 9:
            lines += [f"crash n{one}", f"restart n{one}"]
        elif kind == 10:
            lines.append(f"deliver m{draw(400)}")
        else:
            lines.append(f"checkpoint n{one}")
    return lines[:count]


class LabTest(unittest.TestCase):
    """A test that calls the lab in a folder of its own."""

    def setUp(self) -> None:
        """Makes the folder."""
        room = tempfile.TemporaryDirectory()
        self.addCleanup(room.cleanup)
        self.room = Path(room.name)
        self.environment = {**os.environ, "REPLSET": find_program(), "HOME": room.name}

    def lab(self, *words: str, typed: str = "", environment: Optional[Dict[str, str]] = None) -> "subprocess.CompletedProcess[str]":
        """How the lab ends on these words."""
        done = subprocess.run(
            [sys.executable, str(LAB), *words], input=typed, capture_output=True, text=True, cwd=self.room,
            env={**self.environment, **(environment or {})}, timeout=120, encoding="utf-8",
        )
        self.assertNotIn("Traceback", done.stderr)
        return done

    def told(self, *words: str, typed: str = "") -> str:
        """What the lab prints on these words, which must be fine."""
        done = self.lab(*words, typed=typed)
        self.assertEqual(done.returncode, 0, done.stderr + done.stdout)
        return done.stdout

    def file(self, lines: List[str], name: str = "script.replset") -> str:
        """A file with these lines."""
        (self.room / name).write_text("\n".join(lines) + "\n", encoding="utf-8")
        return name
