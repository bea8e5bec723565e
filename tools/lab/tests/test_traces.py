"""`lab check`: traces that are none, and why."""
from __future__ import annotations

import subprocess
import unittest
from typing import List

from support import TOP, LabTest

from lab.program import find_program


class Check(LabTest):
    """`lab check`."""

    def trace(self, example: str) -> List[str]:
        """The trace of an example script."""
        script = (TOP / "examples" / f"{example}.replset").read_bytes()
        done = subprocess.run([find_program(), "trace"], input=script, stdout=subprocess.PIPE, check=True)
        return done.stdout.decode().splitlines()

    def judged(self, lines: List[str], end: str = "\n") -> str:
        """What is told of a trace that is none."""
        (self.room / "trace").write_bytes("".join(line + end for line in lines).encode())
        done = self.lab("check", "trace")
        self.assertEqual(done.returncode, 1, done.stdout)
        return done.stdout

    def test_a_trace(self) -> None:
        name = self.file(self.trace("acknowledged"))
        self.assertEqual(self.told("check", name), "yes 16: it is the trace of a run\n")
        self.assertEqual(self.told("explain", name), "yes 16: it is the trace of a run\n")

    def test_another_reply_is_shown_beside_that_of_the_run(self) -> None:
        lines = ["counted commit 1/0/1".join(line.split("counted commit 1/0/2")) for line in self.trace("acknowledged")]
        told = self.judged(lines).splitlines()
        self.assertEqual(told[2], "  the trace says  16: counted commit 1/0/1")
        self.assertEqual(told[3], "  the run says    16: counted commit 1/0/2")
        self.assertEqual(told[4].index("^"), told[3].rindex("2"))

    def test_a_missing_step_is_found(self) -> None:
        lines = self.trace("acknowledged")
        for gone, line, step in [("flush n0", 12, "'flush n0'"), ("report n1 n0", 28, "'report n1 n0' and 'deliver n1 n0'")]:
            place = next(place for place, text in enumerate(lines) if text.endswith(gone))
            told = self.judged(lines[:place] + lines[place + 2 :])
            self.assertIn(f"a step may be missing before line {line}: after {step} the run says so", told)
        self.assertIn("messages have other numbers from here on", self.judged(["trace 2 2 2", "event 3 - 0 heartbeat n1 n0", "3: sent m1"]))

    def test_a_later_line_of_a_reply(self) -> None:
        lines = self.trace("rollback")
        place = next(place for place, line in enumerate(lines) if line.startswith("  "))
        told = self.judged([*lines[:place], "  x", *lines[place + 1 :]])
        self.assertIn("  the trace says    x\n", told)
        self.assertIn(f"  the run says    {lines[place]}\n", told)

    def test_a_store_that_failed(self) -> None:
        for example in ("flush_kept", "flush_lost", "vote_kept", "torn_checkpoint"):
            lines = self.trace(example)
            place = next(place for place, line in enumerate(lines) if "diskfail" in line)
            lines = lines[:place] + lines[place + 2 :]
            self.assertEqual(self.lab("check", self.file(lines)).returncode, 0)
            place = max(place for place, line in enumerate(lines) if line[0].isdigit())
            told = self.judged([*lines[:place], lines[place] + "7", *lines[place + 1 :]])
            self.assertIn(f"  the run says    {lines[place]}\n", told)

    def test_what_nobody_sees(self) -> None:
        lines = self.trace("first")
        self.assertIn("CRLF", self.judged(lines, "\r\n"))
        self.assertIn("the line ends with a space", self.judged([*lines[:2], lines[2] + " ", *lines[3:]]))
        self.assertIn("byte order mark", self.judged(["\ufeff" + lines[0], *lines[1:]]))
        self.assertIn("no empty lines", self.judged([*lines[:3], "", *lines[3:]]))

    def test_an_event_that_is_none(self) -> None:
        lines = ["{_id: 1.5}".join(line.split("{_id: 1}")) for line in self.trace("first")]
        told = self.judged(lines).splitlines()
        self.assertIn("there are no doubles", told[3])
        self.assertEqual(told[2].index("^"), told[1].index("1.5") + 1)
        self.assertIn("reads 'event LINE FAILED KEPT COMMAND'", self.judged([*self.trace("first")[:3], "even 3"]))


if __name__ == "__main__":
    unittest.main()
