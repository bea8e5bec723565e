"""Runs that go on from where they part from others, against runs that are played from their beginning."""
from __future__ import annotations

import os
import random
import re
import unittest
from itertools import islice
from typing import List, Sequence, Tuple

from support import COMMITTED, LabTest
from test_inside import Inside, by, random_script
from test_verdicts import read_and_written

from lab.branches import Runs
from lab.errors import LabError
from lab.expand import expand
from lab.library import find_library
from lab.outcomes import Outcome, Watch
from lab.program import play
from lab.script import set_size
from lab.variations import KINDS, Token, faults, orders
from lab.verdicts import Verdict

#: So many random scripts are varied.
SCRIPTS = int(os.environ.get("LAB_SCRIPTS", "20"))

Order = List[Token]


def some_orders(lines: Sequence[str], dice: random.Random) -> List[Order]:
    """Variations by two faults: some that follow one another, and some from anywhere, in any order."""
    found = [one.order(len(lines)) for one in islice(faults(lines, set_size(lines), KINDS, 2), 4000)]
    begins = dice.randrange(len(found))
    return found[begins : begins + 12] + [dice.choice(found) for _ in range(6)]


def compared(outcome: Outcome) -> Outcome:
    """All that is compared."""
    return outcome


def judged(found: Sequence[Verdict]) -> List[Tuple[str, str]]:
    """Verdicts without their lines, whose numbers aren't those of the run."""
    return [(one.name, one.told) for one in found]


@unittest.skipIf(find_library() is None, "no library is built (tools/build_library build/libreplset.so builds one)")
class SameAsFromTheBeginning(LabTest):
    """Runs over stages, and each by itself."""

    def check(self, lines: Sequence[str], runs: Sequence[Order], watch: str, name: object) -> None:
        """Plays all runs both ways."""
        for watched, judge in ((re.compile(watch), judged), (re.compile(watch), None), (None, judged)):
            seen = None if watched is None else Watch(watched, frozenset({3, 5}))
            path, apart = Runs(lines, seen, compared, judge), Runs(lines, seen, compared, judge)
            self.assertTrue(path.has_stages(), name)
            for place, (end, run) in enumerate(zip(path.ends(runs), runs)):
                self.assertEqual(end, apart.apart(run), (name, place, run))

    def test_random_scripts(self) -> None:
        for seed in range(SCRIPTS):
            dice = random.Random(f"branches {seed}")
            with by(find_library()):
                lines = random_script(dice) if seed % 2 else read_and_written(lambda sizes: Inside("", sizes), dice, 0)[0]
                try:
                    play(lines)
                except LabError:
                    continue
                self.check(lines, some_orders(lines, dice), dice.choice(["(?!)", "acked|took", "written|documents", "n1"]), seed)

    def test_orders_of_lines(self) -> None:
        """Also over reads that nobody was shown, as those of a linearizable read that is refused."""
        script = expand([*COMMITTED, "partition n0 | n1 n2", "elect n1", "update n1 orders 1 {$set: {n: 1}}", "linear n0 orders 1", "crash n2"])
        with by(find_library()):
            runs = [one.order(len(script.lines)) for one in orders(script, [3, 4, 6, 8, 9])]
            self.check(script.lines, runs, "found", "orders")
            self.check(script.lines, some_orders(script.lines, random.Random(1)), "found", "faults")

    def test_messages_by_their_numbers(self) -> None:
        """Another node than the receiver has written in between."""
        lines = ["set 3", "campaign n2", "deliver m0", "deliver m2", "drain n2", "insert n2 t {_id: 1}", "heartbeat n2 n0", "deliver m3", "fetch n0",
                 "deliver m5", "insert n2 t {_id: 2}", "deliver m6", "flush n2", "ack n2 1/0/2 1", "insert n2 t {_id: 3}", "crash n2", "campaign n0", "deliver m7",
                 "deliver m9", "drain n0", "read n0 local t 2", "restart n2"]
        with by(find_library()):
            runs = [one.order(len(lines)) for one in faults(lines, set_size(lines), KINDS, 1)]
            self.check(lines, runs, "acked", "numbers")


if __name__ == "__main__":
    unittest.main()
