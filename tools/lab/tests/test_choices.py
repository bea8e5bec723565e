"""What may be done next in a run."""
from __future__ import annotations

import unittest
from typing import List

import support  # noqa: F401
from lab.choices import choices


def lines_of(lines: List[str], about: str) -> List[str]:
    """The lines that are offered about something."""
    return [choice.line for choice in choices(lines) if choice.about == about]


class Choices(unittest.TestCase):
    def test_a_candidate_s_questions_are_on_the_way(self) -> None:
        self.assertEqual(
            lines_of(["set 3", "campaign n0"], "messages"),
            ["deliver n0 n1", "# lost: deliver m0", "deliver n0 n2", "# lost: deliver m1"],
        )

    def test_what_is_lost_or_delivered_is_offered_no_more(self) -> None:
        lines = ["set 3", "campaign n0", "# lost: deliver m0", "deliver n0 n2"]
        self.assertEqual(lines_of(lines, "messages"), ["deliver n2 n0", "# lost: deliver m2"])

    def test_an_older_message_is_offered_by_its_number(self) -> None:
        lines = ["set 2", "heartbeat n0 n1", "fetch n1", "campaign n0", "campaign n0"]
        offered = lines_of(lines, "messages")
        self.assertIn("deliver m0", offered)
        self.assertIn("deliver n0 n1", offered)

    def test_each_node_is_offered_what_fits_its_state(self) -> None:
        lines = ["set 1", "campaign n0"]
        self.assertIn("drain n0", lines_of(lines, "n0"))
        lines += ["drain n0", "insert n0 t {_id: 7}"]
        self.assertEqual(lines_of(lines, "n0")[0], "insert n0 t {_id: 8}")
        self.assertIn("flush n0", lines_of(lines, "n0"))
        self.assertEqual(lines_of([*lines, "crash n0"], "n0"), ["restart n0"])

    def test_a_partition_is_ended_where_one_is(self) -> None:
        self.assertIn("partition n0", lines_of(["set 3"], "set"))
        self.assertIn("heal", lines_of(["set 3", "# partition n0"], "set"))
        self.assertNotIn("heal", lines_of(["set 3", "# partition n0", "# heal"], "set"))


if __name__ == "__main__":
    unittest.main()
