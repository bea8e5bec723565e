"""Playing, expanding and testing scripts."""
from __future__ import annotations

import unittest

from support import COMMITTED, LabTest


class Run(LabTest):
    """`lab run`."""

    def test_replies_stand_beside_their_lines(self) -> None:
        told = self.told("run", self.file(["set 1", "campaign n0", "drain n0", "insert n0 t {_id: 1}", "dump n0 local"]))
        self.assertIn("2  campaign n0            won 1\n", told)
        self.assertIn("documents 1\n", told)
        self.assertTrue(told.split("\n\nwhat happened to the data:")[0].endswith("t {_id: 1}"))

    def test_state_shows_a_step_down_that_the_reply_hides(self) -> None:
        lines = [*COMMITTED, "partition n0 | n1 n2", "elect n1", "heal", "heartbeat n1 n0", "deliver n1 n0"]
        told = self.told("run", "--state", self.file(lines))
        self.assertIn("replied m", told)
        self.assertIn("· n0: Primary→Secondary, term 1→2, vote n0→none", told)

    def test_lines_without_end_and_with_carriage_returns(self) -> None:
        (self.room / "dos").write_bytes(b"set 1\r\n\r\n# x\r\ncampaign n0\r\ndrain n0")
        self.assertIn("primary 1 noop 1/0/1", self.told("run", "dos"))


class Expand(LabTest):
    """`lab expand`."""

    def test_a_plain_script_stays_as_it_is(self) -> None:
        lines = ["# a comment", "set 2", "", "campaign n0", "deliver m0", "ack n0 1/0/1 majority"]
        self.assertEqual(self.told("expand", self.file(lines)), "\n".join(lines) + "\n")

    def test_elect_and_pull(self) -> None:
        told = self.told("expand", self.file(["set 2", "elect n0", "insert n0 t {_id: 1}", "flush n0", "pull n1", "ack n0 last majority"]))
        self.assertEqual(told.splitlines(), [
            "set 2", "# elect n0", "campaign n0", "deliver n0 n1", "deliver n1 n0", "drain n0",
            "insert n0 t {_id: 1}", "flush n0", "# pull n1", "heartbeat n0 n1", "deliver n0 n1", "fetch n1",
            "deliver n1 n0",
            "deliver n0 n1", "flush n1", "apply n1", "report n1 n0", "deliver n1 n0", "heartbeat n0 n1",
            "deliver n0 n1",
            "ack n0 1/0/2 majority",
        ])

    def test_members_without_a_vote_take_the_log_and_are_not_asked(self) -> None:
        told = self.told("expand", self.file(["set 4 2 3", "elect n0", "insert n0 t {_id: 1}", "spread n0"]))
        elected, spread = told.split("# spread n0\n")
        self.assertEqual(elected.splitlines(), [
            "set 4 2 3", "# elect n0", "campaign n0", "deliver n0 n1", "deliver n1 n0", "drain n0",
            "insert n0 t {_id: 1}",
        ])
        self.assertIn("report n2 n0", spread)
        self.assertNotIn("n3", spread)

    def test_what_is_expanded_is_a_script_without_refusals(self) -> None:
        plain = self.told("expand", self.file([*COMMITTED, "partition n0 | n1 n2", "update n0 orders 1 {$set: {n: 1}}",
                                               "elect n1", "spread n1", "heal", "pull n0 n1", "await n1 last"]))
        told = self.told("run", self.file(plain.splitlines(), "plain"))
        self.assertNotIn("refused", told)
        self.assertIn("rolled back to 1/0/2 removed 1", told)
        self.assertEqual(self.told("expand", "plain"), plain)

    def test_last_is_the_newest_write_of_that_node(self) -> None:
        lines = [*COMMITTED, "partition n0 | n1 n2", "insert n0 orders {_id: 2}", "elect n1", "insert n1 orders {_id: 3}",
                 "ack n0 last 3", "ack n1 last 3"]
        plain = self.told("expand", self.file(lines)).splitlines()
        self.assertEqual(plain[-2:], ["ack n0 1/0/3 3", "ack n1 2/0/4 3"])

    def test_last_in_a_block(self) -> None:
        lines = [*COMMITTED, "par", "thread", "ack n0 last majority", "thread", "insert n0 orders {_id: 2}", "end"]
        self.assertIn("ack n0 1/0/2 majority\n", self.told("expand", self.file(lines)))

    def test_repeat_counts(self) -> None:
        told = self.told("expand", self.file(["set 1", "elect n0", "repeat 3 insert n0 t {_id: #}"]))
        self.assertTrue(told.endswith("insert n0 t {_id: 1}\ninsert n0 t {_id: 2}\ninsert n0 t {_id: 3}\n"))

    def test_a_partition_swallows_deliveries(self) -> None:
        lines = ["set 3", "elect n0", "partition n0", "heartbeat n0 n1", "deliver n0 n1", "deliver n1 n2"]
        told = self.told("expand", self.file(lines[:-1]))
        self.assertTrue(told.endswith("# lost in the partition: deliver n0 n1\n"))

    def test_macros_that_cannot_go_on_say_why(self) -> None:
        cases = [
            (["set 3", "crash n1", "crash n2", "elect n0"], "n0 isn't elected: n1 is down; n2 is down"),
            (["set 3", "partition n0", "elect n0"], "n0 isn't elected: n1 is cut off by the partition"),
            (["set 4 3", "elect n3"], "n3 isn't elected: its campaign is refused 19 NotElectable 1"),
            ([*COMMITTED, "insert n0 orders {_id: 2}", "pull n1", "crash n0", "elect n2"], "n1 refuses, OlderLog"),
            ([*COMMITTED, "crash n1", "crash n2", "insert n0 orders {_id: 2}", "await n0 last"], "refused 15 Waiting 1 2"),
            (["set 3", "pull n1"], "n1 hears no primary"),
            (["set 3", "elect n0", "crash n0", "spread n0"], "n0 is down"),
            (["set 3", "elect n0", "crash n0", "await n0 1/0/1"], "n0 is down"),
            (["set 3", "elect n0", "crash n1", "pull n1"], "n1 doesn't hear n0: refused 1 NodeDown"),
            (["set 3", "pull n1 n9"], "the nodes are n0 to n2"),
            (["set 3", "elect"], "the macro reads 'elect A [B ..]'"),
            ([*COMMITTED, "partition n0 | n1 n2", "elect n1", "heal", "pull n1 n0"], "which is in an older term"),
            ([*COMMITTED, "insert n0 orders {_id: 2}", "heartbeat n0 n2", "deliver n0 n2", "pull n1", "crash n0", "elect n1",
              "pull n2 n1"], "n2 asks n0, the lowest number that it knows to go further, which is down"),
        ]
        for lines, why in cases:
            with self.subTest(lines[-1], why=why):
                done = self.lab("expand", self.file(lines))
                self.assertEqual(done.returncode, 7)
                self.assertIn(f"lab: line {len(lines)}: ", done.stderr)
                self.assertIn(why, done.stderr)

    def test_a_macro_that_cannot_go_on_shows_what_it_did(self) -> None:
        for word in ("run", "expand", "verdict", "vary"):
            done = self.lab(word, self.file(["set 3", "", "crash n1", "crash n2", "elect n0"]))
            self.assertEqual((done.returncode, done.stderr), (7, "lab: line 5: n0 isn't elected: n1 is down; n2 is down\n"))
            self.assertEqual(done.stdout.splitlines()[-2:], ["5  5  # elect n0", "5  6  campaign n0   candidate 1 sent m0 2"])
        done = self.lab("test", self.file(["set 1", "elect n0", "elect n0"]))
        self.assertEqual(done.returncode, 1)
        self.assertIn("campaign n0   refused 19 NotElectable 2", done.stdout)

    def test_a_partition_holds_for_numbered_messages(self) -> None:
        lines = ["set 3", "elect n0", "heartbeat n0 n1", "heartbeat n1 n2", "partition n0 | n1 n2", "deliver m3", "deliver m4", "heal",
                 "deliver m3"]
        plain = self.told("expand", self.file(lines)).splitlines()
        self.assertEqual(plain[-5:], ["# partition n0 | n1 n2", "# lost in the partition: deliver m3", "deliver m4", "# heal", "deliver m3"])

    def test_numbers_are_those_of_the_file(self) -> None:
        lines = ["# first", "set 3", "elect n0", "insert n0 t {_id: 1}", "ack n0 last 77"]
        for word in ("run", "expand", "test", "vary", "picture"):
            done = self.lab(word, self.file(lines))
            wanted = "line 5 (9) is at fault: BadNumber, where it reads 'ack n0 1/0/2 77'"
            self.assertIn(wanted, done.stdout if word == "test" else done.stderr)
        self.assertIn("\n4  8  insert n0 t {_id: 1}", self.told("run", self.file(lines[:4])))
        self.assertIn("line 4 is at fault: OpenPar", self.lab("run", self.file(["set 3", "par", "thread"])).stderr)
        self.assertIn("line 5 (9) is at fault: OpenPar", self.lab("run", self.file(["set 3", "elect n0", "par", "thread"])).stderr)


class Test(LabTest):
    """`lab test`."""

    def test_what_is_met_and_what_is_not(self) -> None:
        lines = [*COMMITTED, "ack n0 last majority", "# expect: acked", "dump n1 local", "# expect: documents 1",
                 "# expect: orders {_id: 1, ..", "read n0 local orders 2", "# expect: found"]
        done = self.lab("test", self.file(lines))
        self.assertEqual(done.returncode, 1)
        self.assertEqual(done.stdout.splitlines()[1:], ["  line 11 (38), after read n0 local orders 2", "  - found", "  + missing"])
        self.assertIn("as expected", self.told("test", self.file(lines[:-2])))

    def test_a_word_is_met_whole(self) -> None:
        lines = [*COMMITTED, "ack n0 last majority", "# expect: ack", "state n0", "# expect: state Primary term 1 .. rollback 0"]
        self.assertEqual(self.lab("test", self.file(lines)).stdout.count("  - "), 1)

    def test_a_kept_transcript(self) -> None:
        name = self.file(["set 1", "campaign n0"])
        self.file(["2: won 1"], "script.out")
        self.told("test", name)
        self.file(["2: won 2"], "script.out")
        done = self.lab("test", name)
        self.assertEqual(done.returncode, 1)
        self.assertIn("-2: won 2\n+2: won 1", done.stdout)


if __name__ == "__main__":
    unittest.main()
