"""Shrinking, varying, and what chance brings."""
from __future__ import annotations

import subprocess
import unittest

from support import COMMITTED, TOP, LabTest, script_by_chance

from lab.chance import script_of_seed
from lab.errors import LabError
from lab.program import find_program, play
from lab.smaller import named_by_nodes, smallest
from lab.workers import in_order


class Shrink(LabTest):
    """`lab shrink`."""

    def test_no_line_of_what_is_left_can_go(self) -> None:
        done = self.lab("shrink", self.file(script_by_chance(3, 1500)), "--keep", "rolled back", "-j", "2")
        lines = done.stdout.splitlines()
        self.assertEqual(done.returncode, 0, done.stderr)
        self.assertLess(len(lines), 20)
        for place in range(1, len(lines)):
            told = self.lab("run", self.file(lines[:place] + lines[place + 1 :]))
            self.assertNotIn("rolled back", told.stdout, lines[place])

    def test_what_a_test_needs_stays(self) -> None:
        lines = ["set 1", *(f"line {number}" for number in range(200))]
        needed = {"line 3", "line 77", "line 78", "line 199"}
        for jobs in (1, 3):
            kept = smallest(lines, lambda tried: tried[0] == "set 1" and needed <= set(tried), jobs, lambda left: None)
            self.assertEqual(kept, ["set 1", "line 3", "line 77", "line 78", "line 199"])

    def test_deliveries_by_number_are_named_where_that_is_the_same(self) -> None:
        lines = ["set 3", "campaign n0", "deliver m1", "campaign n1", "deliver m0", "campaign n0", "deliver m0"]
        named = named_by_nodes(lines)
        self.assertEqual(named[2], "deliver n0 n2")
        self.assertEqual(named[4], "deliver n0 n1")
        self.assertEqual(named[6], "deliver m0")

    def test_a_command_decides(self) -> None:
        name = self.file([*COMMITTED, "insert n0 orders {_id: 2}"])
        done = self.lab("shrink", name, "--check", '"$REPLSET" run | grep -q "written 1/0/3"', "-j", "2")
        self.assertEqual(len(done.stdout.splitlines()), 7)

    def test_nothing_to_keep(self) -> None:
        done = self.lab("shrink", self.file(COMMITTED), "--keep", "rolled back")
        self.assertEqual((done.returncode, done.stdout), (8, ""))


class Vary(LabTest):
    """`lab vary`."""

    def test_what_makes_a_difference(self) -> None:
        name = self.file(["set 2", "elect n0", "insert n0 t {_id: 1}", "await n0 last"])
        done = self.lab("vary", name, "--watch", "^acked", "-j", "2", "--all")
        self.assertEqual(done.returncode, 1)
        self.assertIn("acked 1/0/2 → refused 15 Waiting 1 2", done.stdout)
        self.assertIn("deliver n1 n0: lost", done.stdout)

    def test_what_makes_none(self) -> None:
        name = self.file(["set 2", "elect n0", "heartbeat n0 n1", "deliver n0 n1"])
        done = self.lab("vary", name, "--only", "repeat", "-j", "2")
        self.assertEqual((done.returncode, done.stdout), (
            0, "3 variations, of which 3 change nothing that is watched\n\nverdicts:\n  no-primary          1 variations\n"
        ))

    def test_a_limit(self) -> None:
        done = self.lab("vary", self.file(script_by_chance(3, 300)), "--limit", "7", "-j", "2")
        self.assertTrue(done.stdout.startswith("7 variations, "), done.stdout + done.stderr)


    def test_two_faults(self) -> None:
        # The write survives each single loss of a heartbeat, and no two of them.
        lines = ["set 2", "elect n0", "insert n0 t {_id: 1}", "flush n0", *["heartbeat n0 n1", "deliver n0 n1"] * 2,
                 "fetch n1", "deliver n1 n0", "deliver n0 n1", "flush n1", "report n1 n0", "deliver n1 n0", "ack n0 last majority"]
        name = self.file(lines)
        one = self.lab("vary", name, "--only", "drop", "--watch", "^acked", "-j", "2", "--all").stdout
        two = self.lab("vary", name, "--only", "drop", "--watch", "^acked", "-j", "2", "--all", "--faults", "2").stdout
        self.assertIn("7 variations, of which 2 change nothing that is watched", one)
        self.assertIn("28 variations, of which 2 change nothing that is watched", two)
        pair = [line for line in two.splitlines() if line.count("deliver n0 n1: lost") == 2 and "line 6" in line and "line 8" in line]
        self.assertEqual(len(pair), 1, two)
        number = pair[0].split("#")[1].split(" ")[0]
        self.told("vary", name, "--only", "drop", "--faults", "2", "--save", number, "kept.replset")
        self.assertIn("fetch n1      refused 18 NoSource", self.told("run", "kept.replset").replace("                ", "      "))

    def test_orders(self) -> None:
        name = self.file(["set 1", "elect n0", "insert n0 t {_id: 1}", "delete n0 t 1", "insert n0 t {_id: 2}"])
        done = self.lab("vary", name, "--orders", "3,4,5", "--watch", "^(insert|delete)", "-j", "2", "--all")
        self.assertIn("5 variations, of which 0 change nothing", done.stdout)
        self.assertIn("in the order of lines 4, 3, 5", done.stdout)
        self.assertIn("n0 ends with t {_id: 1}; t {_id: 2}, and not t {_id: 2}", done.stdout)
        for words in (["1,2"], ["3"], ["2,3,4,5,6,7,8,9,10"]):
            self.assertEqual(self.lab("vary", name, "--orders", *words).returncode, 2)

    def test_a_macro_is_moved_whole(self) -> None:
        name = self.file(["set 1", "elect n0", "insert n0 t {_id: 1}"])
        done = self.lab("vary", name, "--orders", "2,3", "--watch", "^insert", "-j", "1")
        self.assertIn("insert n0 t {_id: 1}: written 1/0/2 → refused 2 NotPrimary", done.stdout)

    def test_a_block_is_not_blamed_for_its_order(self) -> None:
        block = ["par", "thread", "insert n0 t {_id: 1}", "insert n0 t {_id: 2}", "thread", "insert n0 t {_id: 3}", "insert n0 t {_id: 4}", "end"]
        name = self.file(["set 2", "elect n0", *block, "heartbeat n1 n0", "deliver n1 n0"])
        for _ in range(3):
            # Where the voter is asked twice the candidate hears that it has voted, and isn't elected.
            done = self.lab("vary", name, "--only", "repeat", "--watch", "written", "-j", "2")
            self.assertEqual(done.stdout.splitlines()[0], "3 variations, of which 2 change nothing that is watched")

    def test_refusals_of_a_crashed_node_are_one_outcome(self) -> None:
        name = self.file(["set 2", "elect n0", "state n1", "log n1", "rolled n1"])
        done = self.lab("vary", name, "--only", "crash", "--watch", "n1$", "-j", "2")
        self.assertIn("of them: a node that is down refuses lines that are watched\n", done.stdout)
        self.assertEqual(done.stdout.count("refuses lines"), 1)

    def test_what_works_side_by_side(self) -> None:
        square = [(number, number * number) for number in range(100)]
        for jobs in (1, 3):
            self.assertEqual(list(in_order(lambda number: number * number, range(100), jobs)), square)

        def fails(number: int) -> int:
            raise LabError(6, "no")

        with self.assertRaises(LabError) as caught:
            list(in_order(fails, range(100), 2))
        self.assertEqual((caught.exception.status, caught.exception.sentence), (6, "no"))


class Chance(LabTest):
    """`lab sweep` and `lab seed`."""

    def test_a_sweep(self) -> None:
        told = self.told("sweep", "--seeds", "1-20", "--events", "100", "--nodes", "3", "-j", "2")
        self.assertTrue(told.startswith("20 seeds, 100 events each in a set of 3\n"))
        self.assertEqual(told, self.told("sweep", "--seeds", "1-20", "--events", "100", "--nodes", "3", "-j", "1"))

    def test_parts_come_to_the_whole(self) -> None:
        words = ["--events", "60", "--nodes", "3", "-j", "2"]
        whole = self.told("sweep", "--seeds", "1-30", *words)
        parts = [f"part-{part}" for part in range(1, 8)]
        for part, name in enumerate(parts, 1):
            (self.room / name).write_text(self.told("sweep", "--seeds", "1-30", *words, "--part", f"{part}/7"))
        self.assertEqual(self.told("sweep", "--join", *reversed(parts)), whole)
        (self.room / "other").write_text(self.told("sweep", "--seeds", "1-2", "--events", "61", "--part", "1/1"))
        self.assertEqual(self.lab("sweep", "--join", "other", "part-1").returncode, 2)
        self.assertEqual(self.lab("sweep", "--join", self.file(["hello"])).returncode, 4)

    def test_the_generator_is_that_of_chaos(self) -> None:
        for seed, events, nodes in [(1, 60, 1), (2, 60, 2), (3, 60, 7), (2**64 - 1, 60, 3)]:
            said = subprocess.run([find_program(), "chaos", str(seed), str(events), str(nodes)], capture_output=True, text=True).stdout
            lines = script_of_seed(seed, events, nodes)
            replies = play(lines).replies
            self.assertEqual(said.split("\n")[0], f"events {len(replies)}")
            self.assertEqual(said.split("\n")[4], f"refused {sum(reply.refused for reply in replies)}")

    def test_a_seed_gives_the_script_that_chaos_plays(self) -> None:
        crate = TOP / "crates" / "seed_script"
        words = (crate / "args").read_text().split()
        done = self.lab("seed", *words)
        if done.returncode == 5:
            self.skipTest("seed_script isn't built")
        self.assertEqual(done.stdout, (crate / "stdout").read_text())
        self.assertEqual(self.lab("seed", "1", "2", "51").returncode, 2)
        self.assertEqual(self.lab("seed", "1", "1001", "50").returncode, 2)


if __name__ == "__main__":
    unittest.main()
