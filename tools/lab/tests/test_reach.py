"""The macros that ask, and the one that lets time pass."""
from __future__ import annotations

import subprocess
import unittest
from typing import List

from support import COMMITTED, LabTest, script_by_chance

from lab.asking import TOLD
from lab.expand import expand
from lab.program import find_program, play
from lab.telling import names_of

PARTED = [*COMMITTED, "partition n0 | n1 n2", "update n0 orders 1 {$set: {n: 1}}", "elect n1", "insert n1 orders {_id: 2}"]


def asked_after(words: List[str], lines: List[str]) -> List[str]:
    """What a word of the program tells after a script's transcript."""
    def put(words: List[str]) -> str:
        return subprocess.run([find_program(), *words], input="\n".join(lines) + "\n", stdout=subprocess.PIPE, text=True).stdout

    return put(words)[len(put(["run"])) :].splitlines()


def told(lines: List[str]) -> List[str]:
    """What the last macro of a short script tells."""
    return [line[len(TOLD) :] for line in expand(lines).lines[len(expand(lines[:-1]).lines) :] if line.startswith(TOLD)]


class AsAfterAScript(unittest.TestCase):
    """At the end of a script the macros tell what the words of the program do."""

    def test_scripts_by_chance(self) -> None:
        ends = set()
        for seed in range(12):
            lines = script_by_chance(3, 120, seed)
            for words in (["linear", f"n{seed % 3}", "t", str(seed + 4)], ["watch", "t", "start", "n0", "n2"], ["watch", "t", "0" * 31 + "5", "n1"],
                          ["sync", f"n{seed % 3}"], ["watch", "t", "start", "n7"], ["sync", "n4"]):
                with self.subTest(seed=seed, words=words):
                    wanted = asked_after(words, lines)
                    self.assertEqual(told([*lines, " ".join(words)]), wanted)
                    ends.add(" ".join(wanted[-1].split(" ")[:3]) if "refused" in wanted[-1] else wanted[-1].split(" ")[0])
        self.assertLessEqual({"resume", "watch refused 3", "sync refused 1", "linear refused 2"}, ends)

    def test_each_kind_of_change(self) -> None:
        lines = ["set 1", "campaign n0", "drain n0", 'insert n0 t {_id: "a b", n: 1}', 'update n0 t "a b" {$set: {n: 2}}',
                 'replace n0 t "a b" {m: 1}', 'delete n0 t "a b"', "insert n0 u {_id: 1}", "note n0", "flush n0"]
        for words in (["watch", "t", "start", "n0"], ["linear", "n0", "u", "1"], ["sync", "n0"]):
            self.assertEqual(told([*lines, " ".join(words)]), asked_after(words, lines))

    def test_an_example(self) -> None:
        lines = expand([*COMMITTED, "crash n1"]).lines
        self.assertEqual(told([*lines, "linear n0 orders 1"]), ["linear found {_id: 1, n: 0}"])
        self.assertEqual(asked_after(["linear", "n0", "orders", "1"], lines), ["linear found {_id: 1, n: 0}"])


class InAScript(LabTest):
    """The macros at any place."""

    def test_a_linear_read_under_a_partition(self) -> None:
        self.assertEqual(told([*PARTED, "linear n0 orders 1"]), ["linear refused 15 Waiting 1 2"])
        self.assertEqual(told([*PARTED, "linear n1 orders 1"]), ["linear found {_id: 1, n: 0}"])
        self.assertEqual(told([*PARTED, "linear n2 orders 1"]), ["linear refused 2 NotPrimary"])
        self.assertEqual(told([*PARTED, "crash n2", "linear n2 orders 1"]), ["linear refused 1 NodeDown"])

    def test_a_stream_goes_on_by_its_name(self) -> None:
        lines = [*PARTED, "watch orders tail n0", "await n1 last"]
        self.assertEqual(told(lines[:-1])[0], "change 00000000000000010000000000000002 insert orders {_id: 1, n: 0}")
        self.assertEqual(told([*lines, "watch orders tail n1"])[:-1], ["change 00000000000000020000000000000004 insert orders {_id: 2}"])
        self.assertEqual(told([*lines, "watch orders tail n1", "watch orders tail n1"]), ["resume 00000000000000020000000000000004"])
        self.assertEqual(len(told([*lines, "watch orders other n1"])), 3)

    def test_it_is_expected(self) -> None:
        lines = [*COMMITTED, "linear n0 orders 1", "# expect: linear found {_id: 1, n: 0}", "watch orders start n0",
                 "# expect: change .. insert orders {_id: 1, n: 0}", "# expect: resume", "dump n0 local", "# expect: documents 1"]
        self.assertIn("as expected", self.told("test", self.file(lines)))
        lines[5] = "# expect: linear found {_id: 1, n: 1}"
        self.assertEqual(self.lab("test", self.file(lines)).returncode, 1)

    def test_the_status(self) -> None:
        rows = told([*PARTED, "status"])
        self.assertEqual(rows[0].split(), ["node", "role", "term", "last", "durable", "applied", "commit", "config", "lag"])
        self.assertTrue(rows[1].startswith("n0    Primary    1"))
        self.assertTrue(rows[1].endswith("parted by 1"))

    def test_repeat_takes_macros(self) -> None:
        plain = expand(["set 2", "elect n0", "repeat 2 insert n0 t {_id: #}", "repeat 2 pull n1", "repeat 2 ack n0 last majority"]).lines
        self.assertEqual(plain.count("# pull n1"), 2)
        self.assertEqual(plain[-2:], ["ack n0 1/0/3 majority"] * 2)
        self.assertEqual(self.lab("expand", self.file(["set 2", "repeat 2 repeat 2 flush n0"])).returncode, 7)

    def test_wrong_words(self) -> None:
        for line in ("linear n0 orders", "linear n9 orders 1", "watch orders start", "watch orders - n0", "sync", "status n0", "tick 5", "tick 0 1"):
            with self.subTest(line):
                self.assertEqual(self.lab("run", self.file([*COMMITTED, line])).returncode, 7)

    def test_in_the_shell(self) -> None:
        typed = ["elect n0", "insert n0 t {_id: 1}", "await n0 last", "watch t tail n0", "undo", "watch t tail n0", "linear n0 t 1", "tick 5 1"]
        said = self.told("shell", typed="\n".join(typed) + "\n")
        self.assertEqual(said.count("  change 00000000000000010000000000000002 insert t {_id: 1}\n"), 2)
        self.assertIn("  linear found {_id: 1}\n", said)


class Tick(unittest.TestCase):
    """`tick`."""

    def test_a_set_that_is_left_to_itself(self) -> None:
        for seed in range(4):
            lines = expand(["set 3", f"tick 60 {seed}"]).lines
            self.assertEqual(lines, expand(["set 3", f"tick 60 {seed}"]).lines)
            replies = [reply.text for reply in play(lines).replies]
            self.assertTrue(any(text.startswith("primary 1") for text in replies))
            self.assertFalse(any(text.startswith("primary 2") for text in replies), "a set without faults keeps its primary")
            self.assertEqual(names_of(lines), [])

    def test_it_gets_over_a_crash(self) -> None:
        lines = [*COMMITTED, "crash n0", "tick 40 3", "restart n0", "tick 60 4", "status"]
        rows = told(lines)
        self.assertEqual([row.split()[1] for row in rows[1:]].count("Primary"), 1)
        self.assertEqual(len({row.split()[3] for row in rows[1:]}), 1, rows)


if __name__ == "__main__":
    unittest.main()
