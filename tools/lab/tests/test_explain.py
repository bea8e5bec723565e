"""What `lab explain` says, and that it is what the page says."""
from __future__ import annotations

import re
import unittest

from support import TOP, LabTest

from lab.diagnose import cause_of
from lab.notation import fault_of
from lab.reference import find, read_reference


class Page(unittest.TestCase):
    """The entries of docs/REFERENCE.md."""

    def test_each_entry_is_found_by_its_name(self) -> None:
        entries = read_reference()
        self.assertGreater(len(entries), 100)
        for entry in entries:
            with self.subTest(entry.name):
                self.assertNotEqual(entry.meaning, "")
                self.assertIn(entry, [found for found, _ in find(entries, entry.words[-1 if entry.words[0].isdecimal() else 0])] + [
                    found for found, _ in find(entries, entry.name)
                ])

    def test_each_refusal_and_reason_of_the_examples_is_explained(self) -> None:
        entries = read_reference()
        for kept in sorted((TOP / "examples").glob("*.out")):
            for reply in re.findall(r"^\d+: (.*)", kept.read_text(encoding="utf-8"), re.M):
                with self.subTest(reply):
                    self.assertTrue(find(entries, reply), reply)


class Words(LabTest):
    """Words and replies."""

    def test_values_are_told(self) -> None:
        told = self.told("explain", "12: refused 15 Waiting 1 2")
        self.assertIn("15 Waiting HELD NEEDED   (refusal)", told)
        self.assertIn("Here HELD is 1, NEEDED is 2.", told)
        self.assertIn("What to do:", told)

    def test_a_rule_is_told_with_its_refusal(self) -> None:
        self.assertIn("BadUpdate 3   (rule)", self.told("explain", "refused", "10", "BadUpdate", "3"))

    def test_each_name_that_is_printed(self) -> None:
        for name in ("NoFit", "OtherReply", "BadHeader", "optime", "hole", "linear", "watch", "sync", "check", "chaos", "elect", "await",
                     "last", "repeat", "w1-lost", "no-primary", "NothingCommitted", "UnknownToken",
                     "linear refused 17 NoSuchNode",
                     "watch refused 2 NodeDown", "commit point", "OpenPar", "acked", "insert"):
            with self.subTest(name):
                self.assertIn(name.split(" ")[-1], self.told("explain", name))

    def test_several_at_once(self) -> None:
        told = self.told("explain", "hole", "NoSource", self.file(["set 1", "campaign n1"]))
        self.assertIn("hole   (term)", told)
        self.assertIn("18 NoSource   (refusal)", told)
        self.assertIn("the set has 1 nodes, n0 to n0", told)

    def test_a_primary_whose_own_copy_is_not_durable(self) -> None:
        self.assertIn("the primary's own copy, which isn't on disk yet", self.told("explain", "refused 15 Waiting 2 2"))
        self.assertNotIn("So enough others", self.told("explain", "refused 15 Waiting 1 2"))

    def test_an_unknown_word(self) -> None:
        self.assertIn("is it elect", self.lab("explain", "elct").stderr)
        done = self.lab("explain", "NoSorce")
        self.assertEqual(done.returncode, 8)
        self.assertIn("is it NoSource", done.stderr)


class Faults(LabTest):
    """Scripts that are none."""

    def test_the_place_and_the_likely_cause(self) -> None:
        cases = [
            ("insrt n0 t {_id: 1}", 1, "did you mean 'insert'?"),
            ("insert n0  t {_id: 1}", 11, "two spaces"),
            ("insert\tn0 t {_id: 1}", 7, "a tab"),
            ("insert n0 t {_id: 1.5}", 20, "no doubles"),
            ("retry n0 7 1 replace t 1 {n: 1.5}", 31, "no doubles"),
            ("insert n0 t {_id: 1, n: 3000000000}", 25, "L after it"),
            ("insert n0 t {_id: 1, _id: 2}", 22, "twice"),
            ("update n0 t 1 {$set: {a: \"x}}", 30, "ends too soon"),
            ("insert n7 t {_id: 1}", 8, "n0 to n2"),
            ("heartbeat n0 n0", 14, "another node"),
            ("read n0 local t", None, "number of words"),
        ]
        for line, column, cause in cases:
            with self.subTest(line):
                told = self.told("explain", self.file(["set 3", line])).splitlines()
                self.assertTrue(told[0].startswith("line 2: "))
                short = self.told("explain", self.file(["set 3", "elect n0", line])).splitlines()
                self.assertEqual([one.replace("line 3", "line 2").replace("  3  ", "  2  ") for one in short], told)
                self.assertIn(cause, " ".join(told[3:6]))
                if column is not None:
                    self.assertEqual(told[3].index("^") - len("  2  ") + 1, column)

    def test_habits_of_mongosh(self) -> None:
        cases = [
            ("insert n0 t {_id: 'a'}", 19, "double quotes"),
            ("insert n0 t {_id: ObjectId(\"0123456789abcdef01234567\")}", 19, "Id("),
            ("insert n0 t {_id: 1, at: Date(\"2020-01-01\")}", 31, "Date(MILLISECONDS)"),
        ]
        for line, column, told in cases:
            cause = cause_of(line, "BadText 1 Unexpected", 3)
            self.assertEqual((cause.place or 0) + 1, column)
            self.assertIn(told, cause.told)
            self.assertIn("line 2: its document is mongosh's", self.told("explain", self.file(["set 3", line])))

    def test_characters_that_nobody_sees(self) -> None:
        for text, cause in [("\ufeffset 3\n", "byte order mark"), ("set 3\rcampaign n0\r", "carriage return"),
                            ("set 3\nelect n0\nflush n0 \n", "ends with a space"), ("set 3\r\nflush  n0\r\n", "two spaces")]:
            (self.room / "odd").write_bytes(text.encode())
            self.assertIn(cause, self.told("explain", "odd"))
            self.assertIn("lab explain FILE says more", self.lab("run", "odd").stderr)

    def test_macros(self) -> None:
        told = self.told("explain", self.file(["set 3", "elct n0"]))
        self.assertIn("did you mean 'elect'?", told)
        lines = self.told("explain", self.file(["set 3", "elect n0", "repeat 2 insert n0 t {_id: 1.5}"])).splitlines()
        self.assertEqual(lines[0], "line 3: BadText 1 Unexpected")
        self.assertEqual(lines[3:5], ["  which comes to", "  (8)  insert n0 t {_id: 1.5}"])
        self.assertEqual(lines[5].index("^"), lines[4].index("1.5") + 1)
        told = self.told("explain", self.file(["set 3", "crash n1", "crash n2", "elect n0"]))
        self.assertIn("line 4: n0 isn't elected: n1 is down; n2 is down", told)
        self.assertIn("campaign n0   candidate 1 sent m0 2", told)
        self.assertIn("elect A [B ..]   (macro)", told)

    def test_what_may_surprise(self) -> None:
        config = '{"version":2,"members":[{"_id":0,"priorty":2}]}'
        told = self.told("explain", self.file(["set 1", 'insert n0 t {_id: 1, a: {"$oid": "x"}}', f"reconfig n0 {config}"]))
        self.assertIn("line 2: extended JSON is read as a plain document with a field $oid", told)
        self.assertIn('line 3: the key "priorty" is passed over; did you mean "priority"?', told)

    def test_the_notation(self) -> None:
        """The rules and places of documents, which the program tells without their places."""
        cases = [
            ("{}", None), ("{a: [1, 2L, true, null], \"b c\": Date(-5)}", None),
            ("{a: Bin(0, \"00ff\"), b: Time(1, 2)}", None),
            ("{a: 2147483648}", (4, "Number")), ("{a: \"\\q\"}", (6, "Escape")), ("{a: Id(\"00\")}", (10, "Hex")),
            ("{a: 1, a: 2}", (7, "DuplicateName")), ("{a: 1,}", (6, "Unexpected")), ("{} ", (2, "Unexpected")),
            ("[" * 101, (100, "TooDeep")), ("{a: Bin(256, \"\")}", (8, "Number")), ("{a: tru}", (4, "Unexpected")),
        ]
        for text, wanted in cases:
            with self.subTest(text):
                fault = fault_of(text, 0)
                self.assertEqual(fault and (fault.place, fault.rule), wanted)


if __name__ == "__main__":
    unittest.main()
