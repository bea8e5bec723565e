"""A set in a Python process, over the built library."""
from __future__ import annotations

import tempfile
import unittest
from pathlib import Path
from typing import List

from support import needs_library

from replset import BadLine, Optime, Set, Stopped, bson, insert, play, replies, update
from replset.replies import Found, Refused, Written


@needs_library
class Commands(unittest.TestCase):
    """Each command as a method."""

    def test_lines_and_replies(self) -> None:
        s = Set(3)
        told: List[str] = [str(reply) for reply in (
            s.campaign(0), s.deliver(0, 1), s.deliver(1, 0), s.drain(0), s.insert(0, "t", {"_id": 1, "n": bson.Int64(4)}),
            s.update(0, "t", 1, {"$inc": {"n": 1}}), s.replace(0, "t", 1, '{"at": {"$date": 5}}'), s.delete(0, "t", 2),
            s.retry(0, 7, 1, insert("t", {"_id": "a b"})), s.begin(0, 2, update("t", 1, {"$set": {"x": None}})), s.commit(0, 2),
            s.ack(0, 2, 1), s.abort(0, 3), s.note(0), s.flush(0), s.heartbeat(0, 1), s.deliver(4), s.fetch(1), s.deliver(1, 0),
            s.deliver(0, 1), s.apply(1, 2), s.report(1, 0), s.common(1, 0), s.read(1, "t", 1), s.read(0, "t", 1, "majority"),
            s.dump(0), s.log(0), s.state(2), s.rolled(0), s.dryrun(2), s.stepdown(0), s.checkpoint(0), s.clock(0, 9), s.crash(2),
            s.restart(2), s.reconfig(0, {"version": 2, "members": [{"_id": 0}]}), s.ack(0, Optime(1, 0, 2)),
        )]
        self.assertEqual(told[:9], ["candidate 1 sent m0 2", "replied m2", "won 1", "primary 1 noop 1/0/1", "written 1/0/2",
                                    "written 1/0/3", "written 1/0/4", "matched 0", "written 1/0/5"])
        self.assertEqual(s.lines()[:9], [
            "set 3", "campaign n0", "deliver n0 n1", "deliver n1 n0", "drain n0", "insert n0 t {_id: 1, n: 4L}",
            "update n0 t 1 {$inc: {n: 1}}", "replace n0 t 1 {at: Date(5)}", "delete n0 t 2",
        ])
        self.assertIn('retry n0 7 1 insert t {_id: "a b"}', s.lines())
        self.assertEqual(s.transcript().count("\n"), len(told) + sum(len(getattr(reply, "more", ())) for reply in (s.look("dump n0 local"), s.look("log n0"))))
        again = play(s.script())
        self.assertEqual((again.script(), again.transcript(), repr(again)), (s.script(), s.transcript(), repr(s)))

    def test_typed_replies(self) -> None:
        s = Set(1)
        s.elect(0)
        written = s.insert(0, "t", {"_id": 1})
        self.assertEqual(written, Written(Optime(1, 0, 2)))
        self.assertEqual(s.ack(0, written), Refused(15, "Waiting", (0, 1)))
        self.assertEqual(s.read(0, "t", 1), Found({"_id": 1}))
        with self.assertRaises(TypeError):
            s.ack(0, replies.Missing())

    def test_sizes(self) -> None:
        self.assertEqual(Set(9).lines(), ["set 9"])
        self.assertEqual(Set(4, 3).lines(), ["set 4 3 3"])
        self.assertEqual(Set(4, 2, 3).lines(), ["set 4 2 3"])
        for sizes in ((0,), (51,), (3, 8), (3, 2, 1), (-1,), (2**40,)):
            with self.assertRaises(ValueError):
                Set(*sizes)

    def test_what_can_be_no_reply(self) -> None:
        s = Set(2)
        for line, rule in (("foo n0", "UnknownCommand"), ("insert n0 t {a: 1.5}", "BadText 1 Unexpected"), ("state n2", "BadNode"),
                           ("diskfail n0 journal 1", "NoDisks"), ("par", "NoBlocks"), ("note n0\nnote n0", "LineFeed"), ("set 3", "UnknownCommand")):
            with self.assertRaises(BadLine) as caught:
                s.step(line)
            self.assertEqual((caught.exception.rule, caught.exception.line), (rule, 2), line)
        self.assertEqual(s.lines(), ["set 2"])
        with self.assertRaises(TypeError):
            s.insert(0, "t", {"_id": 1.0})
        with self.assertRaises(BadLine):
            s.look("note n0")
        self.assertIsNone(s.step("# a comment"))
        s.close()
        with self.assertRaises(ValueError):
            s.note(0)
        self.assertEqual(repr(s), "<Set of 2 nodes, closed>")

    def test_a_batch(self) -> None:
        s = Set(1)
        s.elect(0)
        told = s.batch(f"insert n0 t {{_id: {number}}}" for number in range(3000))
        self.assertEqual((len(told), str(told[2999]), told.texts[0]), (3000, "written 1/0/3001", "written 1/0/2"))
        self.assertEqual([str(one) for one in told[1:3]], ["written 1/0/3", "written 1/0/4"])
        dumped = s.batch("# all\ndump n0 local\nnote n0")
        self.assertEqual((len(dumped), len(dumped[0].of("t")), str(dumped[1])), (2, 3000, "written 1/0/3002"))  # type: ignore[attr-defined]
        before = len(s.lines())
        with self.assertRaises(BadLine) as caught:
            s.batch(["note n0", "", "foo", "note n0"])
        self.assertEqual((caught.exception.line, caught.exception.done, caught.exception.text), (before + 3, 2, "foo"))
        self.assertEqual(s.lines()[before:], ["note n0", ""])
        self.assertEqual(str(s.note(0)), "written 1/0/3004")


@needs_library
class Copies(unittest.TestCase):
    """Branches of a run."""

    def test_a_copy_goes_its_own_way(self) -> None:
        s = Set(3)
        s.elect(0)
        s.insert(0, "t", {"_id": 1})
        before = (repr(s), s.script())
        with s.copy() as branch:
            branch.crash(0)
            branch.elect(1)
            self.assertEqual(branch.primary(), 1)
            with branch.copy() as twig:
                twig.note(1)
                self.assertEqual(twig.lines()[:-1], branch.lines())
        self.assertEqual((repr(s), s.script()), before)
        self.assertEqual(s.primary(), 0)
        self.assertTrue(branch.script().startswith(s.script()))
        s.note(0)
        self.assertNotIn("note n0", branch.script())

    def test_many_copies(self) -> None:
        s = Set(1)
        s.elect(0)
        for number in range(500):
            s = s.copy()
            s.insert(0, "t", {"_id": number})
        self.assertEqual(len(s.lines()), 1 + 3 + 500)
        self.assertEqual(play(s.script()).transcript(), s.transcript())


@needs_library
class Short(unittest.TestCase):
    """Macros."""

    def test_macros(self) -> None:
        s = Set(3)
        self.assertEqual(str(s.elect(0)[-1]), "primary 1 noop 1/0/1")
        written = s.insert(0, "t", {"_id": 1})
        self.assertEqual(str(s.wait_for(0, written)[-1]), "acked 1/0/2")
        s.spread(0)
        s.partition([0], [1, 2])
        s.note(0)
        with self.assertRaises(Stopped):
            s.pull(1, 0)
        s.elect(1)
        s.heal()
        s.tick(20, 5)
        self.assertEqual(s.primary(), 1)
        self.assertIn("lost in the partition", s.script())

    def test_one_that_stops_leaves_nothing(self) -> None:
        s = Set(3)
        s.crash(1)
        s.crash(2)
        before = s.script()
        with self.assertRaises(Stopped) as caught:
            s.elect(0)
        self.assertEqual(s.script(), before)
        self.assertIn("campaign n0", caught.exception.lines)

    def test_messages(self) -> None:
        s = Set(3)
        s.campaign(0)
        s.deliver(0, 1)
        self.assertEqual([message[:3] for message in s.messages()], [(0, 0, 1), (1, 0, 2), (2, 1, 0)])
        self.assertEqual([message.number for message in s.messages(2)], [2])
        self.assertEqual({message.term for message in s.messages()}, {1})


@needs_library
class Views(unittest.TestCase):
    """What the lab makes of a run."""

    def test_a_lost_write(self) -> None:
        s = Set(3)
        s.elect(0)
        s.spread(0)
        written = s.insert(0, "orders", {"_id": 1})
        s.flush(0)
        s.ack(0, written, 1)
        s.crash(0)
        s.elect(1)
        self.assertIn("w1-lost", [verdict.name for verdict in s.verdicts()])
        self.assertIn("w1-lost", s.what_happened())
        short = s.shortest("w1-lost")
        self.assertLess(len(short.lines()), 14)
        self.assertIn("w1-lost", [verdict.name for verdict in short.verdicts()])
        with self.assertRaises(ValueError):
            s.shortest("stale-read")
        self.assertIn("<svg", s._repr_html_())
        self.assertIn("n0 down, n1 Primary in term 2", repr(s))
        self.assertIn("acked 1/0/2", s.told())
        self.assertTrue(s.trace().startswith("trace "), s.trace()[:40])
        with tempfile.TemporaryDirectory() as room:
            for name in ("run.html", "run.svg"):
                s.picture(Path(room) / name)
                self.assertIn("<svg", (Path(room) / name).read_text())
            with self.assertRaises(ValueError):
                s.picture(Path(room) / "run.png")


if __name__ == "__main__":
    unittest.main()
