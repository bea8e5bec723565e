"""What happened to the data: against a second, slow reading of random scripts, and on small ones with expected values."""
from __future__ import annotations

import os
import random
import sys
import unittest
from typing import Any, Callable, List, Set, Tuple

from support import COMMITTED, TOP, LabTest
from slow_reading import SlowReading

from lab.expand import expand
from lab.fates import read_fates
from lab.program import find_program
from lab.story import Write
from lab.verdicts import MEANINGS, Verdict, verdicts

sys.path.insert(0, str(TOP / "tools" / "fuzz"))
from script_author import Author, sizes_by  # noqa: E402
from script_player import Player  # noqa: E402

#: So many random scripts are read twice.
SCRIPTS = int(os.environ.get("LAB_SCRIPTS", "200"))


def random_script(program: str, dice: random.Random) -> Tuple[List[str], int]:
    """A short random script, and how many nodes its set has."""
    return read_and_written(lambda sizes: Player(program, sizes), dice, 0.35)


def read_and_written(begin: Callable[[Any], Any], dice: random.Random, failing: float) -> Tuple[List[str], int]:
    """A short random script with writes and reads, which ends anywhere, and how many nodes its set has. Of all scripts that
    part has failing disks."""
    sizes = sizes_by(dice)
    player = begin(sizes)
    author = Author(dice, player, sizes, disk_faults=dice.random() < failing)
    author.elect()
    steps = [author.diverge, author.reconfigure, author.fail_disk, author.crash, author.elect, author.writers, author.roll_back,
             author.old_messages, author.step_down_or_clock]
    for number in range(8):
        dice.choice([author.replicate, author.writes, *steps])()
        if dice.random() < 0.5:
            author.look()
        write_and_read(author, dice, number)
        if dice.random() < 0.1:
            acknowledged_and_left(author, dice)
    return player.lines[: dice.randint(len(player.lines) // 2, len(player.lines))], sizes[0]


def write_and_read(author: Author, dice: random.Random, number: int) -> None:
    """A write or two, of which some get around and are acknowledged, and reads of them here and there."""
    leader = author.leader()
    author.put(f"insert n{leader} t {{_id: {100 + number}}}", f"update n{leader} t {100 + dice.randint(0, number)} {{$inc: {{n: 1}}}}")
    author.put(*[f"note n{leader}"] * dice.randint(0, 1))
    if dice.random() < 0.5:
        author.put(f"flush n{leader}")
    for node in dice.sample(range(author.nodes), dice.randint(0, author.nodes - 1)):
        if node != leader:
            author.pull(node, leader)
    author.look()
    concern = dice.choice(["1", "1", "2", "majority"])
    author.put(*(f"ack n{leader} {at} {concern}" for at in author.optimes[-2:]))
    for _ in range(4):
        author.put(f"read n{author.some()} {author.level()} t {100 + dice.randint(0, number)}")


def acknowledged_and_left(author: Author, dice: random.Random) -> None:
    """A write that two have is acknowledged, and then those who lack it elect one of theirs."""
    leader = author.leader()
    rest = [node for node in range(author.nodes) if node != leader]
    dice.shuffle(rest)
    author.put(f"insert n{leader} t {{_id: {dice.randint(200, 299)}}}", f"flush n{leader}")
    author.follow(rest[0], leader)
    author.look()
    author.put(f"ack n{leader} {author.optimes[-1]} 2")
    author.elect(rest[-1], rest[1:])


def key(verdict: Verdict) -> Tuple[Any, ...]:
    """A verdict as the slow reading names it."""
    if verdict.name in ("dirty-read", "stale-read"):
        return verdict.name, verdict.lines[1]
    if verdict.name == "rolled-back":
        return verdict.name, *verdict.lines
    if verdict.name == "two-primaries":
        return verdict.name, max(verdict.lines)
    return (verdict.name,) if verdict.name == "no-primary" else (verdict.name, verdict.lines[0])


def shape(write: Write) -> Tuple[Any, ...]:
    """A write as the slow reading has it."""
    removals = sorted((removal.node, removal.line, removal.rollback) for removal in write.removals)
    return write.line, write.done, write.acks, removals, write.logs, write.disks, write.committed, write.lost


class TwoReadings(unittest.TestCase):
    """The lab's reading and the slow one."""

    def test_random_scripts(self) -> None:
        program, met = find_program(), set()  # type: Tuple[str, Set[str]]
        for number in range(SCRIPTS):
            lines, nodes = random_script(program, random.Random(f"verdicts/{number}"))
            slow, story = SlowReading(program, lines, nodes), read_fates(lines)
            with self.subTest(number):
                self.assertEqual({key(one) for one in verdicts(story)}, slow.verdicts)
                for write in story.writes:
                    other = slow.writes[write.at]
                    names = ("line", "done", "acks", "removals", "logs", "disks", "committed", "lost")
                    other["removals"].sort()
                    self.assertEqual(shape(write), tuple(other[name] for name in names), write)
                self.assertEqual(len(story.writes), len(slow.writes))
            met |= {one.name for one in verdicts(story)}
        if SCRIPTS >= 1000:
            self.assertEqual(met, set(MEANINGS))


class Named(LabTest):
    """Small scripts, each with the verdicts that it must have."""

    def found(self, lines: List[str]) -> List[str]:
        """The verdicts of a short script, by name and line."""
        script = expand(lines)
        found = verdicts(read_fates(script.lines))
        return [f"{one.name} {','.join(str(script.source[line - 1]) for line in one.lines)}" for one in found]

    def test_each_name(self) -> None:
        cases = [
            ([*COMMITTED, "insert n0 orders {_id: 2}", "flush n0", "ack n0 last 1", "crash n0", "elect n1"], ["w1-lost 5,7"]),
            (["set 5", "elect n0", "insert n0 t {_id: 1}", "pull n1", "flush n0", "ack n0 last 2", "crash n0", "crash n1", "elect n2"],
             ["acked-lost 3,6"]),
            ([*COMMITTED, "update n0 orders 1 {$set: {n: 1}}", "read n0 local orders 1", "crash n0", "elect n1"], ["dirty-read 5,6"]),
            ([*COMMITTED, "insert n0 orders {_id: 2}", "await n0 last", "read n2 local orders 2", "read n2 majority orders 2"],
             ["stale-read 5,7", "stale-read 5,8"]),
            ([*COMMITTED, "partition n0 | n1 n2", "delete n0 orders 1", "elect n1", "heal", "pull n0 n1"],
             ["rolled-back 6,9", "two-primaries 2,7"]),
            (["set 4 3", "elect n0", "spread n0", 'reconfig n0 {"version":2,"members":[{"_id":0},{"_id":1},{"_id":2},{"_id":3}]}'],
             ["uncommitted-config 4"]),
            (["set 3", "elect n0", "crash n0"], ["no-primary 3"]), (["set 3"], ["no-primary "]), (COMMITTED, []),
        ]
        for lines, wanted in cases:
            with self.subTest(wanted):
                self.assertEqual(self.found(lines), wanted)

    def test_a_block(self) -> None:
        lines = ["set 1", "elect n0", "par", "thread", "insert n0 t {_id: 1}", "read n0 majority t 1", "thread", "insert n0 t {_id: 2}",
                 "read n0 local t 2", "end", "crash n0", "restart n0", "elect n0"]
        self.assertEqual(self.found(lines), ["dirty-read 8,9"])

    def test_a_linearizable_read_that_is_refused_shows_nothing(self) -> None:
        lines = [*COMMITTED, "partition n0 | n1 n2", "elect n1", "update n1 orders 1 {$set: {n: 1}}", "await n1 last",
                 "linear n0 orders 1", "linear n1 orders 1"]
        self.assertEqual(self.found(lines), ["two-primaries 2,6"])

    def test_what_is_told(self) -> None:
        name = self.file([*COMMITTED, "insert n0 orders {_id: 2}", "flush n0", "ack n0 last 1", "crash n0", "elect n1", "restart n0", "pull n0 n1"])
        told = self.told("verdict", name)
        self.assertIn("  line 3 (7): insert n0 orders {_id: 1, n: 0}\n    1/0/2, never acknowledged; committed: in the log of n0 n1 n2\n", told)
        self.assertIn("1/0/3, acknowledged at 1; rolled back at n0 in line 11 (", told)
        self.assertIn("('rolled n0' shows it); lost: nowhere any more\n", told)
        self.assertIn("  w1-lost      lines 5 (32), 7 (34), 11 (", told)
        self.assertTrue(self.told("run", name).endswith(told))

    def test_the_page_shows_what_is_told(self) -> None:
        page = (TOP / "README.md").read_text(encoding="utf-8")
        name = "docs/cookbook/w1_write_lost.lab"
        self.assertIn(f"$ ./lab verdict {name}\n" + self.told("verdict", str(TOP / name)) + "```\n", page)

    def test_it_is_looked_for(self) -> None:
        lines = [*COMMITTED, "insert n0 orders {_id: 2}", "flush n0", "ack n0 last 1", "pull n1", "crash n0", "elect n1"]
        done = self.lab("vary", self.file(lines), "--verdict", "w1-lost", "--only", "drop", "-j", "2", "--all")
        self.assertEqual(done.returncode, 1, done.stdout)
        self.assertIn("was acknowledged at 1; the primary n1 lacks it", done.stdout)
        self.assertIn("deliver n1 n0: lost", done.stdout)
        small = self.told("shrink", self.file([*lines[:-3], *lines[-2:]]), "--verdict", "w1-lost", "-j", "2").splitlines()
        self.assertEqual((len(small), small[-1]), (13, "drain n1"))
        swept = self.told("sweep", "--seeds", "1-8", "--events", "100", "--verdict", "rolled-back", "-j", "2")
        seed = swept.split("seeds: ")[1].split(",")[0].split("\n")[0]
        self.assertIn("  rolled-back  line", self.told("verdict", "-", typed=self.told("seed", seed, "100", "3")))


if __name__ == "__main__":
    unittest.main()
