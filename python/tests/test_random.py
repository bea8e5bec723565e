"""Random scripts through the package, against the program: line by line and in a batch, byte for byte.

REPLSET_SCRIPTS says how many (100), REPLSET_SEED which (1)."""
from __future__ import annotations

import os
import random
import sys
import unittest
from typing import Any, Dict, List

from support import TOP, needs_library

from replset import BadLine, Set
from replset.lab.chance import script_of_seed
from replset.lab.errors import LabError
from replset.lab.program import find_program
from replset.lab.quick import run
from replset.lab.script import set_size

sys.path[:0] = [str(TOP / "tools" / "fuzz"), str(TOP / "tools" / "lab" / "tests"), str(TOP / "tools")]
from script_author import Author, sizes_by  # noqa: E402

SCRIPTS, SEED = int(os.environ.get("REPLSET_SCRIPTS", "100")), os.environ.get("REPLSET_SEED", "1")

NODE_COMMANDS = ["state", "dump", "log", "note", "flush", "apply", "checkpoint", "campaign", "dryrun", "drain", "stepdown", "fetch", "crash",
                 "restart", "rolled"]
WRITES = ['insert {} t {{_id: {}, "x y": [1, {{a: null}}]}}', "replace {} u {} {{b: Bin(0, \"00ff\"), at: Date(-5)}}", "delete {} t {}",
          "update {} t {} {{$inc: {{n: 1L}}, $set: {{s: \"\\u0007é\"}}}}", "insert {} t {{_id: \"{}\"}}", "insert {} t {{_id: null, n: {}}}"]


class Played:
    """The author's script, played by a set as it grows."""

    def __init__(self, sizes: Any):
        self.nodes = sizes[0]
        self.set = Set(*(sizes[:1] if len(set(sizes)) == 1 else sizes))
        self.lines = self.set.lines()
        self.answers: Dict[int, str] = {}
        self._done = 1

    def run(self) -> None:
        """Answers what is new."""
        texts = self.set.batch(self.lines[self._done :]).texts
        for place, text in enumerate(texts, self._done + 1):
            self.answers[place] = text.replace("\n  ", "\n")
        self._done = len(self.lines)

    def last_answer(self, line: str) -> str:
        """The answer to the last line that reads so."""
        return self.answers[max(place for place, one in enumerate(self.lines, 1) if one == line)]


def random_script(dice: random.Random) -> List[str]:
    """A script with all commands that a set in a process does."""
    kind = dice.randrange(8)
    if kind < 4:
        lines = script_of_seed(dice.getrandbits(64), dice.randint(1, 16), dice.randint(1, 5))
    elif kind < 7:
        lines = ["set 3", "campaign n0", "deliver n0 n1", "deliver n1 n0", "drain n0"][: dice.choice([1, 5, 5])]
        lines += [mixed(dice) for _ in range(dice.randint(5, 60))]
    else:
        sizes = sizes_by(dice)
        author = Author(dice, Played(sizes), sizes, disk_faults=False)
        author.elect()
        author.part()
        lines = list(author.player.lines)
    if dice.random() < 0.05:
        lines.insert(dice.randint(1, len(lines)), dice.choice(["", "# é", "foo", "note n99", "insert n0 t {a: 1.5}", "set 3", " note n0", "note n0 "]))
    return lines


def mixed(dice: random.Random) -> str:
    """One line."""
    one, other = (f"n{node}" for node in dice.sample(range(3), 2))
    kind = dice.randrange(10)
    if kind < 2:
        return dice.choice(WRITES).format(one, dice.randint(0, 5))
    if kind == 2:
        return f"retry {one} {dice.randint(0, 2)} {dice.randint(1, 3)} insert t {{_id: {dice.randint(0, 9)}}}"
    if kind == 3:
        writer = f"{one} w{dice.randint(0, 2)}"
        return dice.choice([f"begin {writer} insert t {{_id: {dice.randint(0, 9)}}}", f"commit {writer}", f"abort {writer}", f"ack {writer} 1"])
    if kind == 4:
        return dice.choice([f"ack {one} 1/0/{dice.randint(1, 5)} {dice.choice(['1', '2', '4', 'majority'])}",
                            f"read {one} {dice.choice(['local', 'majority'])} t {dice.randint(0, 5)}", f"clock {one} {dice.randint(0, 99)}",
                            f'reconfig {one} {{"version":{dice.randint(1, 4)},"members":[{{"_id":0}},{{"_id":1}}]}}'])
    if kind < 7:
        return f"{dice.choice(['heartbeat', 'report', 'common'])} {one} {other}"
    if kind < 9:
        return dice.choice([f"deliver {one} {other}", f"deliver m{dice.randint(0, 20)}"])
    return f"{dice.choice(NODE_COMMANDS)} {one}"


def line_by_line(lines: List[str]) -> str:
    """The transcript of a script that is stepped line by line, told by its typed replies; or its first fault."""
    size = set_size(lines)
    told = []
    with Set(size.nodes, size.voters, size.members) as s:
        for number, line in enumerate(lines[1:], 2):
            try:
                reply = s.step(line)
            except BadLine as fault:
                return f"line {fault.line}: {fault.rule}\n"
            if reply is not None:
                told.append("\n  ".join([f"{number}: {reply}", *getattr(reply, "more", ())]) + "\n")
    return "".join(told)


def in_a_batch(lines: List[str]) -> str:
    """The same in one call."""
    size = set_size(lines)
    numbers = [number for number, line in enumerate(lines, 1) if line and not line.startswith("#")][1:]
    with Set(size.nodes, size.voters, size.members) as s:
        try:
            return "".join(f"{number}: {text}\n" for number, text in zip(numbers, s.batch(lines[1:]).texts))
        except BadLine as fault:
            return f"line {fault.line}: {fault.rule}\n"


@needs_library
class SameAsTheProgram(unittest.TestCase):
    """The package, and the program that is built."""

    def test_random_scripts(self) -> None:
        try:
            program = find_program()
        except LabError as fault:
            self.skipTest(fault.sentence)
        count = 0
        for number in range(SCRIPTS):
            lines = random_script(random.Random(f"{SEED}/{number}"))
            _, expected = run(program, ["run"], "".join(f"{line}\n" for line in lines).encode())
            self.assertEqual(line_by_line(lines), expected.decode(), f"{SEED}/{number}")
            self.assertEqual(in_a_batch(lines), expected.decode(), f"{SEED}/{number}")
            count += len(lines)
            if os.environ.get("REPLSET_SCRIPTS") and number % 5000 == 4999:
                print(f"{number + 1} scripts, {count} lines", flush=True)


if __name__ == "__main__":
    unittest.main()
