"""What is played inside of this process, against the program: byte for byte, where the library is built."""
from __future__ import annotations

import os
import random
import sys
import unittest
from typing import Any, Dict, List, Optional
from unittest import mock

from support import COMMITTED, TOP, LabTest, script_by_chance

from lab.chance import script_of_seed
from lab.errors import LabError
from lab.expand import expand
from lab.inside import played
from lab.library import find_library
from lab.player import Player
from lab.program import run_program, script_bytes
from lab.script import read_lines

sys.path.insert(0, str(TOP / "tools" / "fuzz"))
from script_author import Author, sizes_by  # noqa: E402
from script_player import Player as Script  # noqa: E402

#: So many random scripts are compared.
SCRIPTS = int(os.environ.get("LAB_SCRIPTS", "500"))

#: What no set in a process does.
BEYOND = ("par", "diskfail ", "thread", "end")


def by(library: Optional[str]) -> Any:
    """Plays by a library, or with none by the program."""
    return mock.patch.dict(os.environ, {"REPLSET_LIBRARY": library or ""})


class Inside(Script):  # type: ignore[misc]
    """A growing script that is played in this process."""

    def run(self) -> None:
        """Reads all answers anew."""
        told = played(self.script().encode())
        assert told is not None and told.fault is None, told
        self.answers: Dict[int, str] = {}
        number = 0
        for line in told.text.decode().splitlines():
            if line.startswith("  "):
                self.answers[number] += "\n" + line[2:]
            else:
                head, text = line.split(": ", 1)
                number = int(head)
                self.answers[number] = text


def random_script(dice: random.Random) -> List[str]:
    """A random script with every command but blocks and failing disks, and now and then a line that is none."""
    kind = dice.randrange(4)
    if kind == 0:
        lines = script_of_seed(dice.getrandbits(64), dice.randint(1, 60), dice.randint(1, 7))
    elif kind == 1:
        lines = script_by_chance(dice.randint(2, 5), dice.randint(20, 200), dice.getrandbits(60))
    else:
        sizes = sizes_by(dice)
        author = Author(dice, Inside("", sizes), sizes, disk_faults=False)
        author.elect()
        for _ in range(dice.randint(1, 3)):
            author.part()
        lines = author.player.lines
    if dice.random() < 0.1:
        lines.insert(dice.randrange(len(lines) + 1), dice.choice(["", "# é", "foo", "note n99", "insert n0 t {a: 1.5}", "set 3", " note n0"]))
    return list(lines)


@unittest.skipIf(find_library() is None, "no library is built (tools/build_library build/libreplset.so builds one)")
class SameAsTheProgram(LabTest):
    """The library, and the program that is built."""

    library = find_library()

    def check(self, script: bytes, name: str) -> None:
        """Plays a script by both."""
        with by(self.library):
            told = played(script)
        done = run_program(["run"], script)
        assert told is not None, name
        expected = done.stdout if told.fault is None else f"line {told.fault[0]}: {told.fault[1]}\n".encode()
        self.assertEqual((told.text or expected, done.returncode), (done.stdout, 0 if told.fault is None else 3), name)

    def test_examples(self) -> None:
        count = 0
        for path in sorted((TOP / "examples").glob("*.replset")):
            script = path.read_bytes()
            if any(line.startswith(BEYOND) for line in script.decode("utf-8", "replace").splitlines()):
                with by(self.library):
                    self.assertIsNone(played(script), path)
            elif path.read_bytes().lstrip(b"#").strip() and b"set " in script:
                self.check(script, path.name)
                count += 1
        self.assertGreater(count, 50)

    def test_scripts_that_are_none(self) -> None:
        scripts = ["set 3\nfoo\n", "set 3\n\xff\n", "set 3\nnote n0\n note n0\n", "# a\n\n\r\nset 2\r\ncampaign n0\r\nset 2", "set 3 9\n"]
        for text in scripts[:4]:
            self.check(text.encode("latin-1"), text)
        with by(self.library):
            for text in (scripts[4], "", "note n0\n", "set 0\n", "set 3 1 2 3\n", "# only\n", "set 3\npar\n"):
                self.assertIsNone(played(text.encode()), text)

    def test_random_scripts(self) -> None:
        for seed in range(SCRIPTS):
            with by(self.library):
                lines = random_script(random.Random(f"inside {seed}"))
            self.check(script_bytes(lines), f"seed {seed}")

    def test_macros(self) -> None:
        """The cookbook's scripts come to the same lines."""
        for path in sorted((TOP / "docs" / "cookbook").glob("*.lab")):
            lines = read_lines(str(path))
            if path.stat().st_size > 4000 or any("10000" in line for line in lines):
                continue
            found = []
            for library in (self.library, None):
                with by(library):
                    found.append(expand(lines).lines)
            self.assertEqual(found[0], found[1], path)

    def test_a_script_that_grows_and_shrinks(self) -> None:
        for library in (self.library, None):
            with by(library):
                player = Player(["set 2"])
                self.assertEqual(player.ask("campaign n0").text, "candidate 1 sent m0 1")
                self.assertEqual(player.look("deliver n0 n1").text, "replied m1")
                del player.lines[1:]
                player.forget()
                self.assertEqual(player.ask("campaign n1").text, "candidate 1 sent m0 1")
                player.add("par")
                player.add("thread")
                with self.assertRaises(LabError):
                    player.look("foo n0")

    def test_words(self) -> None:
        """The lab prints the same."""
        name = self.file([*COMMITTED, "crash n0", "elect n1", "read n1 majority orders 1"])
        for words in (["run", name, "--state"], ["verdict", name], ["vary", name, "--watch", "read", "--all"], ["shrink", name, "--keep", "found"],
                      ["sweep", "--seeds", "1-20", "--events", "60"], ["sweep", "--seeds", "1-20", "--events", "60", "--no-verdicts", "--nodes", "5"]):
            told = [self.lab(*words, environment={"REPLSET_LIBRARY": library or ""}).stdout for library in (self.library, None)]
            self.assertEqual(told[0], told[1], words)
        typed = "elect n0\ninsert n0 t {_id: 1}\nstatus\nundo\nfoo\npar\nthread\nnote n0\nend\nelect n1\nscript\n"
        shells = [self.lab("shell", typed=typed, environment={"REPLSET_LIBRARY": library or ""}).stdout for library in (self.library, None)]
        self.assertEqual(shells[0], shells[1])


if __name__ == "__main__":
    unittest.main()
