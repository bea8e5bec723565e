"""What is installed: the lab without the checkout, its help, completion and manual page, and that all of it goes again."""
from __future__ import annotations

import os
import subprocess
import sys
import unittest
from pathlib import Path
from typing import List

from support import COMMITTED, TOP, LabTest

from lab.main import WORD_NAMES
from lab.manual import made


class Install(LabTest):
    """`tools/install`, which `./replset --install` calls, and `--uninstall`."""

    def setUp(self) -> None:
        """Installs into a folder of its own."""
        super().setUp()
        self.place = self.room / "place"
        words = [str(TOP / "tools" / "install"), str(self.place), self.environment["REPLSET"], "unproved", "of no commit"]
        self.files = subprocess.run(words, stdout=subprocess.PIPE, check=True, text=True).stdout.splitlines()
        self.calls = {name: value for name, value in self.environment.items() if name != "REPLSET"}

    def call(self, name: str, *words: str) -> "subprocess.CompletedProcess[str]":
        """How an installed command ends."""
        return subprocess.run([str(self.place / "bin" / name), *words], cwd=self.room, env=self.calls,
                              capture_output=True, text=True, stdin=subprocess.DEVNULL)

    def installed(self) -> List[Path]:
        """All files below the folder."""
        return [path for path in self.place.rglob("*") if path.is_file() or path.is_symlink()]

    def test_it_runs(self) -> None:
        script, done = self.file(COMMITTED), self.call("replset-lab", "verdict", self.file(COMMITTED))
        self.assertEqual((done.returncode, done.stdout.splitlines()[-1]), (0, "verdicts: none"), done.stderr)
        sweep = ["sweep", "--seeds", "1-2", "--events", "9"]
        for words in (["run", script], ["seed", "1", "5", "3"], ["explain", "hole"], ["picture", script], sweep):
            self.assertEqual(self.call("replset-lab", *words).returncode, 0, words)

    def test_no_tests_and_nothing_that_makes_pages(self) -> None:
        names = [str(path.relative_to(self.place)) for path in self.installed()]
        absent = ("/check", "/refresh", "cookbook.py", "manual.py", ".ini")
        self.assertFalse([name for name in names if "tests" in name or name.endswith(absent)])
        for name in ("share/man/man1/replset-lab.1", "share/man/man1/replset.1", "share/bash-completion/completions/replset-lab",
                     "share/zsh/site-functions/_replset-lab"):
            self.assertIn(name, names)
        untold = {str(self.place / "libexec/replset" / name) for name in ("installed", "version", "build/replset")}
        self.assertEqual({str(path) for path in self.installed()}, set(self.files) | untold)

    def test_help_has_only_what_is_there(self) -> None:
        told = self.call("replset-lab", "--help").stdout
        self.assertIn("usage: replset-lab", told)
        for absent in ("COOKBOOK", "this\nrepository", "three minutes", "'lab "):
            self.assertNotIn(absent, told)
        for name in WORD_NAMES:
            self.assertNotIn("'lab ", self.call("replset-lab", name, "--help").stdout)
        told = self.call("replset", "--help").stdout
        for absent in ("--prove", "--install", ".ci/run", "rt"):
            self.assertNotIn(f" {absent} ", told)
        completion = (self.place / "share/bash-completion/completions/replset").read_text()
        self.assertNotIn("--prove --", completion)

    def test_it_goes_again(self) -> None:
        (self.place / "share" / "mine").write_text("stays")
        self.call("replset-lab", "seed", "1", "1", "1")
        done = self.call("replset", "--uninstall")
        self.assertEqual(done.returncode, 0, done.stderr)
        self.assertEqual(self.installed(), [self.place / "share" / "mine"])

    def test_completion(self) -> None:
        script = "source completion; COMP_WORDS=(replset-lab {0}); COMP_CWORD={1}; _replset_lab; echo ${{COMPREPLY[@]}}"
        (self.room / "completion").write_text((self.place / "share/bash-completion/completions/replset-lab").read_text())
        cases = (("ver", 1, "verdict"), ("vary --ord", 2, "--orders"), ("shrink --verdict w1", 3, "w1-lost"), ("run compl", 2, "completion"))
        for words, place, wanted in cases:
            done = subprocess.run(["bash", "-c", script.format(words, place)], cwd=self.room, capture_output=True, text=True)
            self.assertEqual(done.stdout.strip(), wanted, done.stderr)

    def test_all_words_are_in_the_manual_page(self) -> None:
        late = [str(path) for path, text in made() if path.read_text(encoding="utf-8") != text]
        self.assertEqual(late, [], "tools/lab/refresh makes these anew")
        page = (self.place / "share/man/man1/replset-lab.1").read_text()
        for name in WORD_NAMES:
            self.assertIn(f'.SH "{name.upper()}"', page)


if __name__ == "__main__":
    unittest.main()
