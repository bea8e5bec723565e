"""The shell, help, and bad input: one sentence and a status, and never a trace."""
from __future__ import annotations

import signal
import subprocess
import sys
import time
import unittest
from typing import List, Tuple

from support import COMMITTED, LAB, LabTest, script_by_chance

from lab.main import WORD_NAMES
from lab.player import Player
from lab.words.shell import completions


class Shell(LabTest):
    """`lab shell`."""

    def test_a_session(self) -> None:
        typed = ["elect n0", "insert n0 t {_id: 1}", "status", "spread n0", "ack n0 last majority", "insrt n0 t {}", "undo 2",
                 "status", "save kept.replset", "quit", "crash n0"]
        told = self.told("shell", typed="\n".join(typed) + "\n")
        self.assertIn("campaign n0                                candidate 1 sent m0 2", told)
        self.assertIn("n0    Primary    1     1/0/2  0/0/0    1/0/2    0/0/0   1/1     0", told)
        self.assertIn("n1    Secondary  1     0/0/0  0/0/0    0/0/0    0/0/0   0/1     2", told)
        self.assertIn("acked 1/0/2", told)
        self.assertIn("did you mean 'insert'?", told)
        self.assertNotIn("down", told)
        kept = (self.room / "kept.replset").read_text().splitlines()
        self.assertEqual(kept[-1], "insert n0 t {_id: 1}")

    def test_a_block_is_answered_at_its_end(self) -> None:
        typed = ["elect n0", "par", "thread", "insert n0 t {_id: 1}", "thread", "insert n0 t {_id: 2}", "end", "dump n0 local"]
        told = self.told("shell", "--nodes", "1", typed="\n".join(typed) + "\n")
        self.assertEqual(told.count("written 1/0/"), 2)
        self.assertIn("documents 2", told)

    def test_undo_ends_a_partition(self) -> None:
        typed = ["partition n0", "undo", "heartbeat n0 n1", "deliver n0 n1"]
        self.assertIn("replied m1", self.told("shell", typed="\n".join(typed) + "\n"))

    def test_it_goes_on_from_a_file(self) -> None:
        told = self.told("shell", self.file(COMMITTED), typed="dump n2 local\nundo 99\nstatus\n")
        self.assertIn("orders {_id: 1, n: 0}", told)
        self.assertIn("n0    Secondary  0", told)

    def test_completions(self) -> None:
        player = Player(["set 2", "campaign n0", "deliver n0 n1", "deliver n1 n0", "drain n0", "insert n0 orders {_id: 1}"])
        player.lines.append("retry n0 7 1 insert people {_id: 1}")
        self.assertEqual(completions(player, "", "ins"), ["insert"])
        self.assertEqual(completions(player, "", "ele"), ["elect"])
        self.assertEqual(completions(player, "insert ", "n"), ["n0", "n1"])
        self.assertEqual(completions(player, "read n0 local ", "or"), ["orders"])
        self.assertEqual(completions(player, "read n0 local ", "pe"), ["people"])


class BadInput(LabTest):
    """What can be wrong."""

    def test_one_sentence_and_a_status(self) -> None:
        script = self.file(COMMITTED)
        (self.room / "bytes").write_bytes(bytes(range(256)))
        none = self.file(["hello"], "none.replset")
        empty = self.file([], "empty.replset")
        cases: List[Tuple[List[str], int, str]] = [
            (["run", "not_there"], 4, "not_there can't be read"), (["run", "."], 4, "can't be read"),
            (["run", "bytes"], 3, "is no script"), (["run", none], 3, "NoSetLine"), (["run", empty], 3, "NoSetLine"),
            (["picture", none], 3, "no script"), (["vary", none], 3, "no script"),
            (["shrink", none, "--keep", "x"], 8, "keep"),
            (["picture", script, "-o", "run.png"], 2, ".html"),
            (["picture", script, "-o", "no/where.svg"], 4, "can't be written"),
            (["picture", script, "--lines", "9-3"], 2, "no lines"), (["shrink", script], 2, "--keep"),
            (["shrink", script, "--keep", "("], 2, "no regular expression"),
            (["sweep", "--seeds", "x"], 2, "no seeds"),
            (["sweep", "--nodes", "51"], 2, "--nodes"),
            (["sweep", "--events", "5000", "--nodes", "50"], 2, "multiplied"),
            (["test", "not_there"], 4, "can't be read"), (["dance"], 2, "dance"),
            ([], 2, "WORD"), (["shell", "--nodes", "0"], 2, "--nodes"), (["shell", "not_there"], 4, "can't be read"),
        ]
        for words, status, told in cases:
            with self.subTest(words):
                done = self.lab(*words)
                self.assertEqual(done.returncode, status, done.stderr)
                self.assertIn(told, done.stderr)
                self.assertEqual(done.stderr.count("\n"), 1)

    def test_a_program_that_is_missing_or_none(self) -> None:
        for program in ("/not/there", str(self.room)):
            done = self.lab("run", self.file(COMMITTED), environment={"REPLSET": program})
            self.assertEqual(done.returncode, 5)
            self.assertIn("is no program", done.stderr)
        done = self.lab("run", self.file(COMMITTED), environment={"REPLSET": "/bin/false"})
        self.assertEqual(done.returncode, 6)

    def test_an_interrupt(self) -> None:
        self.file(script_by_chance(5, 3000), "long")
        # A shell's background jobs don't hear interrupts; this one shall.
        lab = subprocess.Popen([sys.executable, str(LAB), "vary", "long", "-j", "1"], cwd=self.room, env=self.environment,
                               stdout=subprocess.PIPE, stderr=subprocess.PIPE, text=True,
                               preexec_fn=lambda: signal.signal(signal.SIGINT, signal.SIG_DFL))
        # After Python's own start, also on a busy machine.
        time.sleep(5)
        lab.send_signal(signal.SIGINT)
        out, err = lab.communicate(timeout=60)
        self.assertEqual(lab.returncode, 130, err)
        self.assertNotIn("Traceback", err)
        self.assertIn("interrupted", out + err)

    def test_a_closed_pipe(self) -> None:
        self.file(script_by_chance(5, 3000), "long")
        done = subprocess.run(f"'{sys.executable}' '{LAB}' run long | head -1", shell=True, cwd=self.room, env=self.environment,
                              capture_output=True, text=True)
        self.assertEqual(done.stderr, "")

    def test_an_output_that_is_full_or_closed(self) -> None:
        name, seconds = self.file(COMMITTED), ["--seeds", "1-2", "--events", "20", "-j", "1"]
        (self.room / "none.trace").write_text("trace\n")
        (self.room / "d.json").write_text("{}")
        calls = [["run", name], ["verdict", name], ["check", "none.trace"], ["convert", "d.json"], ["expand", name], ["test", name], ["explain", "NoSource"],
                 ["shrink", name, "--keep", "won"], ["vary", name, "--only", "swap", "-j", "2"], ["sweep", *seconds], ["picture", name], ["shell", name], ["--help"]]
        for words in calls:
            for target, told in (("/dev/full", "no space left on device"), ("&-", "standard output is closed")):
                with self.subTest(words, target=target):
                    line = " ".join(["exec", sys.executable, str(LAB), *words, f">{target}"])
                    done = subprocess.run(["sh", "-c", line], input=b"status\n", stderr=subprocess.PIPE, cwd=self.room, env=self.environment)
                    last = done.stderr.decode().splitlines()[-1:]
                    if words != ["--help"] or target != "&-":
                        self.assertEqual((done.returncode, last and told in last[0]), (4, True), done.stderr)
                    self.assertNotIn(b"Traceback", done.stderr)

    def test_other_streams_that_are_closed(self) -> None:
        for words, status in (("run - <&-", 3), (f"run {self.file(COMMITTED)} 2>&-", 0), ("run nothing 2>&-", 4), ("vary - <&-", 3)):
            done = subprocess.run(f"'{sys.executable}' '{LAB}' {words}", shell=True, cwd=self.room, env=self.environment, capture_output=True)
            self.assertEqual(done.returncode, status, words)
            self.assertNotIn(b"Traceback", done.stderr + done.stdout)

    def test_an_interrupted_sweep_keeps_what_was_found(self) -> None:
        lab = subprocess.Popen([sys.executable, str(LAB), "sweep", "--seeds", "1-1000000", "--events", "50", "-j", "2"], cwd=self.room,
                               env=self.environment, stdout=subprocess.PIPE, stderr=subprocess.PIPE, text=True,
                               preexec_fn=lambda: signal.signal(signal.SIGINT, signal.SIG_DFL))
        time.sleep(8)
        lab.send_signal(signal.SIGINT)
        out, err = lab.communicate(timeout=60)
        self.assertEqual(lab.returncode, 130, err)
        self.assertRegex(out, r"^[1-9]\d* seeds, 50 events each")
        self.assertRegex(err, r"^lab: interrupted, after \d+ seeds\n$")

    def test_a_misspelt_field_of_a_configuration(self) -> None:
        done = self.lab("run", self.file(["set 1", "elect n0", "flush n0", 'reconfig n0 {"version":2,"members":[{"_id":0,"priorty":2}]}']))
        self.assertEqual((done.returncode, done.stderr), (0, 'lab: line 4 (6): the key "priorty" is passed over; did you mean "priority"?\n'))

    def test_help(self) -> None:
        self.assertIn("usage: lab", self.told("--help"))
        for name in WORD_NAMES:
            self.assertIn("usage: lab", self.told(name, "--help"))


class LongScripts(LabTest):
    """Each word on 5,000 lines by chance."""

    def test_words(self) -> None:
        name = self.file(script_by_chance(5, 5000))
        self.assertEqual(len(self.told("expand", name).splitlines()), 5000)
        self.assertIn("→", self.told("run", "--state", name))
        self.assertIn("it expects nothing", self.told("test", name))
        self.told("explain", name)
        self.assertIn("Secondary", self.told("shell", name, typed="status\n"))
        self.assertIn(self.lab("vary", name, "--limit", "4", "-j", "2").returncode, (0, 1))


if __name__ == "__main__":
    unittest.main()
