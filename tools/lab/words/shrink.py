"""`lab shrink`: the smallest script that still does it."""
from __future__ import annotations

import argparse
import os
import re
import subprocess
import sys
import time
from typing import List, Tuple

from ..errors import NOTHING, WORDS, LabError, ScriptFault
from ..expand import Expanded, read_script
from ..program import find_program, script_bytes, transcript_bytes
from ..smaller import Test, named_by_nodes, smallest
from ..telling import names_of, what_happened
from ..verdicts import MEANINGS

SUMMARY = "prints the smallest script that still does it"
DETAILS = """\
What it does is said by --keep, a regular expression that the transcript must go on to match ('^' and '$' stand for the
ends of each line; numbers of lines change, so leave them out: ': rolled back', 'refused 24'); by --verdict, the name of a
verdict that its run must go on to have ('lab verdict --help' has them); or by --check, a command that the shell runs with
the script on its standard input, and with REPLSET in its environment, and that must end with status 0.

What happened to the data of what is left is told on standard error.

Comments go, deliveries by number become 'deliver A B' where that is the same message, and lines are left out for as long
as the rest still does it. In what is left no line can be left out."""


def add_arguments(parser: argparse.ArgumentParser) -> None:
    """The word's arguments."""
    parser.add_argument("file", metavar="FILE", help="a script, short or plain; - for standard input")
    what = parser.add_mutually_exclusive_group(required=True)
    what.add_argument("--keep", metavar="REGEX", help="what the transcript must go on to match")
    what.add_argument("--verdict", metavar="NAME", choices=list(MEANINGS), help="the verdict that its run must go on to have")
    what.add_argument("--check", metavar="CMD", help="a command that must go on to end with status 0")
    parser.add_argument("-j", dest="jobs", metavar="N", type=int, default=os.cpu_count() or 1,
                        help="how many scripts are played at a time (as many as there are processors)")


def pattern(text: str) -> "re.Pattern[str]":
    """A regular expression over a transcript's lines."""
    try:
        return re.compile(text, re.MULTILINE)
    except re.error as fault:
        raise LabError(WORDS, f"'{text}' is no regular expression: {fault}") from None


def _keeps(wanted: "re.Pattern[str]") -> Test:
    def test(lines: List[str]) -> bool:
        try:
            told = transcript_bytes(lines)
        except ScriptFault:
            return False
        return wanted.search(told.decode("utf-8", "replace")) is not None

    return test


def _has_verdict(name: str) -> Test:
    def test(lines: List[str]) -> bool:
        try:
            return name in names_of(lines)
        except ScriptFault:
            return False

    return test


def _checks(command: str) -> Test:
    environment = {**os.environ, "REPLSET": find_program()}

    def test(lines: List[str]) -> bool:
        done = subprocess.run(command, shell=True, input=script_bytes(lines), env=environment,
                              stdout=subprocess.DEVNULL, stderr=subprocess.DEVNULL)
        return done.returncode == 0

    return test


class _Counter:
    """How many lines are left, on standard error where that is a terminal."""

    def __init__(self) -> None:
        self._shown = sys.stderr.isatty()

    def step(self, left: int) -> None:
        """So many lines are left."""
        if self._shown:
            print(f"\r\033[K{left} lines are left", end="", file=sys.stderr, flush=True)

    def close(self) -> None:
        """Takes the count away."""
        if self._shown:
            print("\r\033[K", end="", file=sys.stderr, flush=True)


def _wanted(arguments: argparse.Namespace) -> Tuple[Test, str]:
    """What a script must go on to do, and what is told where it doesn't do it as it is."""
    if arguments.keep is not None:
        return _keeps(pattern(arguments.keep)), f"nothing in its transcript matches '{arguments.keep}'"
    if arguments.verdict is not None:
        return _has_verdict(arguments.verdict), f"its run has no verdict {arguments.verdict}"
    return _checks(arguments.check), "the command fails on it"


def main(arguments: argparse.Namespace) -> int:
    """Prints the smallest script, and on standard error what it took."""
    lines = read_script(arguments.file)
    test, missing = _wanted(arguments)
    if not test(lines):
        raise LabError(NOTHING, f"there is nothing to keep in {arguments.file}: {missing}")
    begun, counter = time.monotonic(), _Counter()
    named = named_by_nodes(lines)
    try:
        small = smallest(named if test(named) else lines, test, max(1, arguments.jobs), counter.step)
    finally:
        counter.close()
    sys.stdout.buffer.write(script_bytes(small))
    sys.stdout.flush()
    told = what_happened(Expanded(small, list(range(1, len(small) + 1))))
    print("\n".join(told), file=sys.stderr)
    print(f"lab: {len(lines)} lines became {len(small)} in {time.monotonic() - begun:.1f} s", file=sys.stderr)
    return 0
