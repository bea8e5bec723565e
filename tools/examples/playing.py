"""How a program is asked, and how what it answers is held against what is written."""
from __future__ import annotations

import itertools
import os
import subprocess
from typing import Callable, List, NamedTuple, Optional, Sequence

from lab.transcript import Reply, read_transcript

#: No run takes so many seconds.
LONGEST = 300

#: So many letters of a wrong line are shown.
SHOWN = 160

#: The words that ask for a script to be run, for its trace, and for a check of one.
RUN, TRACE, CHECK = ["run"], ["trace"], ["check"]

#: The statuses of a run, beside 0.
WRONG_WORDS, NO_SCRIPT, READ_FAULT, TOO_LARGE, REFUSED, NO_TRACE = 2, 3, 4, 6, 9, 10


class Fault(Exception):
    """What isn't as it is to be, in one sentence."""


class Ended(NamedTuple):
    """How a run ended, and what it put."""

    status: int
    put: str


class Program:
    """A built program, each call of which is a run of its own."""

    def __init__(self, path: str):
        self.path = path
        self.name = os.path.relpath(path)

    def ask(self, words: Sequence[str], given: str = "") -> Ended:
        """How a run on these words and this input ends. A lone surrogate is a byte that isn't UTF-8."""
        return self._ended(words, input=given.encode("utf-8", "surrogateescape"))

    def ask_from(self, words: Sequence[str], source: int) -> Ended:
        """The same, where the input is an open file."""
        return self._ended(words, stdin=source)

    def replies(self, script: str) -> List[Reply]:
        """The replies to a script, in the order in which they come."""
        ended = self.ask(RUN, script)
        if ended.status != 0:
            raise Fault(f"a script ends with status {ended.status}")
        return read_transcript(ended.put).replies

    def _ended(self, words: Sequence[str], **how: object) -> Ended:
        ended = subprocess.run([self.path, *words], capture_output=True, timeout=LONGEST, **how)
        return Ended(ended.returncode, ended.stdout.decode("utf-8", "backslashreplace"))


class Task(NamedTuple):
    """Something that a program has to do: `check` raises a Fault where it doesn't."""

    what: str
    check: Callable[[Program], None]


def expect(ended: Ended, status: int, put: str) -> None:
    """Raises a Fault where a run ended with another status, or put anything else."""
    if ended.put != put:
        raise Fault(_difference(put, ended.put))
    if ended.status != status:
        raise Fault(f"the status is {ended.status}, and not {status}")


def hold(holds: bool, fault: str) -> None:
    """Raises a Fault where something doesn't hold."""
    if not holds:
        raise Fault(fault)


def said(reply: Reply) -> str:
    """All that a reply says after the number of its line."""
    return "\n".join((reply.text, *reply.more))


def _difference(written: str, put: str) -> str:
    """The first line in which the texts differ."""
    pairs = itertools.zip_longest(written.split("\n"), put.split("\n"))
    number, (line, other) = next((number, pair) for number, pair in enumerate(pairs, 1) if pair[0] != pair[1])
    return f"line {number} of what is put is {_shown(other)}, and not {_shown(line)}"


def _shown(line: Optional[str]) -> str:
    if line is None:
        return "missing"
    return repr(line if len(line) <= SHOWN else line[:SHOWN] + "..")
