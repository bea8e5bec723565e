"""What the comments of a script expect, and whether it is so.

`# expect: TEXT` after a command speaks of its reply: the reply is TEXT, or begins with it and a space; `..` in TEXT
stands for anything. Several such comments in a row speak of the reply's lines, one after another. Where a macro tells what came
of it, they speak of that.
"""
from __future__ import annotations

import re
from dataclasses import dataclass
from typing import List, Optional, Sequence, Tuple

from .asking import TOLD
from .script import is_silent
from .transcript import Transcript

_EXPECTS = re.compile(r"#\s*expect:\s?(.*)$")


@dataclass(frozen=True)
class Expectation:
    """What one comment expects of the line of a reply, and what that line is."""

    line: int
    command: str
    wanted: str
    found: Optional[str]

    @property
    def met(self) -> bool:
        """Whether it is so."""
        return self.found is not None and fits(self.wanted, self.found)


def fits(wanted: str, found: str) -> bool:
    """Whether a line of a reply is as expected."""
    parts = [re.escape(part) for part in wanted.strip().split("..")]
    return re.match(".*".join(parts) + r"(?:$|(?<=\s)|\s)", found) is not None


def expectations(lines: Sequence[str], transcript: Transcript) -> List[Expectation]:
    """All that the comments of a plain script expect."""
    found: List[Expectation] = []
    command, told, place = "", [], 0  # type: Tuple[str, List[str], int]
    for at, line in enumerate(lines, 1):
        said = _EXPECTS.match(line.rstrip("\r"))
        if said:
            found.append(Expectation(at, command, said[1], told[place] if place < len(told) else None))
            place += 1
        elif line.startswith(TOLD):
            # The lines that a macro tells follow each other.
            told = [*(told if lines[at - 2].startswith(TOLD) else []), line[len(TOLD) :].strip()]
            command, place = "the macro", 0
        elif not is_silent(line):
            reply = transcript.by_line.get(at)
            command, told, place = line, [reply.text, *reply.more] if reply else [], 0
    return found
