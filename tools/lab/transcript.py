"""The replies of a run, by the number of their line and in the order in which they were given."""
from __future__ import annotations

import re
from dataclasses import dataclass, field
from typing import Dict, List, NamedTuple, Tuple

#: A reply, with the lines below it.
_REPLY = re.compile(r"^([0-9]+): (.*)((?:\n  .*)*)$", re.MULTILINE)


class Reply(NamedTuple):
    """The reply to one line: its text, and what stands below it."""

    line: int
    text: str
    more: Tuple[str, ...] = ()

    @property
    def refused(self) -> bool:
        """Whether the command was refused."""
        return self.text.startswith("refused ")

    @property
    def unheard(self) -> bool:
        """Whether a delivery came to nothing: it was refused or ignored, or brought no vote."""
        return self.text.startswith(("refused ", "ignored ", "vote refused "))


@dataclass
class Transcript:
    """All replies of a run: those of a block stand in the order in which its lines were played."""

    replies: List[Reply] = field(default_factory=list)
    by_line: Dict[int, Reply] = field(default_factory=dict)

    def text(self, line: int) -> str:
        """The reply to a line, or nothing where it has none."""
        reply = self.by_line.get(line)
        return reply.text if reply else ""


def read_transcript(text: str) -> Transcript:
    """The replies in what the program put."""
    replies = read_replies(text)
    return Transcript(replies, {reply.line: reply for reply in replies})


def read_replies(text: str) -> List[Reply]:
    """The same, in their order."""
    found = _REPLY.findall(text)
    return [Reply(int(number), said, tuple(more[3:].split("\n  ")) if more else ()) for number, said, more in found]


def read_texts(text: str) -> List[str]:
    """The same without their numbers, each with the lines below it as they stand."""
    lines = text.split("\n")[:-1]
    if "\n  " not in text:
        return [line.partition(": ")[2] for line in lines]
    found: List[str] = []
    for line in lines:
        if line.startswith("  "):
            found[-1] += "\n" + line
        else:
            found.append(line.partition(": ")[2])
    return found
