"""Places in an oplog."""
from __future__ import annotations

from typing import NamedTuple


class Optime(NamedTuple):
    """Where an entry stands: the term of its primary, and a timestamp. They are ordered as the oplog is."""

    term: int
    seconds: int
    increment: int

    def __str__(self) -> str:
        return f"{self.term}/{self.seconds}/{self.increment}"

    @classmethod
    def of(cls, text: str) -> "Optime":
        """The optime that a text such as `1/0/2` tells."""
        term, seconds, increment = text.split("/")
        return cls(int(term), int(seconds), int(increment))


#: Before all entries.
ZERO = Optime(0, 0, 0)
