"""The logs of a run, each named by its last optime.

What stands before an entry is the same in every log that has the entry. So the last optime of a log says all that is in it, and
the replies tell the last optime of each node's log after each line that changes it.
"""
from __future__ import annotations

from bisect import bisect_left, bisect_right, insort
from typing import Dict, List

from .state import Optime

ZERO: Optime = (0, 0, 0)


class Histories:
    """Of each term what its primary wrote, and where its log ended before that."""

    def __init__(self) -> None:
        self._written: Dict[int, List[Optime]] = {}
        self._before: Dict[int, Optime] = {}

    def branch(self) -> "Histories":
        """The same, for a run that goes on otherwise."""
        made = Histories.__new__(Histories)
        made._written, made._before = {term: list(written) for term, written in self._written.items()}, dict(self._before)
        return made

    def begin(self, term: int, last: Optime) -> None:
        """A primary's term begins, over a log that ends there."""
        self._before.setdefault(term, last)

    def write(self, at: Optime) -> None:
        """The primary of the optime's term writes an entry there."""
        written = self._written.setdefault(at[0], [])
        if not self._has_own(at):
            insort(written, at)

    def has(self, last: Optime, at: Optime) -> bool:
        """Whether the log that ends at `last` has the entry."""
        while last[0] > at[0]:
            last = self._before.get(last[0], ZERO)
        return last[0] == at[0] and at <= last and self._has_own(at)

    def after(self, last: Optime, cut: Optime) -> List[Optime]:
        """The entries past `cut` of the log that ends at `last`."""
        found: List[Optime] = []
        while last > cut:
            written = self._written.get(last[0], [])
            found = [at for at in written[: bisect_right(written, last)] if at > cut] + found
            last = self._before.get(last[0], ZERO)
        return found

    def _has_own(self, at: Optime) -> bool:
        written = self._written.get(at[0], [])
        place = bisect_left(written, at)
        return place < len(written) and written[place] == at
