"""The lines of a set so far, which its copies share."""
from __future__ import annotations

from typing import List, Optional, Sequence


class Past:
    """Lines that only grow. `branch` takes no longer for many of them."""

    def __init__(self, before: "Optional[Past]" = None):
        self._before = before
        self._own: List[str] = []
        self.count: int = before.count if before is not None else 0

    def add(self, line: str) -> None:
        """One more."""
        self._own.append(line)
        self.count += 1

    def extend(self, lines: Sequence[str]) -> None:
        """More of them."""
        self._own.extend(lines)
        self.count += len(lines)

    def branch(self) -> "Past":
        """Another past with the same lines. Each goes on by itself."""
        if self._own:
            shared = Past(self._before)
            shared._own, shared.count = self._own, self.count
            self._own, self._before = [], shared
        return Past(self._before)

    def lines(self) -> List[str]:
        """All of them, in order."""
        parts: List[List[str]] = []
        place: Optional[Past] = self
        while place is not None:
            parts.append(place._own)
            place = place._before
        return [line for part in reversed(parts) for line in part]
