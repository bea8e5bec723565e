"""A script beside its replies, and other texts for a terminal."""
from __future__ import annotations

import shutil
import sys
import time
from typing import Dict, List, Optional, Sequence

from .transcript import Transcript

#: What takes fewer seconds shows no progress.
UNSEEN = 2.0

#: A script's line of more than so many characters has its reply below it.
WIDEST = 56


def printable(text: str) -> str:
    """A text that can be put anywhere: what wasn't UTF-8 becomes question marks."""
    return text.encode("utf-8", "surrogateescape").decode("utf-8", "replace").rstrip("\r")


def beside(
    lines: Sequence[str], transcript: Transcript, notes: Dict[int, List[str]], source: Optional[Sequence[int]] = None
) -> List[str]:
    """Each line with its reply on the right, and under it what more there is of the reply, and its notes.

    With `source`, the number of the file's line that each came from stands in front."""
    shown = [printable(line) for line in lines]
    digits, wide = len(str(len(lines))), len(str(source[-1])) if source else 0
    width = min(WIDEST, max((len(line) for line in shown if not line.startswith("#")), default=0))
    indent = " " * (digits + width + 5 + (wide + 2 if source else 0))
    told: List[str] = []
    for number, line in enumerate(shown, 1):
        reply = transcript.by_line.get(number)
        front = (f"{source[number - 1]:{wide}}  " if source else "") + f"{number:{digits}}  "
        if reply is None:
            told.append((front + line).rstrip())
            continue
        if len(line) <= width:
            told.append(f"{front}{line:{width}}   {printable(reply.text)}")
        else:
            told += [front + line, indent + printable(reply.text)]
        told += [indent + "  " + printable(more) for more in reply.more]
        told += [f"{indent}· {note}" for note in notes.get(number, [])]
    return told


def marked(one: str, first: str, other: str, second: str) -> List[str]:
    """Two texts below each other, each after what it is, and a mark below the place where they part."""
    width = max(len(one), len(other))
    same = next((place for place, (a, b) in enumerate(zip(first, second)) if a != b), min(len(first), len(second)))
    return [f"  {one:{width}}  {printable(first)}", f"  {other:{width}}  {printable(second)}", " " * (width + 4 + same) + "^"]


def table(rows: Sequence[Sequence[str]]) -> List[str]:
    """Rows with their columns in line; the first row is the heading."""
    widths = [max(len(row[place]) for row in rows) for place in range(len(rows[0]))]
    return ["  ".join(f"{cell:{width}}" for cell, width in zip(row, widths)).rstrip() for row in rows]


class Progress:
    """A bar on standard error, where that is a terminal and the work takes more than two seconds."""

    def __init__(self, total: int, what: str):
        self._total, self._what, self._done = total, what, 0
        self._begun = time.monotonic()
        self._may_show, self._shown = sys.stderr.isatty(), False

    def step(self, count: int = 1) -> None:
        """So many more are done."""
        self._done += count
        self._shown = self._shown or self._may_show and time.monotonic() - self._begun > UNSEEN
        if not self._shown:
            return
        room = max(10, min(40, shutil.get_terminal_size().columns - len(self._what) - 24))
        full = room * self._done // max(1, self._total)
        bar = "#" * full + "." * (room - full)
        print(f"\r{self._what} [{bar}] {self._done} of {self._total}", end="", file=sys.stderr, flush=True)

    def close(self) -> None:
        """Takes the bar away."""
        if self._shown:
            print("\r\033[K", end="", file=sys.stderr, flush=True)
