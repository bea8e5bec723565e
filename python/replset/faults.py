"""What can't be a reply."""
from __future__ import annotations

from .lab.library import NoLibrary

__all__ = ["BadLine", "NoLibrary", "Stopped"]


class BadLine(ValueError):
    """A line that no script has, or that a set in a process can't do. It changed nothing.

    `rule` is the name of the rule that it breaks, with what follows it, `line` its number. Of a batch `done`
    lines before it were done."""

    def __init__(self, line: int, rule: str, text: str, done: int = 0):
        super().__init__(f"line {line}: {rule}: {text[:100]}")
        self.line = line
        self.rule = rule
        self.text = text
        self.done = done


class Stopped(RuntimeError):
    """A macro that couldn't go on. Nothing of it stays; `lines` is the script up to there."""

    def __init__(self, why: str, lines: "list[str]"):
        super().__init__(why)
        self.why = why
        self.lines = lines
