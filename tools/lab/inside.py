"""Plays scripts inside of this process, where the library is built and does all that stands in them.

It has no blocks, no failing disks and no scripts beyond the program's limits; and who names a program by
REPLSET wants that one.
"""
from __future__ import annotations

import os
import re
from typing import List, NamedTuple, Optional, Sequence, Tuple

from .library import BAD_LINE, STEPS, Held, NoLibrary, find_library, open_set
from .script import set_size, split_lines
from .transcript import Transcript, read_replies

MOST_BYTES, MOST_LINES, LONGEST = 8_388_608, 200_000, 1_048_576

#: How lines begin that only the program does.
_BEYOND = (b"\npar", b"\nthread", b"\nend", b"\ndiskfail")

#: A script up to its `set` line.
_FRONT = re.compile(rb"(?:(?:#[^\n]*|\r?)\n)*set [0-9]{1,9}(?: [0-9]{1,9}){0,2}\r?(?:\n|\Z)")


class Played(NamedTuple):
    """What a script came to: its transcript, or the first faulty line with its rule."""

    text: bytes
    fault: Optional[Tuple[int, str]] = None


def is_wanted() -> bool:
    """Whether scripts are played inside of this process."""
    return (not os.environ.get("REPLSET") or "REPLSET_LIBRARY" in os.environ) and find_library() is not None


def played(script: bytes) -> Optional[Played]:
    """What a script comes to, or nothing where that is for the program."""
    if not is_wanted() or _is_beyond(script) or len(script) > MOST_BYTES or script.count(b"\n") >= MOST_LINES:
        return None
    begun = _opened(script, locked=False)
    if begun is None:
        return None
    held, place = begun
    try:
        answer = held.call(STEPS, script[place:])
    finally:
        held.close()
    return Played(b"", _fault(answer.text)) if answer.status == BAD_LINE else Played(answer.text)


def _is_beyond(script: bytes) -> bool:
    return any(word in script or script.startswith(word[1:]) for word in _BEYOND)


def opened(script: bytes, number: Optional[int] = None) -> Optional[Tuple[Held, int]]:
    """The set that a script begins with, and where its other lines begin; nothing where it is for the
    program. With a number that is the `set` line's, and those after it have the next."""
    return None if not is_wanted() or _is_beyond(script) else _opened(script, True, number)


def _opened(script: bytes, locked: bool, number: Optional[int] = None) -> Optional[Tuple[Held, int]]:
    """The set that a script begins with, and where its other lines begin."""
    front = _FRONT.match(script)
    if front is None or front.end() > LONGEST:
        return None
    try:
        lines = split_lines(front[0].decode())
        size = set_size(lines)
        return open_set(size.nodes, size.voters, size.members, number or len(lines), locked), front.end()
    except (ValueError, NoLibrary):
        return None


def _fault(text: bytes) -> Tuple[int, str]:
    number, rule = text.decode("utf-8", "replace").rstrip("\n").rpartition("\n")[2][len("line ") :].split(": ", 1)
    return int(number), rule


class Follower:
    """A set that follows a script which grows, so that what would come next needn't play all lines anew."""

    def __init__(self, held: Optional[Held] = None, done: Sequence[str] = ()):
        self._held, self._count = held, len(done)
        self._last = done[-1] if done else ""
        self._given = held is not None
        self._unread: List[bytes] = []
        self._transcript = Transcript()

    def forget(self) -> None:
        """Must be called where lines of the script were taken away."""
        if not self._given:
            self._held, self._count = None, 0
            self._unread, self._transcript = [], Transcript()

    def transcript(self, lines: List[str]) -> Optional[Transcript]:
        """All replies to these lines, which grow as they do; nothing where that is for a play of all of
        them."""
        if self._given or not is_wanted() or not self._follow(lines):
            return None
        for reply in read_replies(b"".join(self._unread).decode("utf-8", "surrogateescape")):
            self._transcript.replies.append(reply)
            self._transcript.by_line[reply.line] = reply
        self._unread = []
        return self._transcript

    def replies(self, lines: List[str], asked: Sequence[str]) -> Optional[bytes]:
        """What lines would reply that stand after these; nothing where that is for a play of all of them."""
        if not self._given and not is_wanted() or not self._follow(lines):
            return None
        assert self._held is not None
        script = _script(asked)
        if _is_beyond(script):
            return None
        branch = self._held.copy()
        answer = branch.call(STEPS, script)
        branch.close()
        return None if answer.status else answer.text

    def _follow(self, lines: List[str]) -> bool:
        """Does what stands in the script beyond what was done. Gives whether it could."""
        if self._held is not None and (self._count > len(lines) or lines[self._count - 1] is not self._last):
            self.forget()
        if self._held is None and not self._open(lines):
            return False
        if self._count < len(lines):
            script = _script(lines[self._count :])
            answer = None if _is_beyond(script) or self._held is None else self._held.call(STEPS, script)
            if answer is None or answer.status:
                self.forget()
                return False
            self._count, self._last = len(lines), lines[-1]
            if not self._given:
                self._unread.append(answer.text)
        return True

    def _open(self, lines: List[str]) -> bool:
        begun = _opened(_script(lines), locked=True)
        if begun is None:
            return False
        self._held, place = begun
        self._count = _script(lines)[:place].count(b"\n")
        self._last = lines[self._count - 1]
        return True


def _script(lines: Sequence[str]) -> bytes:
    return "\n".join([*lines, ""]).encode("utf-8", "surrogateescape")
