"""A script that grows line by line, and what the program replies to it. By the program each question plays all of it anew."""
from __future__ import annotations

import re
from typing import Dict, List, Optional

from .inside import Follower
from .mail import Configs, Members, Message
from .observe import observe
from .program import last_replies, play
from .script import SetSize, acting_node, is_silent, set_size, words_of
from .state import State, read_state
from .transcript import Reply, Transcript, read_transcript

#: A line that is repeated is looked at so often at a time.
AT_A_TIME = 6


class Player:
    """The lines so far. Lines that nobody asks about are played with the next question only."""

    def __init__(self, lines: Optional[List[str]] = None, follower: Optional[Follower] = None):
        self.lines: List[str] = list(lines or [])
        self._played: Optional[Transcript] = None
        self._follower = follower or Follower()

    def add(self, line: str) -> None:
        """Adds a line, and doesn't ask for its reply."""
        self.lines.append(line)
        self._played = None

    def forget(self) -> None:
        """Must be called where lines were taken away."""
        self._played = None
        self._follower.forget()

    def ask(self, line: str) -> Reply:
        """Adds a line and gives its reply."""
        reply = self.look(line)
        self.add(line)
        return reply

    def attempt(self, line: str) -> Reply:
        """The reply to a line, which is added only where it isn't refused."""
        reply = self.look(line)
        if not reply.refused:
            self.add(line)
        return reply

    def repeat(self, line: str) -> None:
        """Adds a line as often as it isn't refused. Several at a time are looked at."""
        taken = AT_A_TIME
        while taken == AT_A_TIME:
            replies = self._next([line] * AT_A_TIME).replies
            taken = next((place for place, reply in enumerate(replies) if reply.refused), AT_A_TIME)
            for _ in range(taken):
                self.add(line)

    def look(self, line: str) -> Reply:
        """The reply that a line would have here. It isn't added."""
        return self._next([line]).by_line[len(self.lines) + 1]

    def _next(self, asked: List[str]) -> Transcript:
        """The replies that lines would have here. They aren't added."""
        told = self._follower.replies(self.lines, asked)
        if told is None:
            return last_replies([*self.lines, *asked], len(self.lines) + 1)
        return read_transcript(told.decode("utf-8", "surrogateescape"))

    def transcript(self) -> Transcript:
        """All replies so far."""
        followed = self._follower.transcript(self.lines)
        if followed is not None:
            return followed
        if self._played is None:
            self._played = play(self.lines)
        return self._played

    def size(self) -> SetSize:
        """How many nodes the set has, and how many of them vote and are members."""
        return set_size(self.lines)

    def states(self) -> Dict[int, State]:
        """What each node is now."""
        nodes = range(self.size().nodes)
        asked = [f"state n{node}" for node in nodes]
        first = len(self.lines) + 1
        transcript = self._next(asked)
        return {node: read_state(transcript.text(first + node)) for node in nodes}

    def members(self, node: int) -> Members:
        """The members of the configuration that a node has."""
        config = read_state(self.look(f"state n{node}").text).config
        if config.endswith("/1"):
            return Configs(self.size()).members_of("0/1")
        return observe(self.lines, len(self.lines) + 1).mail.configs.members_of(config)

    def other_members(self, node: int) -> List[int]:
        """The members of a node's configuration but itself."""
        return [other for other in self.members(node).numbers if other != node]

    def other_voters(self, node: int) -> List[int]:
        """The voters of a node's configuration but itself: these it asks for votes."""
        return [other for other in self.members(node).voters if other != node]

    def message(self, line: str) -> Optional[Message]:
        """The message that `deliver mK` would hand over. One that was sent in a block which is still open isn't known."""
        if not re.fullmatch(r"deliver m[0-9]+", line):
            return None
        block = self.open_block()
        lines = self.lines if block is None else self.lines[:block]
        return observe(lines, len(lines) + 1).mail.receive(line)

    def newest_write(self, node: int) -> Optional[str]:
        """The optime of the newest write that the node was answered with."""
        for reply in reversed(self.transcript().replies):
            words = reply.text.split(" ")
            if words[0] in ("written", "committed") and acting_node(self.lines[reply.line - 1]) == node:
                return words[1]
        return None

    def open_block(self) -> Optional[int]:
        """The place in the list of the `par` that isn't ended yet."""
        for place in range(len(self.lines) - 1, -1, -1):
            word = "" if is_silent(self.lines[place]) else words_of(self.lines[place])[0]
            if word == "end":
                return None
            if word == "par":
                return place
        return None
