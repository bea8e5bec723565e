"""What is told of a run: its writes and what became of them, its reads and what they showed, and where its nodes are at the end."""
from __future__ import annotations

from dataclasses import dataclass, field
from typing import Dict, List, Optional, Tuple

from .histories import Histories
from .keys import Place
from .state import Optime, State


@dataclass(frozen=True)
class Removal:
    """A node gave up an entry: in a rollback, or as it crashed before the entry was on its disk."""

    node: int
    line: int
    rollback: bool


@dataclass
class Write:
    """A write of the script, with the optime that it was answered or began with."""

    line: int
    text: str
    node: int
    at: Optime
    place: Optional[Place]
    #: Whether its entry was ever written; a writer's isn't before its `commit`.
    done: bool = True
    #: The concerns at which it was acknowledged, each with the first line.
    acks: Dict[str, int] = field(default_factory=dict)
    removals: List[Removal] = field(default_factory=list)
    #: The nodes that have it at the end, and those that are down and have it on disk.
    logs: List[int] = field(default_factory=list)
    disks: List[int] = field(default_factory=list)
    committed: bool = False
    lost: bool = False


@dataclass
class Read:
    """A `read` or a `dump` that was answered: up to where it shows the node's log, where that is known."""

    line: int
    node: int
    level: str
    place: Optional[Place]
    front: Optional[Optime]
    #: The write that a `read` shows.
    shown: Optional[Write] = None
    #: A write that was acknowledged at majority, or shown by a majority read, before this, and that this doesn't show.
    missed: Optional[Write] = None


@dataclass
class Config:
    """A configuration: its line, who made it, what it came from, and who votes in it."""

    line: int
    asked: bool
    parent: str
    voters: Tuple[int, ...]


@dataclass
class Story:
    """All that is told of a run."""

    writes: List[Write] = field(default_factory=list)
    reads: List[Read] = field(default_factory=list)
    histories: Histories = field(default_factory=Histories)
    #: At the end: each node's state, where its log ends, or where on disk it does if it is down.
    states: Dict[int, State] = field(default_factory=dict)
    lasts: Dict[int, Optime] = field(default_factory=dict)
    configs: Dict[str, Config] = field(default_factory=dict)
    #: The configuration of each node at the end, or on its disk.
    held: Dict[int, str] = field(default_factory=dict)
    #: The nodes whose last rollback `rolled` still shows, with the line of that rollback.
    shown_by_rolled: Dict[int, int] = field(default_factory=dict)
    #: The nodes that were primary at once, each with the line that made it so; and the line that ended the last primary.
    together: List[Tuple[Tuple[int, int], Tuple[int, int]]] = field(default_factory=list)
    ended: Optional[int] = None

    def leader(self) -> Optional[int]:
        """The primary of the highest term at the end."""
        leaders = [(int(state.term), node) for node, state in self.states.items() if state.role == "Primary"]
        return max(leaders)[1] if leaders else None
