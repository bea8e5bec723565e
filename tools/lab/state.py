"""What a node is, as a `state` line tells it, and what changed between two of them."""
from __future__ import annotations

import re
from dataclasses import dataclass
from functools import lru_cache
from typing import List, Tuple

from .script import KEPT

_STATE = re.compile(
    r"state (\w+) term (\d+) vote (\w+) last (\S+) durable (\S+) applied (\S+) commit (\S+) config (\S+) rollback (\d+)$"
)

Optime = Tuple[int, int, int]


@lru_cache(KEPT)
def optime(text: str) -> Optime:
    """An optime as three numbers, which are ordered as optimes are."""
    term, seconds, increment = text.split("/")
    return int(term), int(seconds), int(increment)


@dataclass(frozen=True)
class State:
    """A node at some moment. Where it is down nothing else is known of it."""

    role: str
    term: str = "-"
    vote: str = "-"
    last: str = "-"
    durable: str = "-"
    applied: str = "-"
    commit: str = "-"
    config: str = "-"
    rollback: str = "-"

    @property
    def down(self) -> bool:
        """Whether the node is down."""
        return self.role == "Down"


DOWN = State("Down")


def opening_state() -> State:
    """What each node is before the first command."""
    zero = "0/0/0"
    return State("Secondary", "0", "none", zero, zero, zero, zero, "0/1", "0")


@lru_cache(KEPT)
def read_state(reply: str) -> State:
    """The state that a `state` line's reply tells; a refusal says that the node is down."""
    found = _STATE.match(reply)
    return State(*found.groups()) if found else DOWN


def changes(node: int, before: State, after: State) -> str:
    """What changed, as `n0: Primary→Secondary, term 1→2`, or nothing where nothing did."""
    if before == after:
        return ""
    told: List[str] = []
    if before.role != after.role:
        told.append(f"{before.role}→{after.role}")
    if not before.down and not after.down:
        for name in ("term", "vote", "last", "durable", "applied", "commit", "config", "rollback"):
            old, new = getattr(before, name), getattr(after, name)
            if old != new:
                told.append(f"{name} {old}→{new}")
    elif before.down:
        told.append(f"last {after.last}, term {after.term}")
    return f"n{node}: " + ", ".join(told)
