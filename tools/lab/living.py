"""A set that is left to itself: what its members do on their own, drawn by a seed."""
from __future__ import annotations

from typing import Callable, Dict, List, Optional

from .chance import drawing
from .errors import LabError
from .player import Player
from .state import State


class Living:
    """Lets members act: heartbeats, fetches, reports, flushes, and elections where nobody hears a primary.

    `linked` says whether messages pass between two nodes, `elect` has one elected, and `fetch` takes one answer of its source."""

    def __init__(
        self, player: Player, linked: Callable[[int, int], bool], elect: Callable[[int], None], fetch: Callable[[int], object]
    ):
        self._player, self._linked, self._elect, self._fetch = player, linked, elect, fetch

    def tick(self, count: int, seed: int) -> None:
        """So many times a member does something."""
        draw = drawing(seed)
        for _ in range(count):
            states = self._player.states()
            up = [node for node, state in states.items() if not state.down]
            if up:
                self._act(up[draw(len(up))], states, draw)

    def _act(self, node: int, states: Dict[int, State], draw: Callable[[int], int]) -> None:
        """One member does one thing. What it draws it draws in any case, so that a seed stays the same for longer."""
        what, other = draw(8), draw(max(1, len(states) - 1))
        others = self._player.other_members(node)
        leader = self._leader(node, states)
        if states[node].role in ("Candidate", "Draining") or leader is None:
            if what < 3 and node in self._voters(node):
                self._try(self._elect, node)
        elif leader == node:
            self._say([f"flush n{node}"] if what < 3 else self._beat(node, others, other))
        elif what < 3:
            self._say(self._beat(leader, [node], 0))
            self._try(self._fetch, node)
        elif what < 5:
            self._say([f"flush n{node}", f"apply n{node}"])
        elif what < 7:
            self._say([f"report n{node} n{leader}", f"deliver n{node} n{leader}"])
        else:
            self._say(self._beat(node, others, other))

    def _voters(self, node: int) -> List[int]:
        return list(self._player.members(node).voters)

    def _leader(self, node: int, states: Dict[int, State]) -> Optional[int]:
        """The primary of the highest term that the node hears, itself if it is that."""
        leaders = [(int(state.term), one) for one, state in states.items() if state.role == "Primary"]
        heard = [(term, one) for term, one in leaders if one == node or self._linked(node, one)]
        return max(heard)[1] if heard else None

    def _beat(self, node: int, others: List[int], which: int) -> List[str]:
        """A heartbeat to one of the others, and its answer."""
        near = [other for other in others if self._linked(node, other)]
        if not near:
            return []
        other = near[which % len(near)]
        return [f"heartbeat n{node} n{other}", f"deliver n{node} n{other}", f"deliver n{other} n{node}"]

    def _say(self, lines: List[str]) -> None:
        """Puts in those of the lines that aren't refused, up to the first delivery that is."""
        for line in lines:
            if self._player.attempt(line).refused and line.startswith("deliver"):
                return

    @staticmethod
    def _try(does: Callable[[int], object], node: int) -> None:
        """What a member tries may fail: nothing comes of it then."""
        try:
            does(node)
        except LabError:
            pass
