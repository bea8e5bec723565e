"""The nodes of a set as a table, as rs.status() has them."""
from __future__ import annotations

from typing import Dict, List, Tuple

from .player import Player
from .program import play
from .show import table
from .state import State


def status_table(player: Player) -> List[str]:
    """A row for each node: role, term, how far it is written, durable, applied and committed, and how far it lags."""
    states = player.states()
    lags = _lags(player, states)
    rows = [["node", "role", "term", "last", "durable", "applied", "commit", "config", "lag"]]
    for node, state in states.items():
        rows.append([
            f"n{node}", state.role, state.term, state.last, state.durable, state.applied, state.commit, state.config, lags[node],
        ])
    return table(rows)


def _lags(player: Player, states: Dict[int, State]) -> Dict[int, str]:
    """How many entries of the primary each node hasn't, and how many it has that the primary hasn't."""
    leaders = [node for node, state in states.items() if state.role == "Primary"]
    if not leaders:
        return dict.fromkeys(states, "-")
    leader = max(leaders, key=lambda node: int(states[node].term))
    transcript = play([*player.lines, *(f"log n{node}" for node in states)])
    logs = {node: _optimes(transcript.by_line[len(player.lines) + 1 + node].more) for node in states}
    return {node: "-" if state.down else _lag(logs[node], logs[leader]) for node, state in states.items()}


def _optimes(entries: Tuple[str, ...]) -> List[str]:
    return [entry.split(" ", 1)[0] for entry in entries]


def _lag(own: List[str], leading: List[str]) -> str:
    shared = len(set(own) & set(leading))
    missing, beyond = len(leading) - shared, len(own) - shared
    return f"{missing}" + (f", parted by {beyond}" if beyond else "")
