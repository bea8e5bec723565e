"""The script of a seed, as `replset chaos` plays it: the same generator, and the same draws in the same order."""
from __future__ import annotations

from typing import Callable, List

_STEP = 6364136223846793005
_64, _32 = 2**64 - 1, 2**32 - 1


def _turned(state: int) -> int:
    """The output of the generator in this state: a word of 32 bits."""
    mixed = (((state >> 18) ^ state) >> 27) & _32
    turn = state >> 59
    return ((mixed >> turn) | (mixed << (-turn & 31))) & _32


def _opened(seed: int) -> List[int]:
    """State and increment of the generator (PCG, as `rand_pcg` and `rand_core` have it) that begins with a seed."""
    words = []
    for _ in range(4):
        seed = (seed * _STEP + 11634580027462260723) & _64
        words.append(_turned(seed))
    start, increment = words[0] | words[1] << 32, (words[2] | words[3] << 32) | 1
    return [((start + increment) * _STEP + increment) & _64, increment]


def drawing(seed: int) -> Callable[[int], int]:
    """A function that draws the next number below a bound."""
    state, increment = _opened(seed)

    def draw(below: int) -> int:
        nonlocal state
        word, state = _turned(state), (state * _STEP + increment) & _64
        return word % below

    return draw


def script_of_seed(seed: int, events: int, nodes: int) -> List[str]:
    """The lines of a script made by chance."""
    draw = drawing(seed)
    lines = [f"set {nodes}"]
    for event in range(events):
        row, one = draw(16), draw(nodes)
        other = (one + 1 + draw(nodes - 1)) % nodes if nodes > 1 else one
        lines += _event(row, event, f"n{one}", f"n{other}", nodes, draw)
    return lines


def _event(row: int, event: int, one: str, other: str, nodes: int, draw: Callable[[int], int]) -> List[str]:
    if row < 4:
        return [f"insert {one} t {{_id: {event}, n: 0}}"]
    if row == 4:
        return [f"update {one} t {draw(event + 1)} {{$inc: {{n: 1}}}}"]
    if row == 5:
        return [f"delete {one} t {draw(event + 1)}"]
    if row == 10:
        return _election(one, nodes)
    if row == 15:
        return [f"clock {one} {draw(1000)}"]
    if one == other and row in (7, 8, 9, 11):
        return [f"flush {one}"]
    back, there = f"deliver {other} {one}", f"deliver {one} {other}"
    pull = [f"heartbeat {other} {one}", back, f"fetch {one}", there, back]
    return {
        6: [f"flush {one}"],
        11: [f"common {one} {other}", there, back],
        12: [f"checkpoint {one}"],
        13: [f"crash {one}", f"restart {one}"],
        14: [f"stepdown {one}"],
    }.get(row, [*pull, f"apply {one} 4", f"flush {one}", f"report {one} {other}", there])


def _election(one: str, nodes: int) -> List[str]:
    asked = [f"n{node}" for node in range(nodes) if f"n{node}" != one]
    votes = [line for voter in asked for line in (f"deliver {one} {voter}", f"deliver {voter} {one}")]
    return [f"campaign {one}", *votes, f"drain {one}", f"flush {one}"]
