"""What is watched of a run, and how two runs differ in it."""
from __future__ import annotations

import random
import re
from dataclasses import dataclass
from functools import lru_cache
from typing import Dict, FrozenSet, Iterable, Iterator, List, NamedTuple, Optional, Sequence, Set, Tuple

from .expand import Expanded
from .program import play
from .script import KEPT, is_silent, words_of
from .show import printable
from .transcript import Reply
from .variations import shortened

#: In so many orders the lines of a script's blocks are played by themselves, before its variations are.
MOST_MERGES = 60

DOWN = "refused 1 NodeDown"


@dataclass(frozen=True)
class Outcome:
    """What is watched of a run: the replies of watched lines, and each node's documents at the end."""

    replies: Dict[int, str]
    endings: Dict[int, Tuple[str, ...]]


class Watch(NamedTuple):
    """Which replies are compared: those where the pattern is found in the line or the reply, and those to lines with these numbers."""

    pattern: Optional["re.Pattern[str]"] = None
    also: FrozenSet[int] = frozenset()

    def may_see(self, number: int) -> bool:
        """Whether it may compare a reply to the line of this number."""
        return number in self.also or self.pattern is not None and number != 0

    def sees(self, number: int, line: str, said: str) -> bool:
        """Whether a reply is compared. The number is the line's in the script as it is, or 0 where it was put in."""
        if self.pattern is None or number == 0:
            return number in self.also
        return number in self.also or _is_found(self.pattern, line) or _is_found(self.pattern, said)


@lru_cache(KEPT)
def _is_found(pattern: "re.Pattern[str]", text: str) -> bool:
    return pattern.search(text) is not None


def outcome(lines: Sequence[str], source: Sequence[int], nodes: int, watch: Watch) -> Outcome:
    """What is watched of a run of these lines, of which each was the script's line of that number."""
    return outcome_of(play([*lines, *dumps(nodes)]).by_line, lines, source, nodes, watch)


def dumps(nodes: int) -> List[str]:
    """What is played after a script, for its outcome."""
    return [f"dump n{node} local" for node in range(nodes)]


def outcome_of(replies: Dict[int, Reply], lines: Sequence[str], source: Sequence[int], nodes: int, watch: Watch) -> Outcome:
    """The same, where they were played with the dumps after them."""
    found: Dict[int, str] = {}
    for number, line in enumerate(lines, 1):
        said, was = replies.get(number), source[number - 1]
        if said is not None and watch.sees(was, line, whole(said)):
            found[was] = whole(said)
    return Outcome(found, endings_of([whole(replies[len(lines) + 1 + node]) for node in range(nodes)]))


def endings_of(dumped: Iterable[str]) -> Dict[int, Tuple[str, ...]]:
    """The documents of each node that is up, by the replies to the dumps."""
    return {node: tuple(reply.split("\n")[1:]) for node, reply in enumerate(dumped) if not reply.startswith("refused ")}


def whole(reply: Reply) -> str:
    """A reply with what stands below it."""
    return "\n".join([reply.text, *reply.more]) if reply.more else reply.text


def usual_outcomes(lines: Sequence[str], nodes: int, watch: Watch) -> List[Outcome]:
    """What comes of the script as it is. Where it has blocks, that is something else in each order of their lines."""
    found: List[Outcome] = []
    for merged, source in merges(lines):
        one = outcome(merged, source, nodes, watch)
        if one not in found:
            found.append(one)
    return found


def merges(lines: Sequence[str]) -> Iterator[Tuple[List[str], List[int]]]:
    """The script without blocks, in orders that their lines may have: some drawn by chance, which are always the same."""
    dice, known = random.Random(1), set()  # type: Tuple[random.Random, Set[Tuple[int, ...]]]
    while len(known) < MOST_MERGES:
        tries = 0
        order = tuple(_merged(lines, dice))
        while order in known:
            tries, order = tries + 1, tuple(_merged(lines, dice))
            if tries == MOST_MERGES:
                return
        known.add(order)
        yield [lines[place] for place in order], [place + 1 for place in order]
        if len(order) == len(lines):
            return


def _merged(lines: Sequence[str], dice: random.Random) -> Iterator[int]:
    """The places of the lines, those of a block's lists in some order, and the block's own words left out."""
    lists: List[List[int]] = []
    in_block = False
    for place, line in enumerate(lines):
        word = "" if is_silent(line) else words_of(line)[0]
        if word == "par":
            lists, in_block = [], True
        elif word == "thread":
            lists.append([])
        elif word == "end":
            in_block = False
            while any(lists):
                yield dice.choice([one for one in lists if one]).pop(0)
        elif in_block and lists:
            lists[-1].append(place)
        elif not in_block:
            yield place


def differences(script: Expanded, usual: Sequence[Outcome], other: Outcome) -> Tuple[str, ...]:
    """What is otherwise than in the outcome that is nearest to it, for people. Of nodes that are down at the end nothing is said."""
    return min((_differences(script, one, other) for one in usual), key=len)


def _differences(script: Expanded, usual: Outcome, other: Outcome) -> Tuple[str, ...]:
    told: List[str] = []
    refused = False
    for number in sorted({*usual.replies, *other.replies}):
        old, new = usual.replies.get(number), other.replies.get(number)
        if old == new:
            continue
        if new == DOWN:
            refused = True
            continue
        line = f"line {script.number(number)}, {printable(script.lines[number - 1])}"
        if old is None:
            told.append(f"{line}: now {shortened(new or '')}")
        else:
            told.append(f"{line}: {shortened(old)} → {shortened(new or 'no such reply')}")
    for node in sorted(usual.endings):
        if node in other.endings and usual.endings[node] != other.endings[node]:
            told.append(f"n{node} ends with {_documents(other.endings[node])}, and not {_documents(usual.endings[node])}")
    return tuple(told + ["a node that is down refuses lines that are watched"] * refused)


def _documents(documents: Tuple[str, ...]) -> str:
    return shortened("; ".join(documents)) if documents else "nothing"
