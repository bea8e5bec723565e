"""What many seeds came to, all together: counts that can be put together with those of other seeds."""
from __future__ import annotations

import json
from typing import Any, Dict, Iterable, List, Optional, Sequence, Tuple

from .errors import FILE, LabError
from .show import table
from .state import optime
from .verdicts import MEANINGS

COUNTS = ("events", "written", "won", "rolled back", "refused")

#: So many seeds are kept of each verdict.
MOST_SEEDS = 10


class Totals:
    """Of each count how many seeds came to which number, and the first seed that came to it; and what else is told."""

    def __init__(self, events: int, nodes: int):
        self.events, self.nodes, self.seeds = events, nodes, 0
        self.spread: Dict[str, Dict[int, List[int]]] = {name: {} for name in COUNTS}
        self.moved = self.down = 0
        self.farthest: Optional[Tuple[str, int]] = None
        self.verdicts: Dict[str, List[int]] = {}
        self.with_verdict: Dict[str, int] = {}

    def add(self, seed: int, counts: Dict[str, int], commit: str, down: bool, verdicts: Sequence[str]) -> None:
        """Puts in what one seed came to."""
        self.seeds += 1
        for name in COUNTS:
            self._count(name, counts[name], 1, seed)
        self.moved += commit != "0/0/0"
        self.down += down
        self._reach(commit, seed)
        for verdict in verdicts:
            self._have(verdict, 1, [seed])

    def join(self, other: "Totals") -> None:
        """Puts in what other seeds came to."""
        self.seeds += other.seeds
        for name, numbers in other.spread.items():
            for number, (seeds, first) in numbers.items():
                self._count(name, number, seeds, first)
        self.moved += other.moved
        self.down += other.down
        if other.farthest is not None:
            self._reach(*other.farthest)
        for verdict, having in other.verdicts.items():
            self._have(verdict, other.with_verdict[verdict], having)

    def _count(self, name: str, number: int, seeds: int, first: int) -> None:
        known = self.spread[name].setdefault(number, [0, first])
        known[0] += seeds
        known[1] = min(known[1], first)

    def _reach(self, commit: str, seed: int) -> None:
        far = self.farthest
        if far is None or (optime(commit), -seed) > (optime(far[0]), -far[1]):
            self.farthest = commit, seed

    def _have(self, verdict: str, count: int, seeds: List[int]) -> None:
        self.with_verdict[verdict] = self.with_verdict.get(verdict, 0) + count
        self.verdicts[verdict] = sorted([*self.verdicts.get(verdict, []), *seeds])[:MOST_SEEDS]

    # As a text that a file keeps.

    def kept(self) -> str:
        """All of it on one line, for `read_totals`."""
        return json.dumps({"sweep": 1, **self.__dict__}, separators=(",", ":"))

    def fits(self, other: "Totals") -> bool:
        """Whether both are of scripts of one size."""
        return (self.events, self.nodes) == (other.events, other.nodes)

    # As a report.

    def report(self) -> Iterable[str]:
        """What the seeds came to, for people."""
        yield f"{self.seeds} seeds, {self.events} events each in a set of {self.nodes}"
        if not self.seeds:
            return
        yield ""
        yield from table([["", "least", "a tenth below", "middle", "a tenth above", "most", "at seed"], *map(self._row, COUNTS)])
        yield f"\na commit point moved in {self.moved} of them; in {self.down} a node is down at the end"
        yield "\nrolled back, by seeds:"
        yield from self._bars("rolled back")
        yield "\nseeds that stand out:"
        for name in ("written", "won", "rolled back"):
            best = max(self.spread[name])
            yield f"  most {name}: {best}, {self._script(self.spread[name][best][1])}"
        if self.farthest is not None and self.moved:
            yield f"  farthest commit point: {self.farthest[0]}, {self._script(self.farthest[1])}"

    def verdict_report(self) -> Iterable[str]:
        """How many seeds have each verdict, and the first of them."""
        yield "\nverdicts:" + ("" if self.verdicts else " none")
        for name in MEANINGS:
            if name in self.verdicts:
                seeds = ", ".join(str(seed) for seed in self.verdicts[name])
                more = ", .." if self.with_verdict[name] > len(self.verdicts[name]) else ""
                yield f"  {name:18}  {self.with_verdict[name]} seeds: {seeds}{more}"

    def _script(self, seed: int) -> str:
        return f"lab seed {seed} {self.events} {self.nodes}"

    def _row(self, name: str) -> List[str]:
        places = [0, self.seeds // 10, self.seeds // 2, self.seeds - 1 - self.seeds // 10, self.seeds - 1]
        numbers = sorted(self.spread[name])
        return [name, *(str(self._at(name, numbers, place)) for place in places), str(self.spread[name][numbers[-1]][1])]

    def _at(self, name: str, numbers: List[int], place: int) -> int:
        """The number that stands at a place, where each seed's stand in order."""
        for number in numbers:
            place -= self.spread[name][number][0]
            if place < 0:
                break
        return number

    def _bars(self, name: str) -> Iterable[str]:
        """How many seeds came to each number, in at most twelve steps."""
        width = max(1, -(-(max(self.spread[name]) + 1) // 12))
        steps: Dict[int, int] = {}
        for number, (seeds, _) in self.spread[name].items():
            steps[number // width] = steps.get(number // width, 0) + seeds
        most = max(steps.values())
        for step in range(max(steps) + 1):
            said = f"{step * width}" if width == 1 else f"{step * width} to {step * width + width - 1}"
            seeds = steps.get(step, 0)
            yield f"  {said:>11}  {seeds:7}  {'#' * -(-40 * seeds // most)}"


def read_totals(name: str, text: str) -> Totals:
    """What a part of a sweep printed."""
    try:
        kept: Dict[str, Any] = json.loads(text)
        totals = Totals(kept["events"], kept["nodes"])
        totals.seeds, totals.moved, totals.down = kept["seeds"], kept["moved"], kept["down"]
        totals.spread = {one: {int(number): seeds for number, seeds in kept["spread"][one].items()} for one in COUNTS}
        totals.farthest = (kept["farthest"][0], kept["farthest"][1]) if kept["farthest"] else None
        totals.verdicts, totals.with_verdict = kept["verdicts"], kept["with_verdict"]
    except (ValueError, KeyError, TypeError, AttributeError):
        raise LabError(FILE, f"{name} isn't what 'lab sweep --part' prints") from None
    return totals
