"""Many runs that begin alike. Inside of this process each goes on from where it parts from the one before.

Neighbours should be alike for as long as can be: a run then has a few lines of its own, and their replies alone are read.
"""
from __future__ import annotations

import gc
from itertools import compress, count
from operator import ne
from typing import Any, Callable, Dict, FrozenSet, Generic, Iterator, List, Optional, Sequence, Tuple, TypeVar

from .fates import endings, hidden_reads, story_of
from .inside import opened
from .library import ASK, STEPS, Held
from .observe import MOST_LINES, QUESTIONS, Run, TooLong, observe
from .outcomes import Outcome, Watch, dumps, endings_of, outcome, outcome_of
from .program import script_bytes
from .script import set_size
from .sights import BELOW, Line, Lines, Sights, View, reply_text
from .trails import Reading, Trail, reading_of
from .variations import Token, lines_of
from .verdicts import Verdict, verdicts

#: Scripts near the program's limits are for the program.
MOST_BYTES, MOST_ASKED = 4_000_000, MOST_LINES // 2 - 1_001

#: A stage is made for so many runs besides the one that comes first.
WORTH = 3

#: So often something is seen for the first time before all that was seen is forgotten.
MOST_SEEN = 200_000

Compared = TypeVar("Compared")
Judged = TypeVar("Judged")

#: What a run comes to, compared and judged: each where it is wanted, and the latter where the run isn't too long.
End = Tuple[Optional[Compared], Optional[Judged]]


class Stage:
    """A place of a run: how many lines are done, the set that did them, what was seen, and which nodes are down."""

    def __init__(self, done: int, held: Held, view: View, down: FrozenSet[int]):
        self.done, self.held, self.view, self.down = done, held, view, down

    def branch(self) -> "Stage":
        """The same, for a run that goes on otherwise."""
        return Stage(self.done, self.held.copy(), self.view, self.down)


def replies_to(held: Held, script: Sequence[bytes]) -> Optional[List[bytes]]:
    """The replies to more lines, with their numbers; nothing where a line can't be done."""
    answer = held.call(STEPS, b"".join(script))
    if answer.status:
        return None
    text = answer.text.replace(b"\n  ", BELOW) if b"\n " in answer.text else answer.text
    return text.split(b"\n")[:-1]


def down_after(lines: Sequence[Line], down: FrozenSet[int]) -> FrozenSet[int]:
    """Which nodes are down after these lines."""
    for line in lines:
        if line.turn is not None and line.node is not None:
            down = down | {line.node} if line.turn == "down" else down - {line.node}
    return down


class Runs(Generic[Compared, Judged]):
    """Runs of a script whose lines are lost, repeated or moved, and that has others put in.

    What `watch` sees is compared, if there is one, and verdicts are looked for where there is something that judges them."""

    def __init__(
        self, lines: Sequence[str], watch: Optional[Watch], compare: Callable[[Outcome], Compared],
        judge: Optional[Callable[[Sequence[Verdict]], Judged]],
    ):
        self._lines, self._watch, self._compare, self._judge = list(lines), watch, compare, judge
        self._size = set_size(lines)
        self._dumps = [] if watch is None else dumps(self._size.nodes)
        self._hides = judge is not None and bool(hidden_reads(lines))
        self._endings: Dict[FrozenSet[int], Tuple[bytes, List[int]]] = {}
        self._begin()

    def _begin(self) -> None:
        """Forgets all runs."""
        self._known = Lines(self._lines, self._size.nodes, self._watch, self._judge is not None)
        self._compared: Dict[Tuple[Trail, Tuple[bytes, ...]], Compared] = {}
        self._judged: Dict[Trail, Judged] = {}
        #: The stages of the last run, which the next one may go on from.
        self._stages = self._first()
        self._last: Sequence[Token] = range(len(self._lines))

    def _first(self) -> List[Stage]:
        """The set that the script begins with; none where that is for the program."""
        script, asked = script_bytes(self._lines), sum(1 + len(line.asked) for line in self._known.values())
        # Numbers from a power of ten on are as long as each other.
        digits = len(str(asked + 1_000))
        begun = opened(script, 10**digits) if len(script) <= MOST_BYTES and asked <= MOST_ASKED else None
        if begun is None:
            return []
        held, place = begun
        #: The set that a run ends with.
        self._held = held.copy()
        self._front = len(f"{10**digits}: ")
        self._sights = Sights(self._lines, self._watch, self._front)
        told = Trail()
        told.reading = Reading(self._size)
        states = [held.call(ASK, question.encode()).text[self._front : -1] for question in QUESTIONS[: self._size.nodes]]
        return [Stage(script[:place].count(b"\n"), held, self._sights.opening(told, states), frozenset())]

    def has_stages(self) -> bool:
        """Whether runs go on from stages, and aren't played from their beginning."""
        return bool(self._stages)

    def ends(self, orders: Sequence[Sequence[Token]]) -> Iterator[End[Compared, Judged]]:
        """What runs come to, one after another."""
        shared = [*map(_shared, [self._last, *orders], orders), 0]
        for place, order in enumerate(orders):
            end = None
            if self.has_stages() and self._sights.count > MOST_SEEN:
                self._begin()
                gc.collect()
            if self.has_stages():
                self._return_to(shared[place])
                self._prepare(order, shared, place + 1)
                end = self._end(order)
            self._last = order
            yield self.apart(order) if end is None else end

    def _return_to(self, shared: int) -> None:
        """Keeps the stages before the place where a run parts from the last one."""
        while self._stages[-1].done > shared:
            self._stages.pop()

    def _prepare(self, order: Sequence[Token], shared: Sequence[int], place: int) -> None:
        """Makes a stage up to where the next runs are as this one, in place of the last stage if none of them needs that."""
        last, ahead = self._stages[-1], min(shared[place : place + WORTH])
        if ahead <= last.done:
            return
        returns = next((one for one in shared[place:] if one < ahead), 0)
        keeps = len(self._stages) == 1 or returns >= last.done
        stage = last.branch() if keeps else last
        if self._go_on(stage, order, ahead):
            self._stages += [stage] if keeps else []
        elif not keeps:
            self._stages.pop()

    def _go_on(self, stage: Stage, order: Sequence[Token], end: int) -> bool:
        """Does a run's lines up to there. Gives whether all of them could be done."""
        lines = self._between(order, stage.done, end)
        replies = replies_to(stage.held, [line.script for line in lines])
        if replies is None:
            return False
        stage.done, stage.view, stage.down = end, self._sights.after(stage.view, lines, replies), down_after(lines, stage.down)
        return True

    def _between(self, order: Sequence[Token], begin: int, end: int) -> List[Line]:
        """The lines of a run between two places."""
        known = self._known
        if self._hides:
            hidden = hidden_reads(lines_of(order, self._lines)[0])
            return [known.hidden(order[at]) if at + 1 in hidden else known[order[at]] for at in range(begin, end)]
        return [known[token] for token in order[begin:end]]

    def _end(self, order: Sequence[Token]) -> Optional[End[Compared, Judged]]:
        """What a run comes to that goes on from the last stage; nothing where it is for the program."""
        stage = self._stages[-1]
        lines = self._between(order, stage.done, len(order))
        script, down = self._ending(down_after(lines, stage.down))
        stage.held.copy_to(self._held)
        replies = replies_to(self._held, [*[line.script for line in lines], script])
        if replies is None:
            return None
        view = self._sights.after(stage.view, lines, replies)
        place = len(replies) - len(self._dumps) - 2 * len(down)
        last = tuple([reply[self._front :] for reply in replies[place:]])
        if last not in view.ends:
            self._sights.count += 1
            view.ends[last] = self._ended(view, last, down)
        end: End[Compared, Judged] = view.ends[last]
        return end

    def _ending(self, down: FrozenSet[int]) -> Tuple[bytes, List[int]]:
        """What is played after a run at whose end these nodes are down, and which of them it restarts.

        A disk that works well needs one restart."""
        if down not in self._endings:
            nodes = [] if self._judge is None else sorted(down)
            restarts = [line for node in nodes for line in (f"restart n{node}", QUESTIONS[node])]
            self._endings[down] = script_bytes([*self._dumps, *restarts]), nodes
        return self._endings[down]

    def _ended(self, view: View, last: Sequence[bytes], down: Sequence[int]) -> End[Compared, Judged]:
        """What a run comes to with this view and these replies after it, for the first time."""
        count, told = len(self._dumps), view.told
        for place, node in enumerate(down):
            told = self._sights.restarted(told, node, *last[count + 2 * place :][:2])
        dumped = tuple(last[:count])
        compared = None if self._watch is None else self._compared_of(view.watched, dumped)
        return compared, None if self._judge is None else self._judged_of(told, self._judge)

    def _compared_of(self, watched: Trail, dumped: Tuple[bytes, ...]) -> Compared:
        if (watched, dumped) not in self._compared:
            outcome = Outcome(dict(watched.path()), endings_of(map(reply_text, dumped)))
            self._compared[watched, dumped] = self._compare(outcome)
        return self._compared[watched, dumped]

    def _judged_of(self, told: Trail, judge: Callable[[Sequence[Verdict]], Judged]) -> Judged:
        if told not in self._judged:
            last = self._stages[-1].view.told
            if last.reading is None:
                last.reading = reading_of(last)
            self._judged[told] = judge(reading_of(told).verdicts())
        return self._judged[told]

    def apart(self, order: Sequence[Token]) -> End[Compared, Judged]:
        """What a run comes to that is played from its beginning."""
        lines, source = lines_of(order, self._lines)
        nodes, run = self._size.nodes, self._observed(lines)
        judged = None if run is None or self._judge is None else self._judge(verdicts(story_of(run, len(lines))))
        if self._watch is None:
            return None, judged
        if run is None:
            return self._compare(outcome(lines, source, nodes, self._watch)), judged
        return self._compare(outcome_of({step.line: step.reply for step in run.steps}, lines, source, nodes, self._watch)), judged

    def _observed(self, lines: List[str]) -> Optional[Run]:
        try:
            return None if self._judge is None else observe([*lines, *self._dumps, *endings(lines)])
        except TooLong:
            return None


def _shared(one: Sequence[Token], other: Sequence[Token]) -> int:
    """How long two runs are the same."""
    return next(compress(count(), map(ne, one, other)), min(len(one), len(other)))
