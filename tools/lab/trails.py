"""What was seen of runs. Runs of which the same was seen are on one trail, so that what comes of it is found once.

Lines of which nothing was seen are no part of a trail. So its steps have numbers of their own, in the order of the run's lines.
"""
from __future__ import annotations

from typing import Any, Dict, Hashable, List, NamedTuple, Optional, Sequence, Tuple

from .fates import Reader
from .mail import Configs
from .observe import Step
from .script import SetSize, first_word, words_of
from .state import State, opening_state, optime, read_state
from .transcript import Reply
from .verdicts import Verdict, verdicts

#: How a node stands that is down, and what a primary's standing begins with.
DOWN, LEADS = b"down", b"leads"

#: Where an empty log ends, and what no log's end is.
_ZERO, _UNKNOWN = "0/0/0", "?"


class Trail:
    """All that was seen of a run up to some place: what was seen last, and the trail before that."""

    __slots__ = ("before", "seen", "later", "reading")

    def __init__(self, before: Optional["Trail"] = None, seen: Any = None):
        self.before, self.seen = before, seen
        #: Those that go on from here, by what is seen next.
        self.later: Dict[Hashable, Trail] = {}
        #: What a reader has come to here, where that is kept.
        self.reading: Optional["Reading"] = None

    def on(self, key: Hashable, seen: Any) -> "Trail":
        """The trail that goes on so. What is seen first stands for all that has the same key."""
        later = self.later.get(key)
        if later is None:
            later = self.later[key] = Trail(self, seen)
        return later

    def path(self) -> List[Any]:
        """All that was seen, the first thing first."""
        found, trail = [], self
        while trail.before is not None:
            found.append(trail.seen)
            trail = trail.before
        return found[::-1]


def has_numbers(lines: Sequence[str]) -> bool:
    """Whether a script delivers messages by their numbers."""
    return any(first_word(line) == "deliver" and len(words_of(line)) == 2 for line in lines)


class Standings(Dict[bytes, bytes]):
    """What of a node's state matters to verdicts, by the reply that tells it: its term where it is primary; for majority reads up
    to where they show its log; where the set is reconfigured its configuration; and its log's end, by whose change one knows to
    whom a message by its number went."""

    def __init__(self, lines: Sequence[str]):
        super().__init__()
        words = [words_of(line) for line in lines if first_word(line)]
        self._fronts = any(len(said) > 2 and said[2] == "majority" and said[0] in ("read", "dump") for said in words)
        self._configs = any(said[0] == "reconfig" for said in words)
        self._ends = has_numbers(lines)

    def __missing__(self, reply: bytes) -> bytes:
        self[reply] = self._standing(read_state(reply.decode())).encode()
        return self[reply]

    def _standing(self, state: State) -> str:
        if state.down:
            return DOWN.decode()
        said = [f"{LEADS.decode()} {state.term}" if state.role == "Primary" else "follows"]
        said += [str(min(optime(state.commit), optime(state.applied)))] if self._fronts else []
        said += [state.config] if self._configs else []
        return " ".join(said + [state.last] if self._ends else said)


class Telling(NamedTuple):
    """A line that told of data: its reply, its node, how that stands, and the reply to a question for it, where it stands otherwise.

    That a node goes down which isn't primary isn't told, and a restart after which it is as it was isn't, either. A restart that
    is put after the run has no text."""

    text: str
    reply: str
    node: int
    standing: bytes
    state: Optional[str]


class Reading:
    """What a reader has come to on a trail, with what it needs to go on."""

    def __init__(self, size: SetSize):
        self._reader, self._configs, self._count = Reader(size.nodes), Configs(size), 0
        self._states: Dict[int, State] = {node: opening_state() for node in range(size.nodes)}

    def branch(self) -> "Reading":
        """The same, for a trail that goes on otherwise."""
        made = Reading.__new__(Reading)
        made._reader, made._configs, made._count = self._reader.branch(), self._configs.branch(), self._count
        made._states = dict(self._states)
        return made

    def take(self, telling: Telling) -> None:
        """What was told next."""
        self._count += 1
        node, before = telling.node, self._states[telling.node]
        self._configs.learn(node, telling.text, telling.reply)
        after = before
        if telling.state is not None:
            after = self._states[node] = read_state(telling.state)
            self._configs.notice_state(node, after)
        step = Step(self._count, telling.text, Reply(self._count, telling.reply), node, [], None, before, after)
        if telling.text:
            self._reader.take(step, self._configs)
        else:
            self._reader.take(Step(self._count, "", Reply(self._count, "down"), node, [], None, before, read_state("")), self._configs)
            self._reader.take_restart(step)

    def verdicts(self) -> List[Verdict]:
        """The verdicts of a run that ends here, whose lines are numbered as the trail's steps."""
        return verdicts(self._reader.story())


def reading_of(trail: Trail) -> Reading:
    """What a reader comes to on a trail: it goes on from where the last one is kept."""
    told = []
    while trail.reading is None:
        assert trail.before is not None
        told.append(trail.seen)
        trail = trail.before
    reading = trail.reading.branch()
    for one in reversed(told):
        reading.take(one)
    return reading


def is_as_it_was(told: Trail, node: int, end: str, standing: bytes, opening: bytes) -> bool:
    """Whether a restart leaves a node as it was told of last: its log ended and was applied up to where it does now, and it stood so."""
    last: Optional[str] = None
    applied: Optional[str] = None
    stood: Optional[bytes] = None
    trail = told
    while trail.before is not None and None in (last, applied, stood):
        telling: Telling = trail.seen
        if telling.node == node:
            stood = stood or telling.standing or None
            ends, applies = _log_of(telling)
            last, applied = last or ends, applied or applies
        trail = trail.before
    return (last or _ZERO, applied or _ZERO, stood or opening) == (end, end, standing)


def _log_of(telling: Telling) -> Tuple[Optional[str], Optional[str]]:
    """Where a node's log ends after that, and up to where it is applied, as far as it says so."""
    words = telling.reply.split(" ")
    if words[0] == "took":
        return words[3], None
    if words[0] == "applied":
        return None, words[3]
    place = {"written": 1, "primary": 3, "rolled": 3, "up": 2}.get(words[0])
    if words[0] == "committed" or telling.text.startswith("retry "):
        # That may stand before the log's end.
        return _UNKNOWN, _UNKNOWN
    return (None, None) if place is None else (words[place], words[place])
