"""Names for what may go wrong with data in a run, and the lines that show it."""
from __future__ import annotations

from dataclasses import dataclass
from typing import Callable, Dict, Iterator, List, Optional, Sequence, Tuple

from .story import Config, Read, Story, Write

#: What each verdict means, in the order in which they are told.
MEANINGS = {
    "acked-lost": "a write that two or more members, or a majority, had acknowledged is lost",
    "w1-lost": "a write that was acknowledged at a count of 1 is lost",
    "dirty-read": "a read showed a write that was rolled back later, or is lost",
    "stale-read": "a read doesn't show what was acknowledged at majority, or shown by a majority read, before it",
    "rolled-back": "a node gave up a write in a rollback",
    "two-primaries": "two nodes were primary at the same time, in different terms",
    "uncommitted-config": "no majority of its voters has a configuration that a reconfig made",
    "no-primary": "no node is primary at the end",
}


@dataclass(frozen=True)
class Verdict:
    """One verdict: its name, the lines that show it, and what happened there."""

    name: str
    lines: Tuple[int, ...]
    told: str


def named(write: Write) -> str:
    """A write by its optime."""
    return "/".join(str(part) for part in write.at)


def verdicts(story: Story) -> List[Verdict]:
    """All verdicts of a run, the gravest first."""
    finders: Sequence[Callable[[Story], Iterator[Verdict]]] = (_lost, _reads, _rolled_back, _together, _configs, _leaderless)
    found = [verdict for finder in finders for verdict in finder(story)]
    order = list(MEANINGS)
    return sorted(found, key=lambda one: (order.index(one.name), one.lines))


def _lost(story: Story) -> Iterator[Verdict]:
    for write in story.writes:
        strong = {concern: line for concern, line in write.acks.items() if concern != "1"}
        if not write.lost or not write.acks:
            continue
        concern, line = max(strong.items(), key=_strength) if strong else ("1", write.acks["1"])
        told = f"{named(write)} was acknowledged at {concern}; {_without(story)}"
        if concern == "majority":
            told += " (this can't be: the program is at fault, please report it)"
        removals = [removal.line for removal in write.removals]
        yield Verdict("acked-lost" if strong else "w1-lost", tuple(sorted({write.line, line, *removals})), told)


def _strength(ack: Tuple[str, int]) -> int:
    return 1000 if ack[0] == "majority" else int(ack[0])


def _without(story: Story) -> str:
    leader = story.leader()
    return "no node has it" if leader is None else f"the primary n{leader} lacks it"


def _reads(story: Story) -> Iterator[Verdict]:
    for read in story.reads:
        shown = _dirty(story, read)
        if shown is not None:
            later = [removal.line for removal in shown.removals if removal.rollback and removal.line > read.line]
            end = "it was rolled back later" if later else "it is lost"
            yield Verdict("dirty-read", (shown.line, read.line, *later[:1]), f"n{read.node} showed {named(shown)} at local; {end}")
        if read.missed is not None:
            front = "/".join(str(part) for part in read.front or ())
            told = f"n{read.node} shows its log up to {front} at {read.level}, without {named(read.missed)}"
            yield Verdict("stale-read", (read.missed.line, read.line), told)


def _dirty(story: Story, read: Read) -> Optional[Write]:
    """The write that a read showed and that was rolled back later or is lost."""
    if read.level != "local" or read.front is None:
        return None
    shown = [read.shown] if read.place is not None else [write for write in story.writes if write.place is not None]
    for write in shown:
        if write is None:
            continue
        gone = write.lost or any(removal.rollback and removal.line > read.line for removal in write.removals)
        if gone and story.histories.has(read.front, write.at):
            return write
    return None


def _rolled_back(story: Story) -> Iterator[Verdict]:
    for write in story.writes:
        for removal in write.removals:
            if removal.rollback:
                yield Verdict("rolled-back", (write.line, removal.line), f"n{removal.node} gave up {named(write)}")


def _together(story: Story) -> Iterator[Verdict]:
    for (one, first), (other, second) in story.together:
        yield Verdict("two-primaries", (first, second), f"n{other} is primary while n{one} still is")


def _configs(story: Story) -> Iterator[Verdict]:
    for name, config in story.configs.items():
        if not config.asked:
            continue
        having = [node for node in config.voters if name in _ancestry(story.configs, story.held[node])]
        needed = len(config.voters) // 2 + 1
        if len(having) < needed:
            told = f"{len(having)} of {len(config.voters)} voters have {name}, and {needed} must before a failover can't lose it"
            yield Verdict("uncommitted-config", (config.line,), told)


def _ancestry(configs: Dict[str, Config], name: str) -> List[str]:
    """A configuration, and those that it came from."""
    found = [name]
    while found[-1] in configs:
        found.append(configs[found[-1]].parent)
    return found


def _leaderless(story: Story) -> Iterator[Verdict]:
    if story.leader() is None:
        lines = (story.ended,) if story.ended is not None else ()
        yield Verdict("no-primary", lines, "no node is primary at the end" if lines else "no node ever was primary")
