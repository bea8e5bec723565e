"""What happened to the data of a run, as text."""
from __future__ import annotations

from itertools import groupby
from typing import Iterator, List, Optional, Sequence, Tuple

from .expand import Expanded
from .fates import read_fates
from .observe import TooLong
from .show import printable
from .story import Story, Write
from .verdicts import Verdict, named, verdicts

#: So many writes, and so many verdicts, are told after a run, where not all are asked for.
MOST = 12

#: A longer line is cut.
WIDEST = 90


def what_happened(script: Expanded, everything: bool = False) -> List[str]:
    """What became of each write of a script, and its verdicts, as the lines of a text."""
    try:
        story = read_fates(script.lines)
    except TooLong as fault:
        return [f"(what happened to the data isn't told: {fault.sentence})"]
    groups = [list(group) for _, group in groupby(story.writes, key=lambda write: fate(script, story, write))]
    told = [line for group in _shown(groups, everything) for line in _writes(script, story, group)]
    if len(groups) > MOST and not everything:
        told.append(f"  and {sum(map(len, groups[MOST:]))} more ('lab verdict' tells all)")
    return ["what happened to the data:", *(told or ["  nothing was written"]), *_verdicts(script, verdicts(story), everything)]


def verdicts_of(lines: Sequence[str]) -> List[Verdict]:
    """The verdicts of a plain script; none where it is too long to be watched."""
    try:
        return verdicts(read_fates(lines))
    except TooLong:
        return []


def names_of(lines: Sequence[str]) -> List[str]:
    """The names of the verdicts of a plain script, each once."""
    return list(dict.fromkeys(verdict.name for verdict in verdicts_of(lines)))


def _shown(groups: List[List[Write]], everything: bool) -> List[List[Write]]:
    return groups if everything else groups[:MOST]


def _writes(script: Expanded, story: Story, group: List[Write]) -> Iterator[str]:
    """Writes that follow each other, and that the same became of."""
    first, last = group[0], group[-1]
    text = printable(first.text)
    text = text if len(text) <= WIDEST else text[: WIDEST - 1] + "…"
    if len(group) == 1:
        yield f"  line {script.number(first.line)}: {text}"
        yield f"    {named(first)}, {fate(script, story, first)}"
    else:
        yield f"  lines {script.number(first.line)} to {script.number(last.line)}: {len(group)} writes, the first {text}"
        yield f"    {named(first)} to {named(last)}, each {fate(script, story, first)}"


def fate(script: Expanded, story: Story, write: Write) -> str:
    """What became of a write."""
    if not write.done:
        return "begun, and never committed"
    told = [_acks(write)]
    for removal in write.removals:
        line = script.number(removal.line)
        if removal.rollback:
            kept = story.shown_by_rolled.get(removal.node) == removal.line and write.place is not None
            shown = f" ('rolled n{removal.node}' shows it)" if kept else ""
            told.append(f"rolled back at n{removal.node} in line {line}{shown}")
        else:
            told.append(f"not on the disk of n{removal.node} as it went down in line {line}")
    told.append(_standing(story, write))
    return "; ".join(told)


def _acks(write: Write) -> str:
    if not write.acks:
        return "never acknowledged"
    counts = sorted((concern for concern in write.acks if concern != "majority"), key=int)
    return "acknowledged at " + " and ".join([*counts, *(["majority"] if "majority" in write.acks else [])])


def _standing(story: Story, write: Write) -> str:
    """Where a write is at the end."""
    places = []
    if write.logs:
        places.append("in the log of " + _nodes(write.logs))
    if write.disks:
        places.append(("only " if not write.logs else "") + "on the disk of " + _nodes(write.disks) + ", down")
    where = " and ".join(places) or "nowhere any more"
    leader = story.leader()
    if write.lost:
        return f"lost: {where}" + (f", while n{leader} is primary without it" if write.logs or write.disks else "")
    return f"{'committed' if write.committed else 'not known to be committed'}: {where}"


def _nodes(nodes: Sequence[int]) -> str:
    return " ".join(f"n{node}" for node in nodes)


def _verdicts(script: Expanded, found: List[Verdict], everything: bool) -> Iterator[str]:
    yield "verdicts:" + ("" if found else " none")
    shown = found if everything else found[:MOST]
    width = max((len(verdict.name) for verdict in shown), default=0)
    for verdict in shown:
        yield f"  {verdict.name:{width}}  {_lines(script, verdict.lines)}{verdict.told}"
    if len(shown) < len(found):
        yield f"  and {len(found) - len(shown)} more ('lab verdict' tells all)"


def _lines(script: Expanded, lines: Tuple[int, ...]) -> str:
    if not lines:
        return ""
    return f"line{'s' if len(lines) > 1 else ''} {', '.join(script.number(line) for line in lines)}: "


def of_name(found: Sequence[Verdict], name: Optional[str]) -> List[Verdict]:
    """The verdicts of that name; all of them where none is named."""
    return [verdict for verdict in found if name in (None, verdict.name)]
