"""What stands where in the picture of a run: rows going down, a lane for each node, and what is drawn on them.

Heights are in rows: the row at place 3 goes from 3 to 4, and its middle is 3.5. Nothing here knows of colours or pixels.
"""
from __future__ import annotations

import re
from dataclasses import dataclass, field
from typing import Dict, List, Optional, Sequence, Tuple

from .mail import Message
from .observe import Run, Step
from .script import KINDS, WRITES, is_silent, node_number, words_of
from .show import printable
from .state import State, optime

#: What a message is called on its arrow: the question, and its answer.
MESSAGE_NAMES = {
    "vote": ("vote?", "vote"),
    "heartbeat": ("heartbeat", "heard"),
    "fetch": ("fetch", "entries"),
    "report": ("report", "report"),
    "common": ("common?", "common"),
}


@dataclass
class Row:
    """A line of the script, or a caption."""

    line: int
    text: str
    reply: str = ""
    kind: str = ""
    bad: bool = False
    step: Optional[Step] = None
    states: Tuple[State, ...] = ()

    @property
    def caption(self) -> bool:
        """Whether this row is a comment's."""
        return self.step is None


@dataclass
class Segment:
    """A stretch of a node's lane in one role."""

    node: int
    role: str
    top: float
    bottom: float


@dataclass
class Band:
    """A stretch of a node's lane with one commit point. Each point has its `shade`, the same at all nodes."""

    node: int
    commit: str
    top: float
    bottom: float
    shade: int


@dataclass
class Arrow:
    """A message from its sending to a delivery; without a head it goes on below the picture."""

    sender: int
    receiver: int
    top: float
    bottom: float
    kind: str
    label: str
    bad: bool
    head: bool = True


@dataclass
class Stub:
    """Messages of one line that are never delivered. `side` is 1 where they go to the right, and else -1."""

    sender: int
    receivers: List[int]
    side: int
    top: float
    kind: str
    label: str


@dataclass
class Mark:
    """What happened at a node in a row: `write`, `acked`, `crash`, `restart`, `refused`, `cut` or `plain`."""

    node: int
    top: float
    shape: str
    kind: str


@dataclass
class Label:
    """A few words beside a node's lane."""

    node: int
    top: float
    text: str


@dataclass
class Frame:
    """A block of the script."""

    top: float
    bottom: float


@dataclass
class Shade:
    """A stretch in which a node is parted from those of the first side; `side` counts the other sides from 1."""

    node: int
    side: int
    top: float
    bottom: float


@dataclass
class Talk:
    """A client asks a node, and what it is told."""

    client: int
    node: int
    top: float
    told: str
    bad: bool


@dataclass
class Picture:
    """All that is to be drawn."""

    nodes: int
    lines: Tuple[int, int, int]
    rows: List[Row] = field(default_factory=list)
    segments: List[Segment] = field(default_factory=list)
    bands: List[Band] = field(default_factory=list)
    arrows: List[Arrow] = field(default_factory=list)
    stubs: List[Stub] = field(default_factory=list)
    marks: List[Mark] = field(default_factory=list)
    labels: List[Label] = field(default_factory=list)
    frames: List[Frame] = field(default_factory=list)
    shades: List[Shade] = field(default_factory=list)
    #: Who asks the nodes, each in a lane of its own, and what each was told.
    clients: List[str] = field(default_factory=list)
    talks: List[Talk] = field(default_factory=list)


def picture_of(run: Run, first: int, last: int) -> Picture:
    """The picture of a run's lines from `first` to `last`."""
    picture = Picture(run.size.nodes, (first, min(last, len(run.lines)), len(run.lines)))
    _put_rows(picture, run, first, last)
    _follow_nodes(picture, run)
    _put_messages(picture, run, first)
    _put_shades(picture, run.lines[: first - 1])
    for place, row in enumerate(picture.rows):
        if row.step is not None:
            _put_marks(picture, row.step, place + 0.5, row.kind)
            _put_talk(picture, row.step, place + 0.5)
    return picture


def client_of(text: str) -> str:
    """Who asks for a line: a writer, a session, a reader, or a client without a name; nobody where it is the nodes' own."""
    words = words_of(text)
    if words[0] in ("begin", "commit", "abort") or words[0] == "ack" and words[2][:1] == "w":
        return words[2]
    if words[0] == "retry":
        return f"session {words[2]}"
    if words[0] in ("read", "dump"):
        return "reader"
    return "client" if words[0] in (*WRITES, "note", "ack", "reconfig") else ""


def _put_talk(picture: Picture, step: Step, top: float) -> None:
    name = client_of(step.text)
    if not name or step.node is None:
        return
    if name not in picture.clients:
        picture.clients.append(name)
    picture.talks.append(Talk(picture.clients.index(name), step.node, top, printable(step.reply.text), step.reply.unheard))


def kind_of(step: Step) -> str:
    """What a step is about, for filters."""
    if step.word == "deliver":
        return step.message.kind if step.message else "other"
    return KINDS.get(step.word, "other")


def _put_rows(picture: Picture, run: Run, first: int, last: int) -> None:
    """A row for each reply, and one for each comment but those that expect something."""
    steps = {step.line: step for step in run.steps}
    order = {step.line: place for place, step in enumerate(run.steps)}
    number = first
    while number <= min(last, len(run.lines)):
        text = run.lines[number - 1]
        word = "" if is_silent(text) else words_of(text)[0]
        if text.startswith("#") and not re.match(r"#\s*(?:expect|picture):", text):
            picture.rows.append(Row(number, printable(text).lstrip("# ")))
        elif word == "par":
            number = _put_block(picture, run, number, steps, order)
        elif number in steps:
            picture.rows.append(_row(steps[number]))
        number += 1


def _put_block(picture: Picture, run: Run, begins: int, steps: Dict[int, Step], order: Dict[int, int]) -> int:
    """The rows of a block in the order in which they were played, and the line that ends it."""
    ends = next(place for place in range(begins, len(run.lines) + 1) if words_of(run.lines[place - 1])[0] == "end")
    top = len(picture.rows)
    threads = sum(words_of(line)[0] == "thread" for line in run.lines[begins - 1 : ends])
    picture.rows.append(Row(begins, f"a block of {threads} threads, in the order in which it was played"))
    inside = sorted((number for number in range(begins, ends) if number in steps), key=lambda number: order[number])
    picture.rows += [_row(steps[number]) for number in inside]
    picture.frames.append(Frame(top, len(picture.rows)))
    return ends


def _put_shades(picture: Picture, before: Sequence[str]) -> None:
    """What partitions part, as the comments tell that macros leave: those in front of the picture, and those in it."""
    comments = [(0.0, line.lstrip("# ")) for line in before if line.startswith("#")]
    comments += [(place + 1.0, row.text) for place, row in enumerate(picture.rows) if row.caption]
    since, parted = 0.0, {}  # type: Tuple[float, Dict[int, int]]
    for top, text in [*comments, (float(len(picture.rows)), "heal")]:
        sides = sides_of(text, picture.nodes)
        if sides is None:
            continue
        picture.shades += [Shade(node, side, since, top) for node, side in parted.items() if side and since < top]
        since, parted = top, sides


def sides_of(text: str, nodes: int) -> Optional[Dict[int, int]]:
    """Of each node the side on which a `partition` puts it; of `heal` nothing is parted; another text says neither."""
    words = text.split()
    if words[:1] not in (["partition"], ["heal"]) or words[0] == "heal" and len(words) > 1:
        return None
    groups = [[node_number(word) for word in part.split()] for part in " ".join(words[1:]).split("|")]
    if any(node is None or node >= nodes for group in groups for node in group):
        return None
    named = {node: side for side, group in enumerate(groups) for node in group if node is not None}
    return {node: named.get(node, len(groups)) for node in range(nodes)} if named else {}


def _row(step: Step) -> Row:
    return Row(step.line, printable(step.text), printable(step.reply.text), kind_of(step), step.reply.unheard, step)


def _follow_nodes(picture: Picture, run: Run) -> None:
    """The lanes: what role each node is in, and how far its commit point is."""
    states = dict(run.opening)
    since = {node: 0.0 for node in states}
    point = {node: 0.0 for node in states}
    end = float(len(picture.rows))
    for place, row in enumerate(picture.rows):
        step, middle = row.step, place + 0.5
        if step is not None and step.node is not None and step.after is not None:
            node, old, new = step.node, states[step.node], step.after
            if old.role != new.role:
                picture.segments.append(Segment(node, old.role, since[node], middle))
                since[node] = middle
            if old.commit != new.commit:
                _put_band(picture, node, old.commit, point[node], middle)
                point[node] = middle
            _put_label(picture, step, old, new, middle)
            states[node] = new
        row.states = tuple(states[node] for node in range(picture.nodes))
    for node, state in states.items():
        picture.segments.append(Segment(node, state.role, since[node], end))
        _put_band(picture, node, state.commit, point[node], end)
    known = sorted({band.commit for band in picture.bands}, key=optime)
    for band in picture.bands:
        band.shade = known.index(band.commit)


def _put_band(picture: Picture, node: int, commit: str, top: float, bottom: float) -> None:
    if commit not in ("-", "0/0/0"):
        picture.bands.append(Band(node, commit, top, bottom, 0))


def _put_label(picture: Picture, step: Step, old: State, new: State, top: float) -> None:
    """Says what a reader should not miss beside the lane."""
    told: List[str] = []
    if old.role != new.role and not new.down:
        told.append(f"{new.role.lower()}, term {new.term}")
    elif old.term != new.term and not new.down:
        told.append(f"term {new.term}")
    if old.commit != new.commit and not new.down and not old.down:
        told.append(f"commit {new.commit}")
    if new.down and not old.down:
        told = ["down"]
    if step.reply.text.startswith("rolled back"):
        words = step.reply.text.split(" ")
        told = [f"cut to {words[3]}, {words[5]} lost"]
    if told:
        picture.labels.append(Label(step.node or 0, top, ", ".join(told)))


def _put_messages(picture: Picture, run: Run, first: int) -> None:
    """Arrows for deliveries, and stubs for what nobody got."""
    place_of = {row.line: place + 0.5 for place, row in enumerate(picture.rows) if not row.caption}
    end = float(len(picture.rows))
    tried = set()
    for row in picture.rows:
        message = row.step.message if row.step else None
        if message is None or row.step is None:
            continue
        tried.add(message.number)
        top = place_of.get(message.line, 0.0)
        label = _name(message.kind, message.answers is not None)
        arrow = Arrow(message.sender, message.receiver, top, place_of[row.line], message.kind, label, row.bad)
        picture.arrows.append(arrow)
    for message in run.mail.messages:
        if message.line not in place_of or message.number in tried or message.line < first:
            continue
        top, label = place_of[message.line], _name(message.kind, message.answers is not None)
        if message.number in run.mail.delivered:
            picture.arrows.append(Arrow(message.sender, message.receiver, top, end, message.kind, label, False, False))
        else:
            _put_stub(picture, message, top, label)


def _put_stub(picture: Picture, message: Message, top: float, label: str) -> None:
    side = 1 if message.receiver > message.sender else -1
    for stub in picture.stubs[-6:]:
        if (stub.top, stub.sender, stub.side) == (top, message.sender, side):
            stub.receivers.append(message.receiver)
            return
    picture.stubs.append(Stub(message.sender, [message.receiver], side, top, message.kind, label))


def _name(kind: str, answer: bool) -> str:
    return MESSAGE_NAMES.get(kind, (kind, kind))[answer]


def _put_marks(picture: Picture, step: Step, top: float, kind: str) -> None:
    if step.node is None or step.node >= picture.nodes:
        return
    text = step.reply.text
    shape = "plain"
    if text.startswith("rolled back"):
        shape = "cut"
    elif step.after is not None and step.after.down and step.before is not None and not step.before.down:
        shape = "crash"
    elif step.reply.refused:
        shape = "refused"
    elif step.word == "deliver":
        return
    elif step.word == "restart":
        shape = "restart"
    elif text.startswith("acked"):
        shape = "acked"
    elif kind == "write":
        shape = "write"
    picture.marks.append(Mark(step.node, top, shape, kind))


def window(lines: Sequence[str], wanted: Optional[Tuple[int, int]], most: int) -> Tuple[int, int]:
    """The lines that a picture shows: those that were asked for, but no more than `most`."""
    first, last = wanted or (1, len(lines))
    first = max(1, min(first, len(lines)))
    return first, max(first, min(last, len(lines), first + most - 1))
