"""What became of each write of a run, and what each read showed: found from the replies, and from the nodes' states beside them.

Where a log ends each reply tells that changes it. What is on the disk of a node that is down at the end, a `restart` tells that
is put after the script and is no part of it.
"""
from __future__ import annotations

from typing import AbstractSet, Dict, List, NamedTuple, Optional, Sequence, Set, Tuple

from .asking import TOLD
from .histories import ZERO, Histories
from .keys import Place, read_place, written_place
from .mail import Configs
from .observe import Run, Step, observe
from .script import first_word, is_silent, words_of
from .state import Optime, opening_state, optime
from .story import Config, Read, Removal, Story, Write

#: Each of a node's two disks may be told to fail once, so that the third restart succeeds.
RESTARTS = 3


def read_fates(lines: Sequence[str]) -> Story:
    """Plays a plain script, and tells what became of its writes and what its reads showed."""
    return story_of(observe([*lines, *endings(lines)]), len(lines))


def endings(lines: Sequence[str]) -> List[str]:
    """What is played after a script to see what the disks of nodes have that are down."""
    return [f"restart n{node}" for node in range(_nodes(lines)) for _ in range(RESTARTS)]


def story_of(run: Run, count: int) -> Story:
    """What became of the writes of a run whose script has so many lines. After them it goes on, at last with the endings."""
    reader = Reader(run.size.nodes, hidden_reads(run.lines), _block_lines(run.lines))
    for step in run.steps:
        if step.line <= count:
            reader.take(step, run.mail.configs)
        else:
            reader.take_restart(step)
    return reader.story()


def _nodes(lines: Sequence[str]) -> int:
    first = next((words_of(line) for line in lines if not is_silent(line)), [""])
    return int(first[1]) if first[0] == "set" and len(first) > 1 and first[1].isdecimal() else 0


#: The first words of replies that tell something of data.
_TOLD = {
    "written", "begun", "committed", "aborted", "primary", "took", "applied", "rolled", "down", "refused", "up", "acked", "config",
    "found", "missing", "documents",
}


#: Those of them of which the first word is all that is looked at.
_SHOWN = ("found", "missing", "documents")


def told_of(reply: str) -> str:
    """What of a reply a reader looks at, where no disk fails; nothing where it tells of no data."""
    head = reply.split(" ", 1)[0]
    return head if head in _SHOWN else reply if head in _TOLD and head != "refused" else ""


class _Begun(NamedTuple):
    """A write as it was when it was told first."""

    line: int
    text: str
    node: int
    at: Optime
    place: Optional[Place]


class _Seen(NamedTuple):
    """A read, with the optimes of the writes that it showed and missed."""

    line: int
    node: int
    level: str
    place: Optional[Place]
    front: Optional[Optime]
    shown: Optional[Optime] = None
    missed: Optional[Optime] = None


class Reader:
    """Goes over a run, step by step.

    Nothing that it holds is changed but its own lists, sets and maps, so that a branch copies no more than these."""

    def __init__(self, nodes: int, hidden: AbstractSet[int] = frozenset(), blocks: AbstractSet[int] = frozenset()):
        #: The lines of reads that nobody was shown, and those within blocks.
        self._hidden, self._blocks = hidden, blocks
        # Of each node: what it is, where its log ends and up to where it is applied, its configuration, since when it is down.
        self._states = {node: opening_state() for node in range(nodes)}
        self._last: Dict[int, Optime] = {node: ZERO for node in range(nodes)}
        self._applied = dict(self._last)
        self._config = {node: "0/1" for node in range(nodes)}
        self._down: Dict[int, int] = {}
        self._rolled: Dict[int, int] = {}
        # Of writes: those of each document, those of writers, and what is known to be safe.
        self._writes: Dict[Optime, _Begun] = {}
        self._done: Set[Optime] = set()
        self._acks: List[Tuple[Optime, str, int]] = []
        self._removals: List[Tuple[Optime, Removal]] = []
        self._writers: Dict[Tuple[int, str], Optime] = {}
        self._of_place: Dict[Place, Tuple[Optime, ...]] = {}
        self._histories = Histories()
        self._committed: Set[Optime] = set()
        self._acked = ZERO
        # Of reads: all of them, and the newest write of each document that a majority read has shown.
        self._reads: List[_Seen] = []
        self._shown: Dict[Place, Optime] = {}
        # Of primaries and configurations.
        self._primaries: Dict[int, int] = {}
        self._together: List[Tuple[Tuple[int, int], Tuple[int, int]]] = []
        self._ended: Optional[int] = None
        self._configs: Dict[str, Config] = {}

    def branch(self) -> "Reader":
        """One that has come as far, in a run that goes on otherwise."""
        made = Reader.__new__(Reader)
        made._hidden, made._blocks, made._acked, made._ended = self._hidden, self._blocks, self._acked, self._ended
        made._states, made._last, made._applied = dict(self._states), dict(self._last), dict(self._applied)
        made._config, made._down, made._rolled = dict(self._config), dict(self._down), dict(self._rolled)
        made._writes, made._done, made._acks = dict(self._writes), set(self._done), list(self._acks)
        made._removals, made._writers, made._of_place = list(self._removals), dict(self._writers), dict(self._of_place)
        made._histories, made._committed = self._histories.branch(), set(self._committed)
        made._reads, made._shown, made._primaries = list(self._reads), dict(self._shown), dict(self._primaries)
        made._together, made._configs = list(self._together), dict(self._configs)
        return made

    def take(self, step: Step, configs: Configs) -> None:
        """The next step, where these configurations have been told of."""
        if step.node is not None:
            self._take(step, step.node, configs)
            self._watch(step, step.node)

    def _watch(self, step: Step, node: int) -> None:
        """Notes who is primary, and what a state tells of commit points and configurations."""
        after = step.after
        if after is None or step.line in self._blocks and after is step.before:
            # Within a block nodes aren't asked. The last step of each there has the state in which the block left it.
            return
        if after is self._states.get(node):
            return
        self._states[node] = after
        if after.role == "Primary" and node not in self._primaries:
            for other, line in self._primaries.items():
                self._together.append(((other, line), (node, step.line)))
            self._primaries[node] = step.line
        elif after.role != "Primary" and self._primaries.pop(node, 0) and not self._primaries:
            self._ended = step.line
        if not after.down:
            self._config[node] = after.config
            self._committed.add(optime(after.commit))

    def _take(self, step: Step, node: int, configs: Configs) -> None:
        head = step.reply.text.split(" ", 1)[0]
        if head not in _TOLD:
            return
        words = step.reply.text.split(" ")
        if head in ("written", "begun", "committed", "aborted"):
            self._take_write(step, node, words)
        elif head == "primary":
            self._take_drain(step, node, words, configs)
        elif head == "took":
            self._last[node] = optime(words[3])
        elif head == "applied":
            self._applied[node] = optime(words[3])
        elif head == "rolled":
            self._remove(node, step.line, optime(words[3]), rollback=True)
            self._rolled[node] = step.line
        elif head == "down" or words[1:3] == ["29", "DiskFailed"]:
            self._down.setdefault(node, step.line)
        elif head == "up":
            self._take_up(step, node, optime(words[2]))
        elif head == "acked":
            self._take_ack(step, optime(words[1]))
        elif head == "config":
            self._configure(step, node, words[1], configs, asked=True)
        elif head in ("found", "missing") or head == "documents" and step.word == "dump":
            self._take_read(step, node)

    def _take_write(self, step: Step, node: int, words: List[str]) -> None:
        name = words_of(step.text)[2] if words[0] != "written" else ""
        if words[0] == "aborted":
            self._writers.pop((node, name), None)
            return
        at = optime(words[1])
        if words[0] == "committed":
            self._done.add(self._writers.pop((node, name)))
        elif at not in self._writes:
            self._writes[at] = _Begun(step.line, step.text, node, at, written_place(step.text))
            if words[0] == "written":
                self._done.add(at)
        if words[0] == "begun":
            self._writers[node, name] = at
        elif not self._histories.has(max(self._last[node], at), at):
            # A retried write that the log had already is told once more, and not done.
            self._histories.write(at)
            self._last[node] = self._applied[node] = max(self._last[node], at)
            place = self._writes[at].place
            if place is not None:
                self._of_place[place] = (*self._of_place.get(place, ()), at)

    def _take_drain(self, step: Step, node: int, words: List[str], configs: Configs) -> None:
        at = optime(words[3])
        self._histories.begin(at[0], self._last[node])
        self._histories.write(at)
        self._last[node] = self._applied[node] = at
        self._configure(step, node, f"{words[1]}/{self._config[node].split('/')[1]}", configs, asked=False)

    def _configure(self, step: Step, node: int, name: str, configs: Configs, asked: bool) -> None:
        if name not in self._configs:
            self._configs[name] = Config(step.line, asked, self._config[node], configs.members_of(name).voters)
        self._config[node] = name

    def _remove(self, node: int, line: int, cut: Optime, rollback: bool) -> None:
        """The node's log ends at `cut` now."""
        for at in self._histories.after(self._last[node], cut):
            if at in self._writes:
                self._removals.append((at, Removal(node, line, rollback)))
        self._last[node] = self._applied[node] = cut

    def _take_up(self, step: Step, node: int, last: Optime) -> None:
        self._remove(node, self._down.pop(node, step.line), last, rollback=False)
        self._rolled.pop(node, None)

    def _take_ack(self, step: Step, at: Optime) -> None:
        concern = words_of(step.text)[3]
        if at in self._writes:
            self._acks.append((at, concern.lstrip("0"), step.line))
        if concern == "majority":
            self._acked = max(self._acked, at)
            self._committed.add(at)

    def take_restart(self, step: Step) -> None:
        """What a restart after the script tells of the disk of a node that is down."""
        if step.node is not None and step.reply.text.startswith("up "):
            last = optime(step.reply.text.split(" ")[2])
            self._remove(step.node, self._down.pop(step.node, 0), last, rollback=False)
            if step.after is not None and not step.after.down:
                self._config[step.node] = step.after.config

    # Reads.

    def _take_read(self, step: Step, node: int) -> None:
        if step.line in self._hidden:
            return
        level, place = words_of(step.text)[2], read_place(step.text)
        front = self._front(step, node, level)
        if front is None:
            self._reads.append(_Seen(step.line, node, level, place, None))
            return
        places = [place] if place is not None else list(self._of_place)
        shown = None if place is None else self._newest(place, front)
        missed = next((at for one in places for at in self._unshown(one, front)), None)
        self._reads.append(_Seen(step.line, node, level, place, front, shown, missed))
        if level == "majority":
            self._committed.add(front)
            for one in places:
                self._show(one, front)

    def _front(self, step: Step, node: int, level: str) -> Optional[Optime]:
        """Up to where a read shows the log. In a block nobody knows where a commit point is."""
        if level == "local":
            return self._applied[node]
        if step.before is None or step.line in self._blocks:
            return None
        return min(optime(step.before.commit), optime(step.before.applied))

    def _newest(self, place: Place, front: Optime) -> Optional[Optime]:
        """The last write to a document in the log that ends there."""
        return next((at for at in reversed(self._of_place.get(place, ())) if self._histories.has(front, at)), None)

    def _unshown(self, place: Place, front: Optime) -> List[Optime]:
        """The writes to a document that are known to be safe by now, and that a log up to there hasn't got."""
        safe = [self._newest(place, self._acked), self._shown.get(place)]
        return [at for at in safe if at is not None and not self._histories.has(front, at)]

    def _show(self, place: Place, front: Optime) -> None:
        newest = self._newest(place, front)
        if newest is not None and (place not in self._shown or self._shown[place] < newest):
            self._shown[place] = newest

    # The end.

    def story(self) -> Story:
        """All that is told of the run, whose end this is."""
        writes = {at: Write(one.line, one.text, one.node, at, one.place, at in self._done) for at, one in self._writes.items()}
        for at, concern, line in self._acks:
            writes[at].acks.setdefault(concern, line)
        for at, removal in self._removals:
            writes[at].removals.append(removal)
        reads = [
            Read(
                one.line, one.node, one.level, one.place, one.front,
                None if one.shown is None else writes[one.shown], None if one.missed is None else writes[one.missed],
            )
            for one in self._reads
        ]
        story = Story(
            list(writes.values()), reads, self._histories, self._states, self._last, self._configs, self._config, self._rolled,
            self._together, self._ended,
        )
        self._settle(story)
        return story

    def _settle(self, story: Story) -> None:
        """Says of each write where it stands at the end, whether it is committed, and whether it is lost."""
        leader = story.leader()
        term = 0 if leader is None else int(story.states[leader].term)
        has, farthest = story.histories.has, max(self._committed, default=ZERO)
        nodes = [(node, last, story.states[node].down) for node, last in sorted(story.lasts.items())]
        for write in story.writes:
            if not write.done:
                continue
            for node, last, down in nodes:
                if has(last, write.at):
                    (write.disks if down else write.logs).append(node)
            write.committed = has(farthest, write.at)
            write.lost = not write.logs and not write.disks or term > write.at[0] and leader not in write.logs


def hidden_reads(lines: Sequence[str]) -> Set[int]:
    """The lines of reads that nobody was shown: those of linearizable reads that were refused then."""
    found: Set[int] = set()
    begins = 0
    for number, line in enumerate(lines, 1):
        if not line.startswith("#"):
            continue
        if line.startswith("# linear "):
            begins = number
        elif line.startswith(f"{TOLD}linear refused") and begins:
            found.update(range(begins, number))
            begins = 0
    return found


def _block_lines(lines: Sequence[str]) -> Set[int]:
    """The numbers of the lines within blocks."""
    found, in_block = set(), False
    for number, line in enumerate(lines, 1):
        word = first_word(line)
        in_block = word == "par" or (in_block and word != "end")
        if in_block:
            found.add(number)
    return found
