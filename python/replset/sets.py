"""A replica set inside of this process."""
from __future__ import annotations

from pathlib import Path
from types import TracebackType
from typing import Iterable, Iterator, List, NamedTuple, Optional, Sequence, Type, Union, overload

from . import views
from .commands import Commands
from .faults import BadLine, Stopped
from .lab.errors import LabError, StoppedMacro
from .lab.expand import Expander
from .lab.inside import Follower
from .lab.library import ASK, BAD_LINE, MESSAGES, STEP, STEPS, TRACE, Answer, Held, open_set
from .lab.macros import CannotGoOn, Kept
from .lab.player import Player
from .lab.script import MOST_VOTERS
from .lab.transcript import read_texts
from .lab.verdicts import Verdict
from .optimes import Optime
from .past import Past
from .reading import read_reply
from .replies import Reply, State


class Message(NamedTuple):
    """A message that was sent. It can be delivered, also again."""

    number: int
    sender: int
    receiver: int
    term: int
    kind: str


class Replies(Sequence[Reply]):
    """The replies to many lines, in their order. Each is read when it is looked at; `texts` has them as they
    came."""

    def __init__(self, text: str):
        #: Each reply's text, with the lines below it as they stand.
        self.texts = read_texts(text)

    def __len__(self) -> int:
        return len(self.texts)

    @overload
    def __getitem__(self, place: int) -> Reply: ...

    @overload
    def __getitem__(self, place: slice) -> List[Reply]: ...

    def __getitem__(self, place: Union[int, slice]) -> Union[Reply, List[Reply]]:
        if isinstance(place, slice):
            return [_read(text) for text in self.texts[place]]
        return _read(self.texts[place])

    def __iter__(self) -> Iterator[Reply]:
        return map(_read, self.texts)

    def __repr__(self) -> str:
        return f"<{len(self)} replies>"


def _read(text: str) -> Reply:
    head, *more = text.split("\n")
    return read_reply(head, [line[2:] for line in more])


class Set(Commands):
    """A replica set of `nodes` nodes, of which the first `voters` vote and the first `members` are members.

    Without them all nodes are members, and the first seven vote. Each method for a command does it, and gives
    its reply. What was done is a script that `replset run` plays in the same way."""

    def __init__(self, nodes: int = 3, voters: Optional[int] = None, members: Optional[int] = None):
        self._begin(nodes, voters, members)

    def _begin(self, nodes: int, voters: Optional[int], members: Optional[int]) -> None:
        voting = min(nodes, MOST_VOTERS) if voters is None else voters
        counted = members if members is not None else nodes if voters is None else voters
        self._held = open_set(nodes, voting, counted)
        self._past = Past()
        self._past.add(f"set {nodes}" if (voting, counted) == (min(nodes, MOST_VOTERS), nodes) else f"set {nodes} {voting} {counted}")
        self._kept: Kept = (None, {}, False)
        #: How many nodes it has.
        self.nodes = nodes

    # Lines.

    def step(self, line: str) -> Optional[Reply]:
        """Does one line of a script; a comment or an empty line has no reply."""
        answer = self._held.call(STEP, line.encode())
        if answer.status:
            raise _fault(answer, [line], self._past.count)
        self._past.add(line)
        text = answer.text.decode()
        return _read(text[text.index(": ") + 2 : -1]) if text else None

    def reply_to(self, line: str) -> Reply:
        """Does one command."""
        reply = self.step(line)
        if reply is None:
            raise ValueError(f"{line!r} is no command")
        return reply

    def batch(self, lines: Union[str, Iterable[str]]) -> Replies:
        """Does many lines of a script, which is faster than one by one: a text, or each by itself.

        At a line that can't be done it stops with a BadLine; those before it are done."""
        text = lines if isinstance(lines, str) else "".join([f"{line}\n" for line in lines])
        split = text.split("\n")
        if split[-1] == "":
            split.pop()
        answer = self._held.call(STEPS, text.encode())
        if answer.status:
            fault = _fault(answer, split, self._past.count)
            self._past.extend(split[: fault.done])
            raise fault
        self._past.extend(split)
        return Replies(answer.text.decode())

    def look(self, line: str) -> Reply:
        """The reply to a line that only looks (`state`, `dump`, `read`, `log`, `rolled`). It is no line of
        the script."""
        answer = self._held.call(ASK, line.encode())
        if answer.status:
            raise _fault(answer, [line], self._past.count)
        text = answer.text.decode()
        return _read(text[text.index(": ") + 2 : -1])

    def states(self) -> List[Optional[State]]:
        """Where each node stands, or nothing where it is down."""
        looked = [self.look(f"state n{node}") for node in range(self.nodes)]
        return [state if isinstance(state, State) else None for state in looked]

    def primary(self) -> Optional[int]:
        """The primary of the highest term."""
        leading = [(state.term, node) for node, state in enumerate(self.states()) if state and state.role == "Primary"]
        return max(leading)[1] if leading else None

    def messages(self, first: int = 0) -> List[Message]:
        """The messages that were sent, from that of a number on."""
        text = self._held.call(MESSAGES, first=first).text.decode()
        words = [line.split(" ") for line in text.splitlines()]
        return [Message(int(one[0][1:]), int(one[1][1:]), int(one[2][1:]), int(one[3]), one[4]) for one in words]

    # Short scripts.

    def play(self, lines: Union[str, Iterable[str]]) -> Replies:
        """Does lines of a short script, macros too, and gives the replies to all lines that they came to."""
        split = lines.splitlines() if isinstance(lines, str) else list(lines)
        before = self._past.lines()
        player = Player(before, Follower(self._held.copy(), before))
        expander = Expander(player)
        expander.macros.restore(self._kept)
        try:
            for line in split:
                expander.take(line)
        except CannotGoOn as fault:
            raise Stopped(fault.sentence, fault.lines or player.lines) from None
        except StoppedMacro as fault:
            raise Stopped(fault.why, fault.lines) from None
        except LabError as fault:
            raise ValueError(fault.sentence) from None
        replies = self.batch(player.lines[len(before) :])
        self._kept = expander.macros.kept()
        return replies

    def elect(self, node: int, *voters: int) -> Replies:
        """The node campaigns, asks the voters, or those named, and drains."""
        return self.play([" ".join(["elect", *(f"n{one}" for one in (node, *voters))])])

    def pull(self, node: int, source: Optional[int] = None) -> Replies:
        """The node takes all that the source, or the primary, has, keeps it on disk, applies it and reports."""
        return self.play([f"pull n{node}" if source is None else f"pull n{node} n{source}"])

    def spread(self, node: int) -> Replies:
        """The node flushes, and every member that hears it pulls from it."""
        return self.play([f"spread n{node}"])

    def wait_for(self, node: int, written: Union[Reply, Optime, str] = "last", concern: Union[int, str] = "majority") -> Replies:
        """Members pull from the node until it acknowledges what was written, at a concern."""
        place = getattr(written, "optime") if isinstance(written, Reply) else written
        return self.play([f"await n{node} {place} {concern}"])

    def partition(self, *sides: Sequence[int]) -> None:
        """Parts the nodes for macros, and for deliveries by `play`. Nodes that aren't named are a side of
        their own."""
        self.play(["partition " + " | ".join(" ".join(f"n{node}" for node in side) for side in sides)])

    def heal(self) -> None:
        """Ends the partition."""
        self.play(["heal"])

    def tick(self, count: int, seed: int) -> Replies:
        """So many times a member does something on its own, drawn from a seed."""
        return self.play([f"tick {count} {seed}"])

    # What there is to keep.

    def lines(self) -> List[str]:
        """The script so far, line by line."""
        return self._past.lines()

    def script(self) -> str:
        """The script so far."""
        return "".join(f"{line}\n" for line in self._past.lines())

    def transcript(self) -> str:
        """All replies so far, as `replset run` prints them."""
        return views.transcript(self.lines())

    def told(self) -> str:
        """Each line so far beside its reply, and then what happened to the data."""
        return views.told(self.lines())

    def trace(self) -> str:
        """The trace of the run so far, which `replset check` checks."""
        return self._held.call(TRACE).text.decode()

    def verdicts(self) -> List[Verdict]:
        """What went wrong with data so far, by name, and with the lines that show it."""
        return views.verdicts(self.lines())

    def shortest(self, verdict: str) -> "Set":
        """A set that has done only what of the script is needed for a verdict, such as `w1-lost`."""
        return play(views.shortest(self.lines(), verdict))

    def what_happened(self) -> str:
        """What became of each write so far, and the verdicts."""
        return views.what_happened(self.lines())

    def picture(self, name: Union[str, Path], title: Optional[str] = None) -> None:
        """Draws the run so far into a file: a page (`.html`) or a picture alone (`.svg`)."""
        views.draw(self.lines(), Path(name), title)

    # Copies.

    def copy(self) -> "Set":
        """An independent set that has come just as far. In a `with` it is given back at its end."""
        made = Set.__new__(type(self))
        made._held, made._past = self._held.copy(), self._past.branch()
        made._kept, made.nodes = self._kept, self.nodes
        return made

    def close(self) -> None:
        """Gives the set back. It can't be stepped any more."""
        self._held.close()

    def __enter__(self) -> "Set":
        return self

    def __exit__(
        self, kind: Optional[Type[BaseException]], fault: Optional[BaseException], trace: Optional[TracebackType]
    ) -> None:
        self.close()

    # How it is shown.

    def __repr__(self) -> str:
        if self._held.closed:
            return f"<Set of {self.nodes} nodes, closed>"
        told = ", ".join(f"n{node} {_stands(state)}" for node, state in enumerate(self.states()))
        return f"<Set of {self.nodes} nodes after {self._past.count} lines: {told}>"

    def _repr_html_(self) -> str:
        return views.drawn(self.lines())


def _stands(state: Optional[State]) -> str:
    if state is None:
        return "down"
    return f"{state.role} in term {state.term}, last {state.last}, commit {state.commit}"


def _fault(answer: Answer, lines: Sequence[str], before: int) -> BadLine:
    """The fault that an answer tells, of lines that stand after so many others."""
    if answer.status != BAD_LINE:
        raise RuntimeError(f"the library answers {answer.status}")
    told = answer.text.decode("utf-8", "replace").rstrip("\n").rpartition("\n")[2]
    number, rule = told[len("line ") :].split(": ", 1)
    place = int(number) - before - 1
    return BadLine(int(number), rule, lines[place] if place < len(lines) else "", place)


def play(lines: Union[str, Iterable[str]]) -> Set:
    """A set that has done a whole script, short or plain, which begins with its `set` line."""
    split = lines.splitlines() if isinstance(lines, str) else list(lines)
    first = next((place for place, line in enumerate(split) if line.rstrip("\r") and not line.startswith("#")), len(split))
    words = split[first].split() if first < len(split) else []
    if words[:1] != ["set"] or not 2 <= len(words) <= 4 or not all(map(str.isdecimal, words[1:])):
        raise ValueError("a script begins with a line such as 'set 3'")
    made = Set(*map(int, words[1:]))
    made.play(split[first + 1 :])
    return made
