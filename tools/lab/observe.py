"""A run with what each line did: the node that it touched, before and after, and the messages that it sent or handed over.

For this `state` lines are put into the script and taken out of its transcript again. They change nothing in a run.
"""
from __future__ import annotations

from dataclasses import dataclass
from typing import Dict, List, Optional, Sequence, Tuple

from .errors import SCRIPT, LabError, ScriptFault
from .mail import Mail, Message
from .program import play
from .script import SetSize, acting_node, first_word, set_size, words_of
from .state import State, changes, opening_state, read_state
from .transcript import Reply, Transcript

#: A script has at most so many lines.
MOST_LINES = 200_000

#: What each node is asked.
QUESTIONS = [f"state n{node}" for node in range(50)]


class TooLong(LabError):
    """The script has too many lines to be watched."""

    def __init__(self) -> None:
        super().__init__(SCRIPT, "the script is too long to be watched line by line: name a part of it with --lines")


@dataclass
class Step:
    """One reply, and what its line did. The states are those of the one node that it touched."""

    line: int
    text: str
    reply: Reply
    node: Optional[int]
    sent: List[Message]
    message: Optional[Message]
    before: Optional[State] = None
    after: Optional[State] = None

    @property
    def word(self) -> str:
        """The command's name."""
        return first_word(self.text)

    def told_change(self) -> str:
        """What changed, for people; nothing where nothing did."""
        if self.node is None or self.before is None or self.after is None:
            return ""
        return changes(self.node, self.before, self.after)


@dataclass
class Run:
    """A run, step by step in the order in which they were done."""

    lines: List[str]
    size: SetSize
    mail: Mail
    steps: List[Step]
    #: The nodes' states before the first line that was watched.
    opening: Dict[int, State]
    #: The nodes' states after the last one.
    closing: Dict[int, State]


class _Probed:
    """A script with `state` lines put in. For each line `source` has the line that it was or stands after, and the node asked."""

    def __init__(self, lines: Sequence[str], nodes: int, first: int, last: int):
        self.lines: List[str] = []
        self.source: List[Tuple[int, Optional[int]]] = []
        in_block = begun = False
        for number, line in enumerate(lines, 1):
            word = first_word(line)
            if number == first and begun:
                self._ask(number - 1, range(nodes))
            self._put(line, (number, None))
            in_block = word == "par" or (in_block and word != "end")
            if word and not in_block and first <= number <= last:
                self._ask(number, touched(line, nodes))
            elif word in ("campaign", "dryrun", "drain"):
                # Whom a candidate asks, its configuration says.
                self._ask(number, _named(line, nodes))
            begun = begun or word == "set"
        if len(self.lines) > MOST_LINES:
            raise TooLong

    def _ask(self, number: int, asked: Sequence[int]) -> None:
        for node in asked:
            self._put(QUESTIONS[node], (number, node))

    def _put(self, line: str, source: Tuple[int, Optional[int]]) -> None:
        self.lines.append(line)
        self.source.append(source)

    def play(self) -> Transcript:
        """The replies, or the fault of a line by the number that it has in the script as it was."""
        try:
            return play(self.lines)
        except ScriptFault as fault:
            number, text = len(self.lines), ""
            if fault.line <= len(self.lines):
                number, text = self.source[fault.line - 1][0], self.lines[fault.line - 1]
            raise ScriptFault(number, fault.rule, text) from None


def touched(line: str, nodes: int) -> Sequence[int]:
    """The nodes of a set of so many that a line may change; all of them where it doesn't say which."""
    everyone = first_word(line) == "end" or first_word(line) == "deliver" and len(words_of(line)) == 2
    return range(nodes) if everyone else _named(line, nodes)


def _named(line: str, nodes: int) -> Sequence[int]:
    """The node that a line is for, where it names one of the set's."""
    node = acting_node(line)
    return (node,) if node is not None and node < nodes else ()


def observe(lines: Sequence[str], first: int = 1, last: int = MOST_LINES) -> Run:
    """Plays a script, and watches what its lines from `first` to `last` change. Of the others it follows the messages alone."""
    first = _before_block(lines, first)
    size = set_size(lines)
    probed, watching = _Probed(lines, size.nodes, first, last), Watching(size)
    run = Run(list(lines), size, watching.mail, [], dict(watching.states), watching.states)
    latest: Dict[int, Step] = {}
    for reply in probed.play().replies:
        number, asked = probed.source[reply.line - 1]
        if asked is None:
            step = watching.step(number, run.lines[number - 1], reply)
            run.steps.append(step)
            if step.node is not None:
                latest[step.node] = step
            continue
        state = watching.state(asked, reply.text)
        if number < first:
            run.opening[asked] = state
        elif asked in latest:
            latest[asked].after = state
    return run


class Watching:
    """What the replies to a run tell, as far as they have come: its messages, and what each node is."""

    def __init__(self, size: SetSize):
        self.mail = Mail(size)
        self.states: Dict[int, State] = {node: opening_state() for node in range(size.nodes)}

    def state(self, node: int, reply: str) -> State:
        """What a node is, by its reply to a question."""
        state = read_state(reply)
        self.mail.configs.notice_state(node, state)
        self.states[node] = state
        return state

    def step(self, number: int, text: str, reply: Reply) -> Step:
        """What a line did, by its reply. What the node is after it is known later."""
        own = Reply(number, reply.text, reply.more)
        if first_word(text) == "deliver":
            count = len(self.mail.messages)
            message = self.mail.deliver(text, number, reply.text)
            node, sent = (message.receiver if message else None), self.mail.messages[count:]
        else:
            sent = self.mail.act(text, number, reply.text)
            message, node = None, acting_node(text)
        state = None if node is None else self.states.get(node)
        return Step(number, text, own, node, sent, message, state, state)


def _before_block(lines: Sequence[str], first: int) -> int:
    """The line, or where it stands in a block the line that begins it."""
    begins = 0
    for number, line in enumerate(lines[: first - 1], 1):
        word = first_word(line)
        if word == "par":
            begins = number
        elif word == "end":
            begins = 0
    return begins or first
