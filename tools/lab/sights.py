"""What is seen in the replies to the lines of runs, reply by reply. It is found once for each line, reply and place."""
from __future__ import annotations

from typing import Any, Dict, List, Optional, Sequence, Tuple

from .fates import told_of
from .observe import QUESTIONS, touched
from .outcomes import Watch
from .program import script_bytes
from .script import WRITES, acting_node, first_word
from .trails import DOWN, LEADS, Standings, Telling, Trail, has_numbers, is_as_it_was
from .variations import Token

#: A node is asked after these. What others do to its state their replies tell, or no verdict looks at it.
_TURNING = ("deliver", "flush", "apply", "campaign", "drain", "stepdown", "reconfig", "restart")

#: And after these, where messages are delivered by their numbers: a log's end then says to whom.
_WRITING = (*WRITES, "retry", "note", "begin", "commit")

#: These only show something, and the replies to the first of them matter to no verdict.
_READING = ("log", "state", "rolled", "read", "dump")
_UNREAD = _READING[:3]

#: Between a reply and what stands below it: no text has this byte.
BELOW = b"\xff"


def reply_text(reply: bytes) -> str:
    """A reply with the lines below it, as texts have them."""
    return reply.replace(BELOW, b"\n").decode("utf-8", "surrogateescape")


class _Said(Dict[bytes, bytes]):
    """What is seen of a line's replies: all of one that is compared, else what it tells."""

    def __init__(self, text: str, number: int, watch: Optional[Watch], is_told: bool):
        super().__init__()
        self._text, self._number, self._watch, self._is_told = text, number, watch, is_told

    def __missing__(self, reply: bytes) -> bytes:
        said = reply_text(reply)
        is_compared = self._watch is not None and self._watch.sees(self._number, self._text, said)
        self[reply] = reply if is_compared else told_of(said).encode() if self._is_told else b""
        return self[reply]


class Line:
    """A line of a run, as it is handed over with the questions after it; or not at all, where nobody looks at its reply.

    Its number is that in the script, or 0 where it was put in."""

    __slots__ = ("text", "number", "word", "node", "asked", "is_told", "turn", "script", "replies", "said")

    def __init__(self, text: str, number: int, asked: Sequence[int], watch: Optional[Watch], is_told: bool, is_silent: bool):
        self.text, self.number, self.word, self.node = text, number, first_word(text), acting_node(text)
        self.asked, self.is_told = asked, is_told
        #: Whether its node is down or up after it, where it says so: each disk works well.
        self.turn = {"crash": "down", "restart": "up"}.get(self.word)
        self.script = b"" if is_silent else script_bytes([text, *(QUESTIONS[node] for node in asked)])
        #: How many replies it has, with those to the questions, and what is seen of its own.
        self.replies = 0 if is_silent else 1 + len(asked)
        self.said = _Said(text, number, watch, is_told)


class Lines(Dict[Token, Line]):
    """The lines of a script, and those that are put in. Where verdicts are wanted, states and replies that matter to them are seen."""

    def __init__(self, lines: Sequence[str], nodes: int, watch: Optional[Watch], with_verdicts: bool):
        super().__init__()
        self._nodes, self._watch, self._with_verdicts = nodes, watch, with_verdicts
        self._turning = (*_TURNING, *_WRITING) if has_numbers(lines) else _TURNING
        self._hidden: Dict[Token, Line] = {}
        self.update({place: self._line(text, place + 1, with_verdicts) for place, text in enumerate(lines)})

    def __missing__(self, text: Token) -> Line:
        """A line that is put in, when it is met first."""
        self[text] = self._line(str(text), 0, self._with_verdicts)
        return self[text]

    def _line(self, text: str, number: int, is_told: bool) -> Line:
        word = first_word(text)
        asked = touched(text, self._nodes) if is_told and word in self._turning else ()
        is_compared = self._watch is not None and self._watch.may_see(number)
        is_silent = word == "" or not is_compared and word in (_UNREAD if is_told else _READING)
        return Line(text, number, asked, self._watch, is_told, is_silent)

    def hidden(self, token: Token) -> Line:
        """The same, where nobody was shown the reply to a read."""
        line = self[token]
        if line.word not in ("read", "dump"):
            return line
        if token not in self._hidden:
            self._hidden[token] = self._line(line.text, line.number, False)
        return self._hidden[token]


class View:
    """What was seen of a run up to some place, and how each node stands there. Runs with one view go on from it alike."""

    __slots__ = ("watched", "told", "standings", "later", "ends")

    def __init__(self, watched: Trail, told: Trail, standings: Tuple[bytes, ...]):
        self.watched, self.told, self.standings = watched, told, standings
        #: The view after a line of which something was seen; and what a run comes to that ends here, by the replies after its end.
        self.later: Dict[Tuple[Any, ...], View] = {}
        self.ends: Dict[Tuple[bytes, ...], Any] = {}


class Sights:
    """All views of some runs. A reply has what comes before its text: so many bytes, the same for all of them."""

    def __init__(self, lines: Sequence[str], watch: Optional[Watch], front: int):
        self._watch, self._front, self._standings = watch, front, Standings(lines)
        self._views: Dict[Tuple[Trail, Trail, Tuple[bytes, ...]], View] = {}
        #: How often something was seen for the first time.
        self.count = 0

    def view(self, watched: Trail, told: Trail, standings: Tuple[bytes, ...]) -> View:
        """The one view of these."""
        seen = watched, told, standings
        if seen not in self._views:
            self._views[seen] = View(*seen)
        return self._views[seen]

    def opening(self, told: Trail, states: Sequence[bytes]) -> View:
        """The view before the first line."""
        self._opening = tuple(self._standings[state] for state in states)
        return self.view(Trail(), told, self._opening)

    def after(self, view: View, lines: Sequence[Line], replies: Sequence[bytes]) -> View:
        """The view after lines with these replies."""
        front, standings, place = self._front, self._standings, 0
        for line in lines:
            wanted = line.replies
            if not wanted:
                continue
            said = line.said[replies[place][front:]]
            if wanted == 1:
                seen: Tuple[Any, ...] = line, said
                is_new = bool(said)
            elif wanted == 2:
                seen = line, said, standings[replies[place + 1][front:]]
                is_new = bool(said) or seen[2] != view.standings[line.asked[0]]
            else:
                seen = (line, said, *[standings[reply[front:]] for reply in replies[place + 1 : place + wanted]])
                is_new = bool(said) or seen[2:] != view.standings
            if is_new:
                view = view.later.get(seen) or self._first(view, seen, replies[place : place + wanted])
            place += wanted
        return view

    def _first(self, view: View, seen: Tuple[Any, ...], replies: Sequence[bytes]) -> View:
        """The view after one line, of which this wasn't seen there before."""
        line: Line = seen[0]
        said, states = reply_text(replies[0][self._front :]), [reply[self._front :].decode() for reply in replies[1:]]
        watched, told, now = view.watched, view.told, list(view.standings)
        if self._watch is not None and self._watch.sees(line.number, line.text, said):
            watched = watched.on((line.number, said), (line.number, said))
        node, state = line.node, ""
        for asked, standing, text in zip(line.asked, seen[2:], states):
            # Of a message by its number the line doesn't say for whom it is: no other node changes.
            if standing != now[asked]:
                node, state, now[asked] = asked, text, standing
        if line.word == "crash" and said == "down" and node is not None:
            state, now[node] = "refused 1 NodeDown", DOWN
        if line.is_told and node is not None:
            told = self._told(view, Telling(line.text, said, node, now[node] if state else b"", state or None))
        self.count += 1
        view.later[seen] = found = self.view(watched, told, tuple(now))
        return found

    def _told(self, view: View, telling: Telling) -> Trail:
        """What is told after a line."""
        text, reply, node, standing, state = telling
        heard = told_of(reply)
        if not heard and state is None or heard == "down" and not view.standings[node].startswith(LEADS):
            return view.told
        if heard.startswith("up ") and is_as_it_was(view.told, node, heard.split(" ")[2], standing, self._opening[node]):
            return view.told
        return view.told.on((text, heard, node, standing), telling)

    def restarted(self, told: Trail, node: int, reply: bytes, state: bytes) -> Trail:
        """What is told after a node that was down has been restarted after the run, with these replies."""
        standing, text = self._standings[state], reply.decode()
        return told.on(("", text, node, standing), Telling("", text, node, standing, state.decode()))
