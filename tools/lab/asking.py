"""The macros that ask: a linearizable read, a change stream, what a new member would begin with, the set's status.

Each comes to the commands by which the program does the same after a script, at any place of a script and under a partition
too. What came of them stands after them in comments that begin with `#: `.
"""
from __future__ import annotations

import re
from typing import Callable, Dict, List, Optional, Tuple

from .histories import ZERO
from .keys import read_place
from .notation import members
from .player import Player
from .script import words_of
from .state import Optime, State, optime, read_state
from .status import status_table

#: What came of a macro stands after this.
TOLD = "#: "

MOST_ROUNDS, MOST_FLUSHES, MOST_NODES = 50, 200, 50

_TOKEN = re.compile(r"[0-9a-f]{32}$")
_NAME = re.compile(r"[A-Za-z]\w*$")

#: What a log's entry of each kind is called in a stream.
_CHANGES = {"i": "insert", "u": "update", "d": "delete"}


def token_of(at: Optime) -> str:
    """An optime as a token: term and timestamp."""
    return f"{at[0]:016x}{at[1] << 32 | at[2]:016x}"


def optime_of_token(token: str) -> Optime:
    """The optime that a token stands for."""
    stamp = int(token[16:], 16)
    return int(token[:16], 16), stamp >> 32, stamp & 2**32 - 1


class Asking:
    """Plays these macros on a script."""

    def __init__(self, player: Player, linked: Callable[[int, int], bool]):
        self._player, self._linked = player, linked
        #: Up to where each named stream has told.
        self.tokens: Dict[str, Optime] = {}

    def _tell(self, *lines: str) -> None:
        for line in lines:
            self._player.add(TOLD + line)

    def _state(self, node: int) -> Optional[State]:
        """A node's state, asked for by a line; none where it is down."""
        reply = self._player.ask(f"state n{node}")
        return None if reply.refused else read_state(reply.text)

    # A linearizable read.

    def linear(self, node: int, collection: str, key: str) -> None:
        """Reads a document, writes a note, and has a majority acknowledge that."""
        self._tell("linear " + self._linear(node, f"read n{node} local {collection} {key}"))

    def _linear(self, node: int, read: str) -> str:
        state = self._state(node)
        if state is None:
            return "refused 1 NodeDown"
        if state.role != "Primary":
            return "refused 2 NotPrimary"
        shown, note = self._player.ask(read), self._player.ask(f"note n{node}")
        refused = next((reply.text for reply in (shown, note) if reply.refused), None)
        if refused:
            return refused
        at = optime(note.text.split(" ")[1])
        if at[0] != int(state.term):
            return f"refused 14 SteppedDown {state.term}"
        self._flush(node, MOST_FLUSHES)
        for other in range(self._player.size().nodes):
            if other != node:
                self._bring(node, other, at)
        acked = self._player.ask(f"ack n{node} {note.text.split(' ')[1]} majority")
        return acked.text if acked.refused else shown.text

    def _flush(self, node: int, most: int) -> None:
        for _ in range(most):
            if not self._player.ask(f"flush n{node}").text.startswith("flushed"):
                return

    def _bring(self, node: int, other: int, at: Optime) -> None:
        """Rounds in which the other hears of the note and takes it, and its report."""
        for _ in range(MOST_ROUNDS):
            goes_on = self._round(node, other, at)
            self._flush(other, 3)
            if not goes_on:
                break
        self._carry(self._player.ask(f"report n{other} n{node}").text, other, node)

    def _round(self, node: int, other: int, at: Optime) -> bool:
        """A heartbeat and a fetch. Gives whether another round is worth while."""
        heard = self._carry(self._player.ask(f"heartbeat n{node} n{other}").text, node, other)
        sent = self._player.ask(f"fetch n{other}").text
        source = int(sent.rsplit("n", 1)[1]) if sent.startswith("sent") else node
        answered = self._carry(sent, other, source)
        took = self._carry(answered, source, other)
        if not heard.startswith("replied") or not took.startswith("took "):
            return False
        count, last = took.split(" ")[1], took.split(" ")[3]
        return count != "0" and optime(last) < at

    def _carry(self, sent: str, sender: int, receiver: int) -> str:
        """Delivers the message that a reply tells of, where there is one and it passes; what that came to."""
        found = re.match(r"(?:sent|replied) (m\d+)", sent)
        if not found:
            return ""
        if not self._linked(sender, receiver):
            self._player.add(f"# lost in the partition: deliver {found[1]}")
            return ""
        return self._player.ask(f"deliver {found[1]}").text

    # A change stream.

    def watch(self, collection: str, token: str, nodes: List[int]) -> None:
        """Asks the nodes one after another for the changes after a token, or after those that a stream of that name told."""
        at = ZERO if token == "start" else optime_of_token(token) if _TOKEN.match(token) else self.tokens.get(token, ZERO)
        refused = None
        for node in nodes:
            at, refused = self._watch(collection, at, node)
            if refused:
                break
        if _NAME.match(token) and token != "start":
            self.tokens[token] = at
        self._tell(f"watch refused {refused}" if refused else f"resume {token_of(at)}")

    def _watch(self, collection: str, at: Optime, node: int) -> Tuple[Optime, Optional[str]]:
        """Tells what one node has past a token. Gives the next token, and why the node refuses."""
        if node >= self._player.size().nodes:
            return at, "3 NoSuchNode"
        state = self._state(node)
        if state is None:
            return at, "2 NodeDown"
        commit = optime(state.commit)
        entries = [(optime(entry.split(" ", 1)[0]), entry) for entry in self._player.ask(f"log n{node}").more]
        if at != ZERO and at <= commit and at not in [place for place, _ in entries]:
            return at, "1 UnknownToken"
        for place, entry in entries:
            if at < place <= commit:
                at = place
                self._tell(*_change(collection, place, entry))
        return at, None

    # What a new member would begin with.

    def sync(self, node: int) -> None:
        """Tells what a new member that is made of a node would begin with."""
        self._tell(*self._sync(node))

    def _sync(self, node: int) -> List[str]:
        count = self._player.size().nodes
        if node >= count:
            return ["sync refused 1 NoSuchNode"]
        if count >= MOST_NODES:
            return ["sync refused 2 NoNumberLeft"]
        state = self._state(node)
        if state is None:
            return ["sync refused 3 NodeDown"]
        at = min((state.commit, state.applied), key=optime)
        if optime(at) == ZERO:
            return ["sync refused 4 NothingCommitted"]
        log, documents = self._player.ask(f"log n{node}").more, self._player.ask(f"dump n{node} majority").more
        entries = [entry for entry in log if optime(entry.split(" ", 1)[0]) <= optime(at)]
        head = f"synced n{count} to {at} entries {len(entries)} documents {len(documents)}"
        return [head, *("  " + document for document in documents)]

    # The status.

    def status(self) -> None:
        """Tells of each node what rs.status() would."""
        self._tell(*status_table(self._player))


def _change(collection: str, at: Optime, entry: str) -> List[str]:
    """The line of a stream for an entry, where it is of the collection."""
    _, kind, rest = entry.split(" ", 2)
    own, _, rest = rest.partition(" ")
    if kind == "n" or own != collection:
        return []
    if kind == "d":
        rest = dict(members(rest))["_id"]
    replaced = kind == "u" and not words_of(rest.split(" {", 1)[-1])[0].startswith("$v")
    return [f"change {token_of(at)} {'replace' if replaced else _CHANGES[kind]} {own} {rest}"]


def is_document(collection: str, key: str) -> bool:
    """Whether a collection and an ID can be read."""
    named = re.fullmatch(r"[A-Za-z][\w.]{0,63}", collection) is not None
    return named and read_place(f"read n0 local {collection} {key}") is not None
