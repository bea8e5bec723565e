"""What may be done next in a run, as lines for its script."""
from __future__ import annotations

import re
from dataclasses import dataclass
from typing import Iterator, List, Sequence, Set

from .layout import MESSAGE_NAMES
from .mail import Mail, Message
from .observe import observe
from .player import Player
from .state import State

#: So many of the messages on the way are offered, the newest ones.
MOST_MESSAGES = 8

#: A message that nobody is to deliver is named in such a comment.
LOST = "# lost: deliver m"

_ID = re.compile(r"\{\s*_id\s*:\s*([0-9]+)")
_COLLECTION = re.compile(r"^(?:insert|replace|update|delete) n[0-9]+ ([A-Za-z][A-Za-z0-9_.]*) ")


@dataclass(frozen=True)
class Choice:
    """A line that may come next: what it is about (`messages`, a node, or `set`), and what is said of it."""

    about: str
    line: str
    told: str


def choices(lines: Sequence[str]) -> List[Choice]:
    """What may be done after these lines of a plain script: messages first, then node by node, then the set."""
    player = Player(list(lines))
    states = player.states()
    mail = observe(lines, len(lines) + 1).mail
    found = list(_messages(mail, lines))
    led = any(state.role == "Primary" for state in states.values())
    for node, state in states.items():
        found += [Choice(f"n{node}", line, told) for line, told in _of_node(node, state, lines, led)]
    return [*found, *_of_set(len(states), lines)]


def _messages(mail: Mail, lines: Sequence[str]) -> Iterator[Choice]:
    """The messages that nobody got yet, and for each a line that gives it up."""
    lost = {line[len(LOST) :] for line in lines if line.startswith(LOST)}
    waiting = [one for one in mail.messages if one.number not in mail.delivered and str(one.number) not in lost]
    newest = {(one.sender, one.receiver): one.number for one in mail.messages}
    for message in waiting[-MOST_MESSAGES:]:
        name = f"{_named(message)} n{message.sender} → n{message.receiver}"
        newer = newest[message.sender, message.receiver] != message.number
        line = f"deliver m{message.number}" if newer else f"deliver n{message.sender} n{message.receiver}"
        yield Choice("messages", line, f"deliver m{message.number}, {name}")
        yield Choice("messages", f"{LOST}{message.number}", f"lose m{message.number}")


def _named(message: Message) -> str:
    question, answer = MESSAGE_NAMES.get(message.kind, (message.kind, message.kind))
    return question if message.answers is None else answer


def _of_node(node: int, state: State, lines: Sequence[str], led: bool) -> Iterator["tuple[str, str]"]:
    """The lines that fit a node's state."""
    name = f"n{node}"
    if state.down:
        yield f"restart {name}", "restart"
        return
    if state.role == "Primary":
        yield _insert(name, lines), "insert"
        yield f"await {name} last", "await a majority"
        yield f"spread {name}", "spread to all"
        yield f"stepdown {name}", "step down"
    elif state.role == "Draining":
        yield f"drain {name}", "drain"
    else:
        yield f"campaign {name}", "campaign"
        yield f"elect {name}", "elect"
        if led:
            yield f"pull {name}", "pull from the primary"
            yield f"fetch {name}", "fetch"
    if state.durable != state.last:
        yield f"flush {name}", "flush"
    if state.applied != state.last:
        yield f"apply {name}", "apply"
    yield f"dump {name} local", "show documents"
    yield f"crash {name}", "crash"


def _insert(name: str, lines: Sequence[str]) -> str:
    """An insert of a document whose `_id` no other has, into the collection that was written last."""
    used: Set[int] = {int(found[1]) for line in lines for found in _ID.finditer(line)}
    collection = "orders"
    for line in lines:
        named = _COLLECTION.match(line)
        collection = named[1] if named else collection
    return f"insert {name} {collection} {{_id: {max(used, default=0) + 1}}}"


def _of_set(nodes: int, lines: Sequence[str]) -> Iterator[Choice]:
    """What is done to all nodes."""
    parted = [line for line in lines if line.startswith("# partition ") or line == "# heal"]
    if parted and parted[-1] != "# heal":
        yield Choice("set", "heal", "end the partition")
    elif nodes > 1:
        yield Choice("set", "partition n0", "part n0 from the others")
    yield Choice("set", "status", "status")
