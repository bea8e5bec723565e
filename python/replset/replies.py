"""Replies of a set. `str(reply)` is its text as a transcript has it, without the number of its line."""
from __future__ import annotations

from dataclasses import dataclass
from typing import Optional, Tuple, Union

from .bson import Json, notation
from .optimes import Optime

#: What a refusal says beyond its name.
Detail = Union[int, str, Optime]


@dataclass(frozen=True)
class Reply:
    """What a set replies to a command."""

    @property
    def refused(self) -> bool:
        """Whether the command was refused, so that nothing changed."""
        return False

    @property
    def unheard(self) -> bool:
        """Whether a delivery came to nothing: it was refused or ignored, or brought no vote."""
        return self.refused


@dataclass(frozen=True)
class Placed(Reply):
    """A reply that tells an optime."""

    optime: Optime

    _front = ""

    def __str__(self) -> str:
        return f"{self._front} {self.optime}"


class Written(Placed):
    """The write is done at this node, and its entry stands there in the log."""

    _front = "written"


class Begun(Placed):
    """The writer is open, and that optime is reserved."""

    _front = "begun"


class Committed(Placed):
    """The writer's entry was written at its reserved optime."""

    _front = "committed"


class Acked(Placed):
    """What was written there is as safe as the concern asked."""

    _front = "acked"


class Checkpointed(Placed):
    """The documents as of that optime are on disk."""

    _front = "checkpoint"


class Counted(Placed):
    """The report was counted, and the primary's commit point is now there."""

    _front = "counted commit"


class Up(Placed):
    """The node is back, a secondary, and its log ends there."""

    _front = "up last"


@dataclass(frozen=True)
class Plain(Reply):
    """A reply that tells nothing else."""

    _text = ""

    def __str__(self) -> str:
        return self._text


class Aborted(Plain):
    """The writer's optime stays empty for good."""

    _text = "aborted"


class Unmatched(Plain):
    """No document has that ID, and nothing was written."""

    _text = "matched 0"


class Unchanged(Plain):
    """The document is already what the write would make it."""

    _text = "unchanged"


class Missing(Plain):
    """At that level there is no such document."""

    _text = "missing"


class Secondary(Plain):
    """The node stepped down."""

    _text = "secondary"


class Heard(Plain):
    """The answer to a heartbeat was taken."""

    _text = "heard"


class Down(Plain):
    """The node is down."""

    _text = "down"


class Armed(Plain):
    """The disk will fail in that call."""

    _text = "armed"


@dataclass(frozen=True)
class Found(Reply):
    """The document, as the level shows it."""

    document: Json

    def __str__(self) -> str:
        return f"found {notation(self.document)}"


@dataclass(frozen=True)
class Stored:
    """A document of a collection; after `rolled` one that had been deleted has none, and its ID alone."""

    collection: str
    document: Optional[Json]
    id: Json

    def __str__(self) -> str:
        told = f"{notation(self.id)} gone" if self.document is None else notation(self.document)
        return f"{self.collection} {told}"


@dataclass(frozen=True)
class Listing(Reply):
    """A reply with more lines, one for each item."""

    @property
    def more(self) -> Tuple[str, ...]:
        """The lines below the reply, without the blanks before them."""
        return ()


@dataclass(frozen=True)
class Documents(Listing):
    """The documents of a node, in order of collection and key."""

    items: Tuple[Stored, ...]

    @property
    def more(self) -> Tuple[str, ...]:
        return tuple(map(str, self.items))

    def of(self, collection: str) -> Tuple[Json, ...]:
        """Those of one collection that are there."""
        return tuple(one.document for one in self.items if one.collection == collection and one.document is not None)

    def __str__(self) -> str:
        return f"documents {len(self.items)}"


@dataclass(frozen=True)
class Entry:
    """An entry of an oplog. Its kind is `i`, `u`, `d` or `n`; an update by ID has that, a no-op or a note no
    collection."""

    optime: Optime
    kind: str
    collection: Optional[str]
    id: Json
    document: Json

    def __str__(self) -> str:
        key = [notation(self.id)] if self.kind == "u" else []
        collection = [] if self.collection is None else [self.collection]
        return " ".join([str(self.optime), self.kind, *collection, *key, notation(self.document)])


@dataclass(frozen=True)
class Entries(Listing):
    """All written entries of a node's oplog."""

    items: Tuple[Entry, ...]

    @property
    def more(self) -> Tuple[str, ...]:
        return tuple(map(str, self.items))

    def __str__(self) -> str:
        return f"entries {len(self.items)}"


@dataclass(frozen=True)
class State(Reply):
    """Where a node stands. `vote` is the node that it voted for in its term; `config` is a term and a
    version."""

    role: str
    term: int
    vote: Optional[int]
    last: Optime
    durable: Optime
    applied: Optime
    commit: Optime
    config: Tuple[int, int]
    rollback: int

    def __str__(self) -> str:
        vote = "none" if self.vote is None else f"n{self.vote}"
        return (
            f"state {self.role} term {self.term} vote {vote} last {self.last} durable {self.durable} applied {self.applied}"
            f" commit {self.commit} config {self.config[0]}/{self.config[1]} rollback {self.rollback}"
        )


@dataclass(frozen=True)
class Candidate(Reply):
    """The node is a candidate of a term, and sent so many requests for a vote, from that message on."""

    term: int
    message: int
    count: int

    def __str__(self) -> str:
        return f"candidate {self.term} sent m{self.message} {self.count}"


@dataclass(frozen=True)
class DryRun(Reply):
    """So many dry requests were sent, from that message on."""

    term: int
    message: int
    count: int

    def __str__(self) -> str:
        return f"dryrun {self.term} sent m{self.message} {self.count}"


@dataclass(frozen=True)
class Won(Reply):
    """A majority voted for the node, which is draining until `drain`."""

    term: int

    def __str__(self) -> str:
        return f"won {self.term}"


@dataclass(frozen=True)
class Primary(Reply):
    """The node is primary of that term, and wrote its no-op at that optime."""

    term: int
    optime: Optime

    def __str__(self) -> str:
        return f"primary {self.term} noop {self.optime}"


@dataclass(frozen=True)
class Sent(Reply):
    """A message was sent. Where the node chose to whom, that is told."""

    message: int
    node: Optional[int] = None

    def __str__(self) -> str:
        return f"sent m{self.message}" + ("" if self.node is None else f" to n{self.node}")


@dataclass(frozen=True)
class Replied(Reply):
    """The receiver answered with that message."""

    message: int

    def __str__(self) -> str:
        return f"replied m{self.message}"


@dataclass(frozen=True)
class Votes(Reply):
    """The node has so many votes, and needs so many."""

    count: int
    needed: int

    def __str__(self) -> str:
        return f"votes {self.count} of {self.needed}"


@dataclass(frozen=True)
class DryVotes(Reply):
    """So many voters would vote for the node, and it needs so many."""

    count: int
    needed: int

    def __str__(self) -> str:
        return f"dry votes {self.count} of {self.needed}"


@dataclass(frozen=True)
class VoteRefused(Reply):
    """The voter withheld its vote."""

    reason: str

    @property
    def unheard(self) -> bool:
        return True

    def __str__(self) -> str:
        return f"vote refused {self.reason}"


@dataclass(frozen=True)
class Ignored(Reply):
    """The message wasn't taken."""

    reason: str

    @property
    def unheard(self) -> bool:
        return True

    def __str__(self) -> str:
        return f"ignored {self.reason}"


@dataclass(frozen=True)
class Took(Reply):
    """So many entries were appended to the log, which now ends there."""

    count: int
    last: Optime

    def __str__(self) -> str:
        return f"took {self.count} last {self.last}"


@dataclass(frozen=True)
class RolledBack(Reply):
    """So many entries after that optime were removed from the log."""

    optime: Optime
    removed: int

    def __str__(self) -> str:
        return f"rolled back to {self.optime} removed {self.removed}"


@dataclass(frozen=True)
class Applied(Reply):
    """So many entries were applied, up to that optime."""

    count: int
    optime: Optime

    def __str__(self) -> str:
        return f"applied {self.count} to {self.optime}"


@dataclass(frozen=True)
class Flushed(Reply):
    """So many entries went into the journal, and the log is on disk up to that optime."""

    count: int
    optime: Optime

    def __str__(self) -> str:
        return f"flushed {self.count} to {self.optime}"


@dataclass(frozen=True)
class Configured(Reply):
    """The configuration is now that of this term and version."""

    term: int
    version: int

    def __str__(self) -> str:
        return f"config {self.term}/{self.version}"


@dataclass(frozen=True)
class Clock(Reply):
    """The node's clock now stands there."""

    seconds: int

    def __str__(self) -> str:
        return f"clock {self.seconds}"


@dataclass(frozen=True)
class Refused(Reply):
    """The command was refused: the number and name of the refusal, and what it says beyond them."""

    number: int
    name: str
    details: Tuple[Detail, ...] = ()

    @property
    def refused(self) -> bool:
        return True

    def __str__(self) -> str:
        return " ".join(["refused", str(self.number), self.name, *map(str, self.details)])
