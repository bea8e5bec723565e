"""Each command of a script as a method with Python's values."""
from __future__ import annotations

import json
from abc import ABC, abstractmethod
from typing import Any, Mapping, Optional, Union

from . import writes
from .bson import Document, Json, notation
from .optimes import Optime
from .replies import Reply
from .writes import Write

#: How safe a write is to be: so many members, or `majority`.
Concern = Union[int, str]


class Commands(ABC):
    """The commands. Nodes, writers and messages are named by their numbers."""

    @abstractmethod
    def reply_to(self, line: str) -> Reply:
        """Does one command."""

    # Writes.

    def insert(self, node: int, collection: str, document: Document) -> Reply:
        """Stores a document at the primary."""
        return self.reply_to(writes.insert(collection, document).at(node))

    def replace(self, node: int, collection: str, key: Json, document: Document) -> Reply:
        """Replaces the document with that ID."""
        return self.reply_to(writes.replace(collection, key, document).at(node))

    def update(self, node: int, collection: str, key: Json, operators: Document) -> Reply:
        """Changes fields of the document with that ID, by `$set`, `$unset` and `$inc`."""
        return self.reply_to(writes.update(collection, key, operators).at(node))

    def delete(self, node: int, collection: str, key: Json) -> Reply:
        """Removes the document with that ID."""
        return self.reply_to(writes.delete(collection, key).at(node))

    def retry(self, node: int, session: int, number: int, write: Write) -> Reply:
        """Does a session's write of that number, which may be asked for again."""
        return self.reply_to(f"retry n{node} {session} {number} {write.text}")

    def note(self, node: int) -> Reply:
        """Writes an entry that touches no document."""
        return self.reply_to(f"note n{node}")

    def begin(self, node: int, writer: int, write: Write) -> Reply:
        """Reserves the next optime for a writer, and holds the document."""
        return self.reply_to(f"begin n{node} w{writer} {write.text}")

    def commit(self, node: int, writer: int) -> Reply:
        """Writes the entry of an open writer."""
        return self.reply_to(f"commit n{node} w{writer}")

    def abort(self, node: int, writer: int) -> Reply:
        """Gives up the write of an open writer."""
        return self.reply_to(f"abort n{node} w{writer}")

    def ack(self, node: int, written: Union[Optime, Reply, int], concern: Concern = "majority") -> Reply:
        """Asks whether what was written there, at an optime, by a reply or by a writer's number, is as safe
        as the concern says."""
        place = getattr(written, "optime", written) if isinstance(written, Reply) else written
        if isinstance(place, Reply):
            raise TypeError(f"'{place}' tells no optime")
        named = str(place) if isinstance(place, Optime) else f"w{place}"
        return self.reply_to(f"ack n{node} {named} {concern}")

    # Reads.

    def read(self, node: int, collection: str, key: Json, level: str = "local") -> Reply:
        """Gives the document with that ID, at `local` or `majority`."""
        return self.reply_to(f"read n{node} {level} {collection} {notation(key)}")

    def dump(self, node: int, level: str = "local") -> Reply:
        """Gives all documents at that level."""
        return self.reply_to(f"dump n{node} {level}")

    def log(self, node: int) -> Reply:
        """Gives all written entries of the node's oplog."""
        return self.reply_to(f"log n{node}")

    def state(self, node: int) -> Reply:
        """Tells where the node stands."""
        return self.reply_to(f"state n{node}")

    def rolled(self, node: int) -> Reply:
        """Gives the documents that the node's last rollback touched, as they stood before it."""
        return self.reply_to(f"rolled n{node}")

    # Elections.

    def campaign(self, node: int) -> Reply:
        """The node takes the next term, and asks for votes."""
        return self.reply_to(f"campaign n{node}")

    def dryrun(self, node: int) -> Reply:
        """The node asks who would vote for it."""
        return self.reply_to(f"dryrun n{node}")

    def drain(self, node: int) -> Reply:
        """Makes a winner primary."""
        return self.reply_to(f"drain n{node}")

    def stepdown(self, node: int) -> Reply:
        """Makes the node a secondary."""
        return self.reply_to(f"stepdown n{node}")

    # Messages.

    def heartbeat(self, node: int, to: int) -> Reply:
        """Sends where the node stands."""
        return self.reply_to(f"heartbeat n{node} n{to}")

    def report(self, node: int, to: int) -> Reply:
        """Sends how far the node is durable."""
        return self.reply_to(f"report n{node} n{to}")

    def common(self, node: int, to: int) -> Reply:
        """Asks which entries both nodes have."""
        return self.reply_to(f"common n{node} n{to}")

    def fetch(self, node: int) -> Reply:
        """Asks for the entries after the node's last one."""
        return self.reply_to(f"fetch n{node}")

    def deliver(self, message: int, to: Optional[int] = None) -> Reply:
        """Hands a message to its receiver, by its number; with two nodes, the newest from the first to the
        second."""
        return self.reply_to(f"deliver m{message}" if to is None else f"deliver n{message} n{to}")

    # Disks.

    def apply(self, node: int, workers: Optional[int] = None) -> Reply:
        """Applies the next batch of entries to the node's documents."""
        return self.reply_to(f"apply n{node}" if workers is None else f"apply n{node} {workers}")

    def flush(self, node: int) -> Reply:
        """Stores the next entries in the node's journal."""
        return self.reply_to(f"flush n{node}")

    def checkpoint(self, node: int) -> Reply:
        """Stores the node's documents as of its commit point."""
        return self.reply_to(f"checkpoint n{node}")

    def crash(self, node: int, pick: Optional[int] = None) -> Reply:
        """The power fails at the node."""
        return self.reply_to(f"crash n{node}" if pick is None else f"crash n{node} {pick}")

    def restart(self, node: int) -> Reply:
        """The node comes back with what its disks have."""
        return self.reply_to(f"restart n{node}")

    # Others.

    def reconfig(self, node: int, config: Union[Mapping[str, Any], str]) -> Reply:
        """The primary takes a new configuration, as `rs.conf()` has it."""
        text = config if isinstance(config, str) else json.dumps(config, separators=(",", ":"))
        return self.reply_to(f"reconfig n{node} {text}")

    def clock(self, node: int, seconds: int) -> Reply:
        """Sets the node's clock."""
        return self.reply_to(f"clock n{node} {seconds}")

