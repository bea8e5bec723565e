"""Writes without their node, for `retry` and `begin`."""
from __future__ import annotations

from dataclasses import dataclass

from .bson import Document, Json, document_notation, notation


@dataclass(frozen=True)
class Write:
    """What a client asks of a primary, as a script has it."""

    text: str

    def at(self, node: int) -> str:
        """The line that asks it of a node."""
        word, rest = self.text.split(" ", 1)
        return f"{word} n{node} {rest}"


def insert(collection: str, document: Document) -> Write:
    """Stores a document."""
    return Write(f"insert {collection} {document_notation(document)}")


def replace(collection: str, key: Json, document: Document) -> Write:
    """Replaces the document with that ID."""
    return Write(f"replace {collection} {notation(key)} {document_notation(document)}")


def update(collection: str, key: Json, operators: Document) -> Write:
    """Changes fields of the document with that ID, by `$set`, `$unset` and `$inc`."""
    return Write(f"update {collection} {notation(key)} {document_notation(operators)}")


def delete(collection: str, key: Json) -> Write:
    """Removes the document with that ID."""
    return Write(f"delete {collection} {notation(key)}")
