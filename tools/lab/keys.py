"""Which document a line of a script is about: its collection and its `_id`, in one form for all spellings of it."""
from __future__ import annotations

import json
import re
from typing import Optional, Tuple

from .notation import NotationFault, members, read_value
from .script import WRITES, words_of

#: A collection and the key of a document in it.
Place = Tuple[str, str]

#: How many words stand in front of a write's kind, where another command has the write.
_FRONT = {"begin": 3, "retry": 4}


def key_of(value: str) -> str:
    """The key of an `_id` as it is spelled: 5 and 5L are one, and so are two spellings of a string or of bytes."""
    if value[:1] in "-0123456789":
        return str(int(value.rstrip("L")))
    if value.startswith('"'):
        return json.dumps(json.loads(value, strict=False))
    spelled = value.replace(" ", "").lower()
    number = re.match(r"(bin|date)\((-?[0-9]+)(.*)", spelled)
    return f"{number[1]}({int(number[2])}{number[3]}" if number else spelled


def write_words(line: str) -> Optional[Tuple[str, str, str]]:
    """The kind of a write, its collection, and what stands after that; nothing where a line has no write."""
    words = words_of(line)
    front = _FRONT.get(words[0], 0)
    if len(words) <= front or words[front] not in WRITES:
        return None
    at = front + 1 if front else 2
    parts = line.rstrip("\r").split(" ", at + 1)
    return (words[front], parts[at], parts[at + 1]) if len(parts) == at + 2 else None


def written_place(line: str) -> Optional[Place]:
    """The document that a line writes; nothing where it writes none, as a note."""
    found = write_words(line)
    if found is None:
        return None
    kind, collection, rest = found
    try:
        value = dict(members(rest)).get("_id") if kind == "insert" else rest[: read_value(rest, 0)]
    except NotationFault:
        return None
    return (collection, key_of(value)) if value else None


def read_place(line: str) -> Optional[Place]:
    """The document that a `read` asks for."""
    words = line.rstrip("\r").split(" ", 4)
    return (words[3], key_of(words[4])) if words[0] == "read" and len(words) == 5 else None
