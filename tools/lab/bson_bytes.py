"""Reads documents of BSON: the kinds that scripts have."""
from __future__ import annotations

import struct
from typing import Any, Dict, Iterator, List, Tuple

from .errors import SCRIPT, LabError
from .foreign import double, none_of
from .values import Binary, Date, Int, ObjectId, Timestamp, Value

_OTHERS = {
    0x06: "undefined", 0x0B: "a regular expression", 0x0C: "a pointer", 0x0D: "code", 0x0E: "a symbol", 0x0F: "code",
    0x13: "a decimal", 0x7F: "a max key", 0xFF: "a min key",
}


class _Fault(Exception):
    """Bytes that are no document, or a value that no script has."""


def read_documents(content: bytes, name: str) -> Iterator[Dict[str, Any]]:
    """The documents that stand one after another in a file, as `mongodump` writes them."""
    place, number = 0, 0
    while place < len(content):
        number += 1
        try:
            found, place = _document(content, place, ())
        except (_Fault, struct.error, IndexError, UnicodeDecodeError) as fault:
            why = str(fault) if isinstance(fault, _Fault) else "it is cut off, or no BSON"
            raise LabError(SCRIPT, f"{name}, document {number}, which begins at byte {place}: {why}") from None
        yield found


def _document(content: bytes, place: int, path: Tuple[str, ...]) -> Tuple[Dict[str, Any], int]:
    """The document at a place, and the place after it."""
    (size,) = struct.unpack_from("<i", content, place)
    end = place + size
    if size < 5 or end > len(content) or content[end - 1]:
        raise _Fault("its length is none")
    found: Dict[str, Any] = {}
    at = place + 4
    while at < end - 1:
        kind, zero = content[at], content.index(b"\0", at + 1, end)
        name = content[at + 1 : zero].decode()
        found[name], at = _value(kind, content, zero + 1, (*path, name))
    return found, end


def _value(kind: int, content: bytes, at: int, path: Tuple[str, ...]) -> Tuple[Value, int]:
    if kind == 0x02:
        (size,) = struct.unpack_from("<i", content, at)
        return content[at + 4 : at + 3 + size].decode(), at + 4 + size
    if kind in (0x03, 0x04):
        inner, end = _document(content, at, path)
        items: List[Any] = list(inner.values())
        return (inner if kind == 0x03 else items), end
    if kind == 0x05:
        return _binary(content, at)
    if kind == 0x07:
        return ObjectId(content[at : at + 12].hex()), at + 12
    if kind == 0x08:
        return bool(content[at]), at + 1
    if kind == 0x0A:
        return None, at
    return _number(kind, content, at, path)


def _number(kind: int, content: bytes, at: int, path: Tuple[str, ...]) -> Tuple[Value, int]:
    if kind == 0x10:
        return Int(struct.unpack_from("<i", content, at)[0], False), at + 4
    if kind == 0x12:
        return Int(struct.unpack_from("<q", content, at)[0], True), at + 8
    if kind == 0x09:
        return Date(struct.unpack_from("<q", content, at)[0]), at + 8
    if kind == 0x11:
        increment, seconds = struct.unpack_from("<II", content, at)
        return Timestamp(seconds, increment), at + 8
    where = f"in the field {'.'.join(path)} "
    if kind == 0x01:
        raise _Fault(where + "stands a double; " + double(repr(struct.unpack_from("<d", content, at)[0])))
    raise _Fault(where + none_of(_OTHERS.get(kind, f"a value of the unknown kind {kind}")))


def _binary(content: bytes, at: int) -> Tuple[Value, int]:
    size, subtype = struct.unpack_from("<iB", content, at)
    held = content[at + 5 : at + 5 + size]
    # A binary of subtype 2 has its length once more inside.
    if subtype == 2 and len(held) >= 4 and struct.unpack_from("<i", held)[0] == len(held) - 4:
        held = held[4:]
    return Binary(subtype, held), at + 5 + size
