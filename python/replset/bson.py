"""Values of documents as Python has them.

A document is a `dict`. `str`, `bool`, `None`, `list`, `bytes` and `datetime` are what they are called. An
`int` is an int32 where it fits, and else an int64; `Int64` is one whatever its size. `Binary`, `ObjectId` and
`Timestamp` are the other kinds, and `Date` is a date beyond the years of `datetime`. There are no doubles.
"""
from __future__ import annotations

from collections import abc
from datetime import datetime, timedelta, timezone
from typing import Any, Mapping, Union
from uuid import UUID

from .lab.foreign import ForeignFault, double, read_own, read_whole
from .lab.values import FIRST, LAST, NOTATIONS, Binary, Date, Int, ObjectId, Timestamp, Value, fits, own

__all__ = ["Binary", "Date", "Int64", "Json", "ObjectId", "Timestamp", "dumps", "loads", "notation", "parse"]

#: What a document may hold.
Json = Any

#: A document, or its text in Extended JSON or as mongosh has it.
Document = Union[Mapping[str, Json], str]

_EPOCH = datetime(1970, 1, 1, tzinfo=timezone.utc)
_MILLISECOND = timedelta(milliseconds=1)

#: A number with more bits than these is none of a document's.
MOST_BITS = 64

_Own = (Binary, Date, ObjectId, Timestamp)


class Int64(int):
    """An integer of 64 bits, be it small: `5L` of a script."""

    def __repr__(self) -> str:
        return f"Int64({int(self)})"


def value_of(given: Json) -> Value:
    """A value of a document, from what Python has; a TypeError or ValueError says what can't be one."""
    if given is None or isinstance(given, (str, bool)):
        return given
    if isinstance(given, int):
        return _integer(given)
    if isinstance(given, (dict, abc.Mapping)):
        return {_name(name): value_of(one) for name, one in given.items()}
    if isinstance(given, (list, tuple)):
        return [value_of(one) for one in given]
    return _scalar(given)


def _scalar(given: Json) -> Value:
    if isinstance(given, (bytes, bytearray)):
        return Binary(0, bytes(given))
    if isinstance(given, datetime):
        moment = given if given.tzinfo is not None else given.replace(tzinfo=timezone.utc)
        return Date((moment - _EPOCH) // _MILLISECOND)
    if isinstance(given, UUID):
        return Binary(4, given.bytes)
    if isinstance(given, _Own):
        return given
    if isinstance(given, float):
        raise TypeError(double(repr(given)))
    raise TypeError(f"a document can't hold a {type(given).__name__}")


def _integer(given: int) -> Int:
    if not fits(given, MOST_BITS):
        raise ValueError(f"{given} has more than {MOST_BITS} bits")
    return Int(int(given), isinstance(given, Int64) or not fits(given, 32))


def _name(name: object) -> str:
    if not isinstance(name, str) or "\0" in name:
        raise TypeError(f"a name is a string without the character 0, and {name!r} is none")
    return name


def python_of(value: Value) -> Json:
    """What Python has for a value. Its kind isn't lost: given back it is the same value."""
    if isinstance(value, Int):
        return Int64(value.number) if value.wide else value.number
    if isinstance(value, dict):
        return {name: python_of(one) for name, one in value.items()}
    if isinstance(value, list):
        return [python_of(one) for one in value]
    if isinstance(value, Date) and FIRST <= value.milliseconds <= LAST:
        return _EPOCH + value.milliseconds * _MILLISECOND
    if isinstance(value, Binary) and value.subtype == 0:
        return value.content
    return value


def notation(given: Json) -> str:
    """A value as a script has it."""
    return own(value_of(given))


def document_notation(given: Document) -> str:
    """A document as a script has it."""
    read = loads(given) if isinstance(given, str) else given
    if not isinstance(read, (dict, abc.Mapping)):
        raise TypeError(f"a document is a mapping, and {read!r} is none")
    return notation(read)


def parse(text: str) -> Json:
    """The value that a script's notation, or a reply, tells."""
    return python_of(read_own(text))


def loads(text: str) -> Json:
    """The value that a text is in Extended JSON, relaxed or canonical, or as mongosh has it; a ValueError
    says where it is none."""
    try:
        return python_of(read_whole(text))
    except ForeignFault as fault:
        raise ValueError(f"column {fault.place + 1}: {fault.told}") from None


def dumps(given: Json, kind: str = "relaxed") -> str:
    """A value in a notation: `relaxed` or `canonical` Extended JSON, `mongosh`, or a script's `own`."""
    if kind not in NOTATIONS:
        raise ValueError(f"the notations are {', '.join(NOTATIONS)}, and {kind!r} is none")
    return NOTATIONS[kind](value_of(given))
