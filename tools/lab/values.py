"""Values of a document, and how they are printed: in a script's notation, in MongoDB's Extended JSON, and as mongosh has them."""
from __future__ import annotations

import base64
import json
import re
from dataclasses import dataclass
from datetime import datetime, timedelta
from typing import Any, Callable, Dict, List, Union


@dataclass(frozen=True)
class Int:
    """An integer of 32 bits, or of 64."""

    number: int
    wide: bool


@dataclass(frozen=True)
class Date:
    """Milliseconds since 1970."""

    milliseconds: int


@dataclass(frozen=True)
class Binary:
    """Bytes of a subtype."""

    subtype: int
    content: bytes


@dataclass(frozen=True)
class ObjectId:
    """Twelve bytes, in hexadecimal digits."""

    digits: str


@dataclass(frozen=True)
class Timestamp:
    """Seconds and an increment."""

    seconds: int
    increment: int


#: A document is its members in order; None is null.
Document = Dict[str, "Value"]
Value = Union[Int, Date, Binary, ObjectId, Timestamp, str, bool, None, List[Any], Dict[str, Any]]

_BARE = re.compile(r"[A-Za-z_$][A-Za-z_$0-9]*")
_ESCAPED = re.compile(r'["\\\x00-\x1f\x7f]')
_SHORT = {'"': '\\"', "\\": "\\\\", "\n": "\\n", "\r": "\\r", "\t": "\\t"}

#: ISO dates have years of four digits.
FIRST, LAST = -62135596800000, 253402300799999


def quoted(text: str) -> str:
    """A string as a script has it."""
    return '"' + _ESCAPED.sub(lambda found: _SHORT.get(found[0]) or f"\\u{ord(found[0]):04x}", text) + '"'


def fits(number: int, bits: int) -> bool:
    """Whether an integer has no more bits."""
    bound: int = 2 ** (bits - 1)
    return -bound <= number < bound


def iso(milliseconds: int) -> str:
    """A moment as ISO 8601 writes it, in UTC."""
    moment = datetime(1970, 1, 1) + timedelta(milliseconds=milliseconds)
    return moment.strftime("%Y").zfill(4) + moment.strftime("-%m-%dT%H:%M:%S") + f".{milliseconds % 1000:03d}Z"


def milliseconds_of(text: str) -> int:
    """The milliseconds of a moment in ISO 8601, with a time and a zone or without; a ValueError where it is none."""
    found = re.fullmatch(
        r"(\d{4})-(\d\d)-(\d\d)(?:[T ](\d\d):(\d\d)(?::(\d\d)(?:\.(\d{1,9}))?)?)?\s*(Z|[-+]\d\d:?\d\d)?", text
    )
    if not found:
        raise ValueError(text)
    year, month, day, hour, minute, second = (int(part or 0) for part in found.groups()[:6])
    moment = datetime(year, month, day, hour, minute, second) - datetime(1970, 1, 1)
    thousandths = int((found[7] or "0").ljust(3, "0")[:3])
    zone = found[8] or "Z"
    shift = 0 if zone == "Z" else int(zone[0] + "1") * (int(zone[1:3]) * 60 + int(zone[-2:]))
    return (moment.days * 86400 + moment.seconds - shift * 60) * 1000 + thousandths


# The notations.

def own(value: Value) -> str:
    """A value as a script has it."""
    return _printed(value, _own_scalar, lambda name: name if _BARE.fullmatch(name) else quoted(name))


def _own_scalar(value: Value) -> str:
    if isinstance(value, Int):
        return f"{value.number}L" if value.wide else str(value.number)
    if isinstance(value, Date):
        return f"Date({value.milliseconds})"
    if isinstance(value, Binary):
        return f'Bin({value.subtype}, "{value.content.hex()}")'
    if isinstance(value, ObjectId):
        return f'Id("{value.digits}")'
    if isinstance(value, Timestamp):
        return f"Time({value.seconds}, {value.increment})"
    return quoted(value) if isinstance(value, str) else json.dumps(value)


def mongosh(value: Value) -> str:
    """A value as it may be typed in mongosh."""
    return _printed(value, _mongosh_scalar, lambda name: name if _BARE.fullmatch(name) else json.dumps(name, ensure_ascii=False))


def _mongosh_scalar(value: Value) -> str:
    if isinstance(value, Int):
        return f'NumberLong("{value.number}")' if value.wide else str(value.number)
    if isinstance(value, Date):
        inside = FIRST <= value.milliseconds <= LAST
        return f'ISODate("{iso(value.milliseconds)}")' if inside else f"new Date({value.milliseconds})"
    if isinstance(value, Binary):
        return f'BinData({value.subtype}, "{base64.b64encode(value.content).decode()}")'
    if isinstance(value, ObjectId):
        return f'ObjectId("{value.digits}")'
    if isinstance(value, Timestamp):
        return f"Timestamp({value.seconds}, {value.increment})"
    return json.dumps(value, ensure_ascii=False)


def canonical(value: Value) -> str:
    """A value in canonical Extended JSON, which keeps every kind."""
    return _printed(value, _canonical_scalar, json.dumps)


def _canonical_scalar(value: Value) -> str:
    if isinstance(value, Int):
        return json.dumps({"$numberLong" if value.wide else "$numberInt": str(value.number)})
    if isinstance(value, Date):
        return json.dumps({"$date": {"$numberLong": str(value.milliseconds)}})
    if isinstance(value, Binary):
        content = base64.b64encode(value.content).decode()
        return json.dumps({"$binary": {"base64": content, "subType": f"{value.subtype:02x}"}})
    if isinstance(value, ObjectId):
        return json.dumps({"$oid": value.digits})
    if isinstance(value, Timestamp):
        return json.dumps({"$timestamp": {"t": value.seconds, "i": value.increment}})
    return json.dumps(value)


def relaxed(value: Value) -> str:
    """A value in relaxed Extended JSON, in which integers of 32 and 64 bits are the same."""
    return _printed(value, _relaxed_scalar, json.dumps)


def _relaxed_scalar(value: Value) -> str:
    if isinstance(value, Int):
        return str(value.number)
    if isinstance(value, Date) and 0 <= value.milliseconds <= LAST:
        return json.dumps({"$date": iso(value.milliseconds)})
    return _canonical_scalar(value)


def _printed(value: Value, scalar: Callable[[Value], str], name_of: Callable[[str], str]) -> str:
    if isinstance(value, dict):
        inside = ", ".join(f"{name_of(name)}: {_printed(one, scalar, name_of)}" for name, one in value.items())
        return "{" + inside + "}"
    if isinstance(value, list):
        return "[" + ", ".join(_printed(one, scalar, name_of) for one in value) + "]"
    return scalar(value)


NOTATIONS: Dict[str, Callable[[Value], str]] = {"own": own, "mongosh": mongosh, "canonical": canonical, "relaxed": relaxed}
