"""Reads documents as mongosh has them, and MongoDB's Extended JSON, relaxed or canonical; also a script's own forms.

What no script has (doubles, decimals, regular expressions, ..) is refused by its place, with what could be written instead.
"""
from __future__ import annotations

import base64
import binascii
import json
import re
from typing import Any, Callable, Dict, List, Tuple

from .values import Binary, Date, Int, ObjectId, Timestamp, Value, fits, milliseconds_of

MOST_LEVELS = 100

_NUMBER = re.compile(r"[-+]?(?:0[xX][0-9a-fA-F]+|(?:[0-9]+\.?[0-9]*|\.[0-9]+)(?:[eE][-+]?[0-9]+)?)")
_WORD = re.compile(r"(?:new\s+)?[A-Za-z_$][\w$.]*")
_CONSTANTS = {"true": True, "false": False, "null": None}
#: What a wrapper of Extended JSON holds beside its first name.
_WRAPPERS = ("$oid", "$date", "$numberInt", "$numberLong", "$binary", "$timestamp", "$uuid", "$type")
#: Kinds that no script has.
_NONE = {
    **dict.fromkeys(("$numberDouble", "Double", "NaN", "Infinity"), "a double"),
    **dict.fromkeys(("$numberDecimal", "NumberDecimal", "Decimal128"), "a decimal"),
    **dict.fromkeys(("$regularExpression", "$regex", "RegExp"), "a regular expression"),
    **dict.fromkeys(("$undefined", "undefined"), "undefined"),
    **dict.fromkeys(("$code", "Code"), "code"), **dict.fromkeys(("$minKey", "MinKey"), "a min key"),
    **dict.fromkeys(("$maxKey", "MaxKey"), "a max key"), "$symbol": "a symbol", "$dbPointer": "a pointer",
}


class ForeignFault(Exception):
    """A text that is no document in any of these notations: the place, counted from 0, and why."""

    def __init__(self, place: int, told: str):
        super().__init__(told)
        self.place = place
        self.told = told


def read_foreign(text: str, place: int = 0) -> Tuple[Value, int]:
    """The value that begins at a place, and the place after it."""
    reader = _Reader(text, place)
    return reader.value(1), reader.place


def read_whole(text: str) -> Value:
    """The value that a text is."""
    reader = _Reader(text, 0)
    value = reader.value(1)
    reader.skip()
    if reader.place < len(text):
        raise ForeignFault(reader.place, "something stands here after the value")
    return value


class _Reader:
    """Goes over a text."""

    def __init__(self, text: str, place: int):
        self.text, self.place = text, place

    def skip(self) -> None:
        """Passes over blanks."""
        while self.text[self.place : self.place + 1].isspace():
            self.place += 1

    def value(self, level: int) -> Value:
        """The value that comes next."""
        self.skip()
        begins, first = self.place, self.text[self.place : self.place + 1]
        if level > MOST_LEVELS:
            raise ForeignFault(begins, "level 101 begins here")
        if first == "{":
            return self._wrapped(self._members(level), begins)
        if first == "[":
            return self._items("]", level)
        if first in ("'", '"', "`"):
            return self._string()
        if first == "/":
            raise ForeignFault(begins, "there are no regular expressions")
        if _NUMBER.match(self.text, begins):
            return self._number()
        return self._named(level)

    # What brackets hold.

    def _take(self, sign: str) -> bool:
        self.skip()
        if self.text.startswith(sign, self.place):
            self.place += len(sign)
            return True
        return False

    def _need(self, sign: str) -> None:
        if not self._take(sign):
            what = "the text ends too soon: " if self.place >= len(self.text) else ""
            raise ForeignFault(self.place, f"{what}'{sign}' must stand here")

    def _items(self, close: str, level: int) -> List[Value]:
        self.place += 1
        found: List[Value] = []
        while not self._take(close):
            found.append(self.value(level + 1))
            if not self._take(","):
                self._need(close)
                break
        return found

    def _members(self, level: int) -> Dict[str, Any]:
        self.place += 1
        found: Dict[str, Any] = {}
        while not self._take("}"):
            self.skip()
            begins, name = self.place, self._name()
            if name in found:
                raise ForeignFault(begins, f"the name '{name}' stands twice")
            if "\0" in name:
                raise ForeignFault(begins, "a name can't have the character 0")
            self._need(":")
            found[name] = self.value(level + 1)
            if not self._take(","):
                self._need("}")
                break
        return found

    def _name(self) -> str:
        if self.text[self.place : self.place + 1] in ("'", '"'):
            return self._string()
        found = re.compile(r"[A-Za-z_$][\w$]*|[0-9]+").match(self.text, self.place)
        if not found:
            raise ForeignFault(self.place, "a name must stand here")
        self.place = found.end()
        return found[0]

    # Single values.

    def _string(self) -> str:
        begins, quote = self.place, self.text[self.place]
        end = begins + 1
        while end < len(self.text) and self.text[end] != quote:
            end += 2 if self.text[end] == "\\" else 1
        if end >= len(self.text):
            raise ForeignFault(begins, "this string isn't closed")
        self.place = end + 1
        return unescaped(self.text[begins + 1 : end], begins + 1)

    def _number(self) -> Value:
        begins = self.place
        found = _NUMBER.match(self.text, begins)
        assert found is not None
        self.place = found.end()
        wide = self.text[self.place : self.place + 1] in ("L", "n")
        self.place += wide
        if not re.fullmatch(r"[-+]?(?:[0-9]+|0[xX][0-9a-fA-F]+)", found[0]):
            raise ForeignFault(begins, double(found[0]))
        return _integer(int(found[0], 16 if "x" in found[0].lower() else 10), wide, begins)

    def _named(self, level: int) -> Value:
        begins, found = self.place, _WORD.match(self.text, self.place)
        if not found:
            why = "the text ends too soon" if begins >= len(self.text) else "a value must stand here"
            raise ForeignFault(begins, why)
        name = re.sub(r"^new\s+", "", found[0])
        self.place = found.end()
        if name in _CONSTANTS:
            return _CONSTANTS[name]
        if name in _NONE:
            raise ForeignFault(begins, none_of(_NONE[name]))
        if name not in _CALLS:
            raise ForeignFault(begins, f"'{name}' is no value; a string stands in quotes")
        self.skip()
        if self.text[self.place : self.place + 1] != "(":
            raise ForeignFault(self.place, f"'{name}' needs its value in ( and )")
        return _called(name, self._items(")", level), begins)

    def _wrapped(self, members: Dict[str, Any], begins: int) -> Value:
        """What the members are, where they wrap a value as Extended JSON does."""
        first = next(iter(members), "")
        if first in _NONE and len(members) <= 2:
            number = str(members[first]) if first == "$numberDouble" else ""
            raise ForeignFault(begins, double(number) if number else none_of(_NONE[first]))
        if first not in _WRAPPERS or first == "$type" and "$binary" not in members:
            return members
        try:
            return _unwrapped(first, members)
        except (ValueError, KeyError, TypeError, AttributeError, binascii.Error):
            raise ForeignFault(begins, f"this is no value of {first}") from None


def double(text: str) -> str:
    """What is told of a double: that there is none, and what could be written."""
    try:
        number = float(text)
    except ValueError:
        number = float("nan")
    if number == number and abs(number) < 2**63 and number == int(number):
        suffix = "" if fits(int(number), 32) else "L"
        return f"there are no doubles: write {int(number)}{suffix} in place of {text}"
    return f'there are no doubles: write an integer in a smaller unit, or the string "{text}", in place of {text}'


def none_of(kind: str) -> str:
    """What is told of a kind that no script has."""
    hint = {"a decimal": ": write an integer or a string", "undefined": ": write null, or leave the field out"}.get(kind, "")
    return f"{kind} stands here, which no script has{hint}"


def unescaped(text: str, begins: int) -> str:
    """What a string in quotes stands for. Two surrogates that belong together are one character."""

    def one(found: "re.Match[str]") -> str:
        sign = found[1]
        if sign[0] in "ux" and len(sign) > 1:
            return chr(int(sign[1:], 16))
        return {"n": "\n", "r": "\r", "t": "\t", "b": "\b", "f": "\f", "v": "\v", "0": "\0"}.get(sign, sign)

    plain = re.sub(r"\\(u[0-9a-fA-F]{4}|x[0-9a-fA-F]{2}|.)", one, text, flags=re.DOTALL)
    try:
        return plain.encode("utf-16", "surrogatepass").decode("utf-16")
    except UnicodeDecodeError:
        raise ForeignFault(begins, "half of a pair of surrogates stands in this string") from None


def _integer(number: int, wide: bool, begins: int) -> Int:
    if not fits(number, 64):
        raise ForeignFault(begins, "this integer has more than 64 bits")
    return Int(number, wide or not fits(number, 32))


def _unwrapped(first: str, members: Dict[str, Any]) -> Value:
    held = members[first]
    if first == "$oid":
        return _object_id([held])
    if first == "$date":
        return Date(milliseconds_of(held) if isinstance(held, str) else held.number)
    if first in ("$numberInt", "$numberLong"):
        number = int(held)
        if not fits(number, 32 if first == "$numberInt" else 64):
            raise ValueError(held)
        return Int(number, first == "$numberLong")
    if first == "$uuid":
        return _uuid([held])
    if first == "$timestamp":
        return Timestamp(_unsigned(held["t"].number), _unsigned(held["i"].number))
    if isinstance(members["$binary"], dict):
        return Binary(_subtype(int(held["subType"], 16)), base64.b64decode(held["base64"], validate=True))
    # The form of older versions.
    return Binary(_subtype(int(str(members["$type"]), 16)), base64.b64decode(members["$binary"], validate=True))


def _unsigned(number: int) -> int:
    if not 0 <= number < 2**32:
        raise ValueError(number)
    return number


def _subtype(number: int) -> int:
    if not 0 <= number < 256:
        raise ValueError(number)
    return number


# What is called by its name.

def _called(name: str, given: List[Any], begins: int) -> Value:
    try:
        return _CALLS[name](given)
    except (ValueError, IndexError, TypeError, AttributeError, KeyError, binascii.Error):
        raise ForeignFault(begins, f"this is no value of {name}(..)") from None


def _object_id(given: List[Any]) -> Value:
    if not re.fullmatch("[0-9a-fA-F]{24}", given[0]):
        raise ValueError(given[0])
    return ObjectId(given[0].lower())


def _date(given: List[Any]) -> Value:
    held = given[0]
    return Date(milliseconds_of(held) if isinstance(held, str) else held.number)


def _of_bits(bits: int) -> Callable[[List[Any]], Value]:
    def read(given: List[Any]) -> Value:
        number = int(given[0]) if isinstance(given[0], str) else given[0].number
        if not fits(number, bits):
            raise ValueError(number)
        return Int(number, bits == 64)

    return read


def _timestamp(given: List[Any]) -> Value:
    if isinstance(given[0], dict):
        given = [given[0]["t"], given[0]["i"]]
    return Timestamp(_unsigned(given[0].number), _unsigned(given[1].number))


def _bin_data(given: List[Any]) -> Value:
    return Binary(_subtype(given[0].number), base64.b64decode(given[1], validate=True))


def _from_base64(given: List[Any]) -> Value:
    return Binary(_subtype(given[1].number if len(given) > 1 else 0), base64.b64decode(given[0], validate=True))


def _from_hex(given: List[Any]) -> Value:
    return Binary(_subtype(given[1].number if len(given) > 1 else 0), bytes.fromhex(given[0]))


def _hex_data(given: List[Any]) -> Value:
    return Binary(_subtype(given[0].number), bytes.fromhex(given[1]))


def _uuid(given: List[Any]) -> Value:
    digits = given[0].replace("-", "")
    if len(digits) != 32:
        raise ValueError(given[0])
    return Binary(4, bytes.fromhex(digits))


_CALLS: Dict[str, Callable[[List[Any]], Value]] = {
    "ObjectId": _object_id, "Id": _object_id, "ISODate": _date, "Date": _date, "NumberLong": _of_bits(64), "Long": _of_bits(64),
    "Long.fromString": _of_bits(64), "NumberInt": _of_bits(32), "Int32": _of_bits(32), "Timestamp": _timestamp, "Time": _timestamp,
    "BinData": _bin_data, "Binary.createFromBase64": _from_base64, "HexData": _hex_data, "Bin": _hex_data,
    "Binary.createFromHexString": _from_hex, "UUID": _uuid,
}


def read_own(text: str) -> Value:
    """The value that a text is in a script's own notation, whose rules it is known to keep."""
    return _OwnReader(text, 0).value(0)


class _OwnReader(_Reader):
    """Reads a script's own notation, in which nothing is wrapped."""

    def _wrapped(self, members: Dict[str, Any], begins: int) -> Value:
        return members

    def _string(self) -> str:
        begins = self.place
        found = re.compile(r'"(?:\\.|[^"\\])*"').match(self.text, begins)
        assert found is not None
        self.place = found.end()
        return str(json.loads(found[0], strict=False))
